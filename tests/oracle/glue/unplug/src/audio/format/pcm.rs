// Stands in for unplug's pcm.rs. The three formats that block reads meet are whole; of the others
// only the names are there.
use super::{Cast, DataCow, Format, FormatTag, PcmFormat, StaticFormat};
use byteorder::{BE, LE};

pub trait AnyPcm: PcmFormat {}

macro_rules! pcm_format {
    ($name:ident, $data:ty, $order:ty) => {
        #[derive(Copy, Clone)]
        pub struct $name;
        impl FormatTag for $name {
            type Data = $data;
            type Params = ();
        }
        impl StaticFormat for $name {
            const FORMAT: Format = Format::$name;
            fn allocate(len: usize) -> Vec<Self::Data> {
                vec![Default::default(); len]
            }
        }
        impl PcmFormat for $name {
            type Endian = $order;
        }
        impl AnyPcm for $name {}
    };
}
pcm_format!(PcmS8, i8, LE);
pcm_format!(PcmS16Le, i16, LE);
pcm_format!(PcmS16Be, i16, BE);

pub struct PcmU16Le;
pub struct PcmS24Le;
pub struct PcmS32Le;
pub struct PcmF32Le;

// Once read, values of both orders are i16 of this machine, so that neither cast changes them.
macro_rules! cast {
    ($from:ident, $to:ident) => {
        impl Cast<$to> for $from {
            fn cast_params(_: ()) -> std::result::Result<(), ()> {
                Ok(())
            }
            fn cast_data(data: DataCow<'_, Self>) -> DataCow<'_, $to> {
                data
            }
        }
    };
}
cast!(PcmS16Le, PcmS16Be);
cast!(PcmS16Be, PcmS16Le);
