// Stands in for unplug's convert.rs: the trait that reader.rs and sample.rs name. It is reached only
// from HpsReader::channel_decoder on a PCM channel, which is not compared.
use super::{AnyFormat, DynamicFormat, PcmS16Le};
use crate::audio::ReadSamples;

pub trait Convert<To: DynamicFormat>: DynamicFormat {
    fn convert<'r, 's: 'r>(
        reader: Box<dyn ReadSamples<'s, Format = Self> + 'r>,
    ) -> Box<dyn ReadSamples<'s, Format = To> + 'r>;
}

impl Convert<PcmS16Le> for AnyFormat {
    fn convert<'r, 's: 'r>(
        _reader: Box<dyn ReadSamples<'s, Format = Self> + 'r>,
    ) -> Box<dyn ReadSamples<'s, Format = PcmS16Le> + 'r> {
        unimplemented!("conversion of PCM is not compared")
    }
}
