// Stands in for unplug's endian.rs: numbers from bytes of a given order, and back. Of the calls that
// are compared only block reads of PCM16 and PCM8 come here.
use byte_slice_cast::{AsSliceOf, FromByteSlice, ToByteSlice, ToMutByteSlice};
use byteorder::{BE, ByteOrder, LE};
use std::io::{self, Read, Write};

pub trait IsNative {
    fn is_native() -> bool;
}

impl IsNative for LE {
    fn is_native() -> bool {
        cfg!(target_endian = "little")
    }
}

impl IsNative for BE {
    fn is_native() -> bool {
        cfg!(target_endian = "big")
    }
}

/// Turns numbers of the order `E` into numbers of this machine, or back, where they stand.
pub trait ConvertEndian<T> {
    fn convert_endian<E: ByteOrder + IsNative>(self);
}

impl ConvertEndian<i8> for &mut [i8] {
    fn convert_endian<E: ByteOrder + IsNative>(self) {}
}

impl ConvertEndian<i16> for &mut [i16] {
    fn convert_endian<E: ByteOrder + IsNative>(self) {
        E::from_slice_i16(self);
    }
}

pub trait ReadValuesExt: Read {
    fn read_values_to_end<E, T>(&mut self) -> io::Result<Vec<T>>
    where
        E: ByteOrder + IsNative,
        T: ToByteSlice + ToMutByteSlice + FromByteSlice + Copy,
        for<'a> &'a mut [T]: ConvertEndian<T>,
    {
        let mut bytes = vec![];
        self.read_to_end(&mut bytes)?;
        if bytes.is_empty() {
            return Ok(vec![]);
        }
        // as_slice_of wants memory aligned for T: room of u64 is aligned for all of them
        let mut room = vec![0u64; bytes.len().div_ceil(8)];
        for (word, part) in room.iter_mut().zip(bytes.chunks(8)) {
            let mut eight = [0u8; 8];
            eight[..part.len()].copy_from_slice(part);
            *word = u64::from_ne_bytes(eight);
        }
        // SAFETY: room holds at least bytes.len() bytes, all of them set
        let flat = unsafe { std::slice::from_raw_parts(room.as_ptr() as *const u8, bytes.len()) };
        let mut values = flat.as_slice_of::<T>().expect("odd number of bytes").to_vec();
        values.as_mut_slice().convert_endian::<E>();
        Ok(values)
    }
}

impl<R: Read + ?Sized> ReadValuesExt for R {}

pub trait WriteValuesExt: Write {
    fn write_all_values<E, T>(&mut self, values: &[T]) -> io::Result<()>
    where
        E: ByteOrder + IsNative,
        T: ToByteSlice + ToMutByteSlice + FromByteSlice + Copy,
        for<'a> &'a mut [T]: ConvertEndian<T>,
    {
        let mut copy = values.to_vec();
        copy.as_mut_slice().convert_endian::<E>();
        self.write_all(T::to_byte_slice(&copy))
    }
}

impl<W: Write + ?Sized> WriteValuesExt for W {}
