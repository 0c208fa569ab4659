// Stands in for unplug's resample.rs. sample.rs names the type in one method; nothing here calls it.
use super::ReadSamples;
use super::format::pcm::AnyPcm;
use std::marker::PhantomData;

pub struct Resample<'r, 's, F: AnyPcm>(PhantomData<(&'r (), &'s (), F)>);

impl<'r, 's, F: AnyPcm> Resample<'r, 's, F> {
    pub fn new(_reader: impl ReadSamples<'s, Format = F> + 'r, _rate: u32) -> Self {
        unimplemented!("resampling is not compared")
    }
}
