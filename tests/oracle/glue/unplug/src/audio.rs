// Stands in for unplug's audio.rs: the modules, the error type and the progress hint.
pub mod cue;
pub mod format;
pub mod resample;
pub mod sample;
pub mod transport;

pub use cue::Cue;
pub use format::Format;
pub use sample::{ReadSamples, Samples, SourceChannel, SourceTag};

use std::io;
use std::num::NonZeroU64;

pub type Result<T> = std::result::Result<T, Error>;

/// The cases that the sources name, and no others.
#[derive(Debug)]
pub enum Error {
    BlockTooLarge(usize, usize),
    DifferentChannelSizes,
    DifferentCoefficients,
    EmptyStream,
    InconsistentChannels,
    InconsistentSampleRate,
    InvalidChannelCount(u32),
    InvalidHpsMagic,
    InvalidSampleRate(u32),
    Io(io::Error),
    NotFrameAligned,
    StreamNotMono,
    StreamNotStereo,
    UnrecognizedSampleFormat(u16),
    UnsupportedChannels,
    UnsupportedFormat(Format),
}

impl From<io::Error> for Error {
    fn from(e: io::Error) -> Self {
        Self::Io(e)
    }
}

#[derive(Debug, Copy, Clone, PartialEq, Eq)]
pub struct ProgressHint {
    pub current: u64,
    pub total: NonZeroU64,
}

impl ProgressHint {
    pub fn new(current: u64, total: u64) -> Option<Self> {
        Some(Self { current, total: NonZeroU64::new(total)? })
    }
}
