//! The Rust reference's side of each measurement.
use crate::inputs::{COEFFICIENTS, RATE};
use std::fmt::Write;
use std::hint::black_box;
use std::io::Cursor;
use unplug::audio::cue::{Cue, CueKind};
use unplug::audio::format::adpcm::{FrameContext, GcAdpcm, Info};
use unplug::audio::format::dsp::DspFormat;
use unplug::audio::format::Format;
use unplug::audio::transport::hps::{HpsReader, HpsWriter, Looping};
use unplug::audio::{ProgressHint, ReadSamples, Result, Samples, SourceTag};

pub fn open(slot: &[u8]) -> HpsReader<'_> {
    HpsReader::new(Cursor::new(slot), "slot").unwrap()
}

pub fn opened(slot: &[u8]) -> usize {
    black_box(&open(slot)).blocks().count()
}

/// Every block of every channel.
pub fn blocks(hps: &HpsReader) -> usize {
    let mut bytes = 0;
    for c in 0..hps.channels() {
        let mut reader = hps.channel_reader(c);
        while let Some(block) = reader.read_samples().unwrap() {
            let block = black_box(block.cast::<GcAdpcm>());
            bytes += block.data.len();
        }
    }
    bytes
}

pub fn cues(hps: &HpsReader) -> u64 {
    hps.cues().map(|cue| black_box(cue).start).fold(0, u64::wrapping_add)
}

/// The listing as a program over HpsReader would print it.
pub fn listing(slot: &[u8]) -> String {
    let hps = open(slot);
    let loop_start = hps.loop_start().map_or("-".into(), |i| i.to_string());
    let (rate, channels, count) = (hps.sample_rate(), hps.channels(), hps.blocks().count());
    let mut text = String::new();
    writeln!(text, "HEAD{rate:>11}{channels:>11}{count:>11}{loop_start:>11}").unwrap();
    let format = hps.channel_header(0).address.format;
    let mut offset = 128;
    for (i, block) in hps.blocks().enumerate() {
        let length = block.end_address as u64 + 1;
        let samples = match format {
            DspFormat::Adpcm => GcAdpcm::address_to_sample(length as usize) as u64,
            DspFormat::Pcm16 | DspFormat::Pcm8 => length,
        };
        let cues = block.cues.len();
        writeln!(text, "BLCK{i:>11}{offset:>11}{length:>11}{samples:>11}{cues:>11}").unwrap();
        offset = block.next_offset;
    }
    for cue in hps.cues() {
        match cue.kind {
            CueKind::Loop => writeln!(text, "LOOP{:>21}", cue.start).unwrap(),
            _ => writeln!(text, "CUEP{:>21}{:>11}", cue.start, cue.name).unwrap(),
        }
    }
    text
}

/// Blocks that HpsWriter pulls: parts of one lent buffer, as the other side has them.
pub struct Source<'a> {
    blocks: std::vec::IntoIter<Samples<'a, GcAdpcm>>,
    tag: SourceTag,
}

impl<'a> Source<'a> {
    pub fn new(data: &'a [u8], block: usize) -> Self {
        let samples = |part: &'a [u8]| Samples {
            channels: 1,
            rate: RATE,
            len: 2 * part.len(),
            data: part.into(),
            params: Info {
                coefficients: COEFFICIENTS,
                gain: 0,
                context: FrameContext::default(),
            },
        };
        let blocks: Vec<_> = data.chunks(block).map(samples).collect();
        Source { blocks: blocks.into_iter(), tag: SourceTag::default() }
    }
}

impl<'a> ReadSamples<'a> for Source<'a> {
    type Format = GcAdpcm;
    fn read_samples(&mut self) -> Result<Option<Samples<'a, GcAdpcm>>> {
        Ok(self.blocks.next())
    }
    fn format(&self) -> Format {
        Format::GcAdpcm
    }
    fn tag(&self) -> &SourceTag {
        &self.tag
    }
    fn progress(&self) -> Option<ProgressHint> {
        None
    }
    fn data_remaining(&self) -> Option<u64> {
        None
    }
    fn cues(&self) -> Box<dyn Iterator<Item = Cue> + '_> {
        Box::from([Cue::new_loop("loop", 0)].into_iter())
    }
}

/// Loads the stream into the slot.
pub fn load(source: Source, slot: &mut [u8]) {
    HpsWriter::with_mono(source).looping(Looping::Auto).write_to(Cursor::new(slot)).unwrap();
}
