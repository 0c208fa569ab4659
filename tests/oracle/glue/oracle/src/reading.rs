// HpsReader, ChannelReader and CueIterator on a slot, as text.
use crate::answers::{context, hex, list, refusal};
use std::io::{self, Cursor, ErrorKind, Read, Seek, SeekFrom, Write};
use std::sync::Arc;
use std::sync::atomic::{AtomicU64, Ordering::Relaxed};
use unplug::audio::cue::CueKind;
use unplug::audio::format::adpcm::{Decoder, GcAdpcm};
use unplug::audio::format::dsp::DspFormat;
use unplug::audio::format::{AnyFormat, Format, PcmS8, PcmS16Be};
use unplug::audio::transport::hps::HpsReader;
use unplug::audio::{ReadSamples, Result, Samples};

/// The slot, with document 01's limit of 512 blocks put around the Rust: HpsReader::new seeks once
/// for each block, so that its 513th seek comes before the 513th block is read.
struct Slot<'a> {
    bytes: Cursor<&'a [u8]>,
    seeks_left: Arc<AtomicU64>,
}

impl Read for Slot<'_> {
    fn read(&mut self, buf: &mut [u8]) -> io::Result<usize> {
        self.bytes.read(buf)
    }
    fn read_exact(&mut self, buf: &mut [u8]) -> io::Result<()> {
        self.bytes.read_exact(buf)
    }
}

impl Seek for Slot<'_> {
    fn seek(&mut self, to: SeekFrom) -> io::Result<u64> {
        if self.seeks_left.load(Relaxed) == 0 {
            return Err(io::Error::new(ErrorKind::QuotaExceeded, "over 512 blocks"));
        }
        self.seeks_left.fetch_sub(1, Relaxed);
        self.bytes.seek(to)
    }
}

/// Opens the slot. The limit is opening's alone: reads of an opened slot seek as often as they like.
fn open(slot: &[u8], limited: bool) -> Result<HpsReader<'_>> {
    let seeks_left = Arc::new(AtomicU64::new(if limited { 512 } else { u64::MAX }));
    let slot = Slot { bytes: Cursor::new(slot), seeks_left: Arc::clone(&seeks_left) };
    let hps = HpsReader::new(slot, "slot")?;
    seeks_left.store(u64::MAX, Relaxed);
    Ok(hps)
}

fn samples(length: u64, format: DspFormat) -> u64 {
    match format {
        DspFormat::Adpcm => GcAdpcm::address_to_sample(length as usize) as u64,
        DspFormat::Pcm16 | DspFormat::Pcm8 => length,
    }
}

/// The listing of document 01. Its limits of 65,536 bytes and 512 blocks are not the Rust's; with
/// `limited` they are put around it.
pub fn key(slot: &[u8], limited: bool) -> String {
    if limited && slot.len() > 65_536 {
        return format!("STOP{:>11}\n", 7);
    }
    let hps = match open(slot, limited) {
        Ok(hps) => hps,
        Err(e) => return format!("STOP{:>11}\n", refusal(&e)),
    };
    let loop_start = hps.loop_start().map_or("-".into(), |i| i.to_string());
    let (rate, channels, count) = (hps.sample_rate(), hps.channels(), hps.blocks().count());
    let mut text = format!("HEAD{rate:>11}{channels:>11}{count:>11}{loop_start:>11}\n");
    let format = hps.channel_header(0).address.format;
    let mut offset = 128; // HpsReader shows no offsets: each block's is the next offset before it
    for (i, block) in hps.blocks().enumerate() {
        let length = block.end_address as u64 + 1;
        let (samples, cues) = (samples(length, format), block.cues.len());
        text += &format!("BLCK{i:>11}{offset:>11}{length:>11}{samples:>11}{cues:>11}\n");
        offset = block.next_offset;
    }
    for cue in hps.cues() {
        text += &match cue.kind {
            CueKind::Loop => format!("LOOP{:>21}\n", cue.start),
            _ => format!("CUEP{:>21}{:>11}\n", cue.start, cue.name),
        };
    }
    text
}

/// The channels, then for each channel the addresses remaining, the context in the block's header and
/// the block read at every position up to the end; with `decode` also what decode.rs makes of them.
pub fn read(slot: &[u8], decode: bool) -> String {
    let hps = match open(slot, true) {
        Ok(hps) => hps,
        Err(e) => return format!("STOP {}\n", refusal(&e)),
    };
    let mut text = String::new();
    for c in 0..hps.channels() {
        let header = hps.channel_header(c);
        let (a, adpcm) = (header.address, header.adpcm);
        text += &format!(
            "CHAN {c} looping={} format={} loop={} end={} cur={} coef={} gain={} ctx={}\n",
            a.looping as u8,
            u16::from(a.format),
            a.loop_address,
            a.end_address,
            a.current_address,
            list(adpcm.coefficients),
            adpcm.gain,
            context(&adpcm.context)
        );
    }
    for c in 0..hps.channels() {
        let mut reader = hps.channel_reader(c);
        for position in 0.. {
            text += &format!("LEFT {c} {position} {}\n", reader.data_remaining().unwrap());
            if let Some(block) = hps.blocks().nth(position) {
                text += &format!("CTXT {c} {position} {}\n", context(&block.channel_contexts[c]));
            }
            match reader.read_samples() {
                Ok(Some(block)) => text += &format!("READ {c} {position} {}\n", shown(block)),
                Err(e) => text += &format!("READ {c} {position} STOP {}\n", refusal(&e)),
                Ok(None) => {
                    text += &format!("DONE {c} {position}\n");
                    break;
                }
            }
        }
        if decode {
            text += &decoded(&hps, c);
        }
    }
    text
}

/// A block read. The Rust carries coefficients, gain and context for ADPCM alone.
fn shown(block: Samples<'static, AnyFormat>) -> String {
    let start = format!("ch={} rate={}", block.channels, block.rate);
    let length = block.len;
    match block.format() {
        Format::GcAdpcm => {
            let block = block.cast::<GcAdpcm>();
            format!(
                "{start} format=0 len={length} coef={} gain={} ctx={} data={}",
                list(block.params.coefficients),
                block.params.gain,
                context(&block.params.context),
                hex(&block.data)
            )
        }
        Format::PcmS16Be => {
            let block = block.cast::<PcmS16Be>();
            let data: Vec<u8> = block.data.iter().flat_map(|v| v.to_be_bytes()).collect();
            format!("{start} format=10 len={} data={}", block.len, hex(&data))
        }
        _ => {
            let block = block.cast::<PcmS8>();
            let data: Vec<u8> = block.data.iter().map(|v| *v as u8).collect();
            format!("{start} format=25 len={} data={}", block.len, hex(&data))
        }
    }
}

/// What Decoder gives at every position up to the end, and its context afterwards. An error moves it on too.
fn decoded(hps: &HpsReader, channel: usize) -> String {
    let mut text = String::new();
    let mut decoder = Decoder::new(hps.channel_reader(channel).cast());
    for position in 0.. {
        let given = decoder.read_samples();
        let after = context(&decoder.context());
        text += &format!("PCM {channel} {position} after={after} ");
        match given {
            Ok(Some(block)) => text += &format!("len={} data={}\n", block.len, list(block.data.iter())),
            Err(e) => text += &format!("STOP {}\n", refusal(&e)),
            Ok(None) => {
                text += "DONE\n";
                break;
            }
        }
    }
    text
}

/// Writes a channel's samples, decoded block by block, as 16-bit little-endian numbers: one write for each block.
pub fn pcm(slot: &[u8], channel: usize, mut out: impl Write) -> Result<()> {
    let hps = open(slot, true)?;
    let mut decoder = Decoder::new(hps.channel_reader(channel).cast());
    let mut bytes = vec![];
    while let Some(block) = decoder.read_samples()? {
        bytes.resize(2 * block.data.len(), 0);
        for (place, sample) in bytes.chunks_exact_mut(2).zip(block.data.iter()) {
            place.copy_from_slice(&sample.to_le_bytes());
        }
        out.write_all(&bytes)?;
    }
    Ok(())
}

/// channel_reader with this index, and no read.
pub fn channel(slot: &[u8], channel: usize) -> String {
    match open(slot, true) {
        Ok(hps) => format!("reader {:?}\n", hps.channel_reader(channel).format()),
        Err(e) => format!("STOP {}\n", refusal(&e)),
    }
}

/// Channel 0: the addresses remaining before each read, with two reads more than reach the end.
pub fn past(slot: &[u8]) -> String {
    let hps = match open(slot, true) {
        Ok(hps) => hps,
        Err(e) => return format!("STOP {}\n", refusal(&e)),
    };
    let mut reader = hps.channel_reader(0);
    let mut text = String::new();
    for _ in 0..hps.blocks().count() + 3 {
        let left = reader.data_remaining().unwrap();
        let read = match reader.read_samples() {
            Ok(Some(_)) => "READ".into(),
            Ok(None) => "DONE".into(),
            Err(e) => format!("STOP {}", refusal(&e)),
        };
        text += &format!("LEFT {left} {read}\n");
    }
    text
}
