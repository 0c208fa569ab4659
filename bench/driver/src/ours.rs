//! This library's side of each measurement.
use crate::inputs::{COEFFICIENTS, RATE};
use hps::{CUE_SIZE, Cursor, FINISH, Kind, Loader, Looping, Opened, Place, Side};
use std::hint::black_box;

pub fn open(slot: &[u8]) -> Opened {
    Opened::open(slot).unwrap()
}

/// Into a record that is lent.
pub fn opened(slot: &[u8], record: &mut Opened) -> usize {
    record.open_again(slot).unwrap();
    black_box(&*record).blocks()
}

/// With the record given by value, which moves it.
pub fn opened_by_value(slot: &[u8]) -> usize {
    black_box(&open(slot)).blocks()
}

/// Every block of every channel: where its data lies.
pub fn blocks(slot: &[u8], opened: &Opened) -> usize {
    let mut bytes = 0;
    for c in 0..opened.channels() {
        let mut position = 0;
        while let Some(b) = opened.block(slot, c, &mut position).unwrap() {
            bytes += black_box(&slot[b.start..b.end]).len();
        }
    }
    bytes
}

/// All cues, 256 at a time.
pub fn cues(slot: &[u8], opened: &Opened) -> u64 {
    let mut out = [0; 256 * CUE_SIZE];
    let mut cursor = Cursor::default();
    let mut sum = 0u64;
    loop {
        let (cues, more) = opened.cues(slot, &mut cursor, &mut out).unwrap();
        for bytes in cues.chunks(CUE_SIZE) {
            sum = sum.wrapping_add(black_box(hps::cue(bytes)).start);
        }
        if !more {
            return sum;
        }
    }
}

/// The listing into a lent buffer.
pub fn listing<'a>(slot: &[u8], out: &'a mut [u8]) -> &'a [u8] {
    hps::listing(slot, out)
}

/// The server carries a write out.
fn carry_out(slot: &mut [u8], place: Place, bytes: &[u8]) {
    slot[place.offset..place.offset + place.length].copy_from_slice(&bytes[..place.length]);
}

fn side(part: &[u8]) -> Side {
    Side { rate: RATE, length: 2 * part.len() as u32, coefficients: COEFFICIENTS, ..Side::default() }
}

/// Begin, and the loop cue.
fn begin(slot: &mut [u8], lent: &mut [u8]) -> Loader {
    let (mut loader, place) = Loader::begin(slot.len(), 1, Looping::Auto, lent).unwrap();
    carry_out(slot, place, lent);
    loader.cue(0, Kind::Loop, 0).unwrap();
    loader
}

fn finish(mut loader: Loader, slot: &mut [u8], lent: &mut [u8]) -> usize {
    let finished = loader.finish(lent).unwrap();
    let mut from = 0;
    for place in FINISH {
        carry_out(slot, place, &lent[from..]);
        from += place.length;
    }
    finished
}

/// Loads the stream into the slot: each write's bytes are handed out in `lent` and then carried out.
pub fn load(data: &[u8], block: usize, slot: &mut [u8], lent: &mut [u8]) -> usize {
    let mut loader = begin(slot, lent);
    let count = data.len().div_ceil(block);
    for (i, part) in data.chunks(block).enumerate() {
        let place = loader.push(&[(side(part), part)], i + 1 == count, lent).unwrap().unwrap();
        carry_out(slot, place, lent);
    }
    finish(loader, slot, lent)
}

/// The same with the slot's own bytes lent to push, which are then where they belong.
pub fn load_in_place(data: &[u8], block: usize, slot: &mut [u8]) -> usize {
    let mut lent = [0; 128];
    let mut loader = begin(slot, &mut lent);
    let count = data.len().div_ceil(block);
    let mut next = 128;
    for (i, part) in data.chunks(block).enumerate() {
        let place = loader.push(&[(side(part), part)], i + 1 == count, &mut slot[next..]).unwrap().unwrap();
        next = place.offset + place.length;
    }
    finish(loader, slot, &mut lent)
}
