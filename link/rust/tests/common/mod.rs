//! A slot that is loaded through the calls as they are linked.
use hps::*;

pub const SLOT: usize = 4096;

fn carry_out(slot: &mut [u8], place: Place, bytes: &[u8]) {
    slot[place.offset..place.offset + place.length].copy_from_slice(&bytes[..place.length]);
}

pub fn side(length: u32) -> Side {
    let mut coefficients = [0; 16];
    coefficients[1] = -5;
    Side { rate: 32_000, length, coefficients, gain: 3, predictor_and_scale: 0x1234, last: -7, oldest: 9 }
}

/// A stereo stream of two blocks, with a range and a loop; and the lengths of its writes.
pub fn loaded() -> (Vec<u8>, usize, Vec<Place>) {
    let mut slot: Vec<u8> = (0..SLOT).map(|i| i as u8).collect();
    let mut lent = [0; 1024];
    let mut places = Vec::new();
    let (mut loader, place) = Loader::begin(SLOT, 2, Looping::Auto, &mut lent).unwrap();
    carry_out(&mut slot, place, &lent);
    places.push(place);
    loader.cue(30, Kind::Loop, 2).unwrap();
    loader.cue(3, Kind::Range(9), 1).unwrap();
    for (i, length) in [(0u8, 32), (1, 17)] {
        let left: Vec<u8> = (0..(length as usize).div_ceil(2)).map(|k| 16 * i + k as u8).collect();
        let right: Vec<u8> = left.iter().map(|b| b | 0x80).collect();
        let place = loader.push(&[(side(length), &left), (side(length), &right)], i == 1, &mut lent).unwrap().unwrap();
        carry_out(&mut slot, place, &lent);
        places.push(place);
    }
    let length = loader.finish(&mut lent).unwrap();
    let mut from = 0;
    for place in FINISH {
        assert_eq!(Opened::open(&slot).err(), Some(if slot[..8] == *b" HALPST\0" { 3 } else { 2 }), "opened before byte 15 was written");
        carry_out(&mut slot, place, &lent[from..]);
        from += place.length;
        places.push(place);
    }
    (slot, length, places)
}
