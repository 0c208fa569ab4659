//! What must hold of begin, cue, push, finish and the estimate as they are linked: the numbers, what is left alone on a refusal, the sizes of lent buffers.
mod common;

use common::{SLOT, loaded, side};
use hps::*;

#[test]
fn begin_refuses_in_its_order() {
    let mut lent = [0x5A; 4];
    for (slot, channels, lent_length, number) in [(100, 3, 0, 3), (100, 0, 0, 3), (191, 1, 0, 7), (16_777_217, 2, 0, 7), (192, 1, 0, 14)] {
        assert_eq!(Loader::begin(slot, channels, Looping::Enabled, &mut lent[..lent_length]).err(), Some(number));
    }
    assert_eq!(lent, [0x5A; 4]);
    Loader::begin(192, 1, Looping::Enabled, &mut lent).unwrap();
    assert_eq!(lent, [0, 0x5A, 0x5A, 0x5A]);
}

/// Begin into lent bytes of any length.
fn begin_into(slot: usize, channels: usize, mode: u32, kept: &mut [u8]) -> u32 {
    let (mut lent, mut place) = ([0], Place::default());
    unsafe {
        raw::hps_begin(slot, channels, mode, kept.as_mut_ptr(), kept.len(), lent.as_mut_ptr(), 1, &mut place.offset, &mut place.length)
    }
}

#[test]
fn begin_refuses_short_records_and_unknown_modes_first() {
    let mut kept = [0x5A; LOADER_SIZE];
    for (room, mode, channels, slot, number) in [(LOADER_SIZE - 1, 3, 3, 0, NO_ROOM), (0, 0, 1, 192, NO_ROOM), (LOADER_SIZE, 3, 3, 0, NO_KIND), (LOADER_SIZE, 2, 3, 0, 3)] {
        assert_eq!(begin_into(slot, channels, mode, &mut kept[..room]), number);
        assert!(kept.iter().all(|b| *b == 0x5A), "refused with {number}");
    }
}

/// Push, with sides and record in lent bytes of any length.
fn push_into(kept: &mut [u8], channels: usize, left: &[u8], right: &[u8], last: bool) -> u32 {
    let (data, mut lent, mut place) = ([7; 8], [0; 256], Place::default());
    let (l, r, d) = ((left.as_ptr(), left.len()), (right.as_ptr(), right.len()), data.as_ptr());
    let out = (lent.as_mut_ptr(), lent.len());
    unsafe {
        raw::hps_push(
            kept.as_mut_ptr(), kept.len(), channels, l.0, l.1, d, 8, r.0, r.1, d, 8, last, out.0, out.1, &mut place.offset, &mut place.length,
        )
    }
}

/// A side of 16 addresses.
const SIDE: [u8; SIDE_SIZE] = {
    let mut b = [0; SIDE_SIZE];
    (b[2], b[7]) = (0x7D, 16);
    b
};

#[test]
fn a_side_too_short_is_refused() {
    let short = &SIDE[..SIDE_SIZE - 1];
    for (channels, left, right, number) in [
        (1, &SIDE[..8], &SIDE[..], NO_SIDE),
        (1, short, &SIDE, NO_SIDE),
        (2, &SIDE, short, NO_SIDE),
        (2, short, &SIDE, NO_SIDE),
        (3, short, &SIDE, NO_SIDE),
        (3, &SIDE, short, 29),
        (2, &SIDE, &SIDE, 0),
        (1, &SIDE, &[], 0),
    ] {
        let mut kept = [0; LOADER_SIZE];
        assert_eq!(begin_into(SLOT, if channels == 1 { 1 } else { 2 }, 2, &mut kept), 0);
        let before = kept;
        assert_eq!(push_into(&mut kept, channels, left, right, false), number);
        assert!(number == 0 || kept == before, "the record was changed by a call refused with {number}");
    }
    assert_eq!(push_into(&mut [0xFF; LOADER_SIZE], 1, short, &[], false), NO_RECORD, "no record comes before a side too short");
}

#[test]
fn bytes_past_the_record_are_left_alone() {
    const LONG: usize = LOADER_SIZE + 24;
    let mut kept = [0x5A; LONG];
    let past = |kept: &[u8; LONG], call| assert!(kept[LOADER_SIZE..].iter().all(|b| *b == 0x5A), "bytes beyond the record were changed by {call}");
    assert_eq!(begin_into(SLOT, 1, 2, &mut kept), 0);
    assert!(kept[184..].iter().all(|b| *b == 0x5A), "begin puts numbers and sides, and leaves the table's place");
    assert_eq!(unsafe { raw::hps_cue(kept.as_mut_ptr(), LONG, 5, 0, 0, 1) }, 0);
    assert!(kept[208..].iter().all(|b| *b == 0x5A), "cue puts the table's cues, and leaves the rest of its place");
    assert_eq!(push_into(&mut kept, 1, &SIDE, &[], false), 0);
    past(&kept, "the first push");
    let sides = kept[88..184].to_vec();
    assert_eq!(push_into(&mut kept, 1, &SIDE, &[], true), 0);
    assert!(kept[88..184] == sides && kept[208..].iter().all(|b| *b == 0x5A), "a later push puts the numbers alone");
    let (before, mut lent, mut finished) = (kept, [0; 128], 0);
    assert_eq!(unsafe { raw::hps_finish(kept.as_mut_ptr(), LONG, lent.as_mut_ptr(), 128, &mut finished) }, 0);
    assert!(kept[..84] == before[..84] && kept[84..88] == [0, 0, 0, 1] && kept[88..] == before[88..], "finish puts its mark alone");
}

/// A refused call: its number, and the record and the lent bytes as they were.
fn refused(loader: &Loader, number: u32, call: impl Fn(&mut Loader, &mut [u8]) -> Result<(), u32>) {
    let (mut after, mut lent) = (loader.clone(), [0x5A; 256]);
    assert_eq!(call(&mut after, &mut lent), Err(number));
    assert!(after == *loader, "the record was changed by a call refused with {number}");
    assert!(lent.iter().all(|b| *b == 0x5A), "the lent bytes were changed by a call refused with {number}");
}

#[test]
fn refused_loading_calls_change_nothing() {
    let mut lent = [0; 256];
    let (mut loader, _) = Loader::begin(300, 1, Looping::Auto, &mut lent).unwrap();
    refused(&loader, 8, |l, _| l.cue(2_147_483_648, Kind::Point, 1));
    refused(&loader, 8, |l, _| l.cue(0, Kind::Range(0), 1));
    refused(&loader, 27, |l, lent| l.finish(lent).map(drop));
    refused(&loader, 29, |l, lent| l.push(&[(side(16), &[0; 8]), (side(16), &[0; 8])], false, lent).map(drop));
    refused(&loader, 9, |l, lent| l.push(&[(Side { rate: 0, ..side(16) }, &[0; 8])], false, lent).map(drop));
    refused(&loader, 10, |l, lent| l.push(&[(side(1), &[0; 1])], false, lent).map(drop));
    refused(&loader, 11, |l, lent| l.push(&[(side(16), &[0; 9])], false, lent).map(drop));
    refused(&loader, 13, |l, lent| l.push(&[(side(131_073), &[0; 8])], false, lent).map(drop));
    refused(&loader, 14, |l, lent| l.push(&[(side(16), &[0; 8])], false, &mut lent[..63]).map(drop));
    refused(&loader, 24, |l, lent| l.push(&[(side(400), &[0; 200])], false, lent).map(drop));
    loader.push(&[(side(16), &[0; 8])], false, &mut lent).unwrap();
    refused(&loader, 21, |l, _| l.cue(0, Kind::Point, 1));
    refused(&loader, 22, |l, lent| l.push(&[(Side { rate: 1, ..side(16) }, &[0; 8])], false, lent).map(drop));
    refused(&loader, 23, |l, lent| l.push(&[(Side { coefficients: [0; 16], ..side(16) }, &[0; 8])], false, lent).map(drop));
    refused(&loader, 28, |l, lent| l.finish(lent).map(drop));
    loader.push(&[(side(16), &[0; 8])], true, &mut lent).unwrap();
    refused(&loader, 26, |l, lent| l.push(&[(side(16), &[0; 8])], true, lent).map(drop));
    refused(&loader, 14, |l, lent| l.finish(&mut lent[..127]).map(drop));
    assert_eq!(loader.finish(&mut lent), Ok(256));
    refused(&loader, 26, |l, lent| l.finish(lent).map(drop));
}

/// A push of no addresses: no write, and the record and the lent bytes as they were.
fn nothing(loader: &mut Loader, sides: &[(Side, &[u8])], lent: &mut [u8]) {
    let (before, bytes) = (loader.clone(), lent.to_vec());
    assert_eq!(loader.push(sides, false, lent), Ok(None));
    assert!(*loader == before, "the record was changed by a push of no addresses");
    assert!(lent == bytes, "the lent bytes were changed by a push of no addresses");
}

/// Its offset and length as they are given to C.
fn nothing_raw(kept: &mut [u8], channels: usize, right: &[u8], right_data: &[u8], last: bool) -> (u32, usize, usize) {
    let (left, mut lent, mut offset, mut length) = ([0; SIDE_SIZE], [0x5A; 8], 0x5A, 0x5A);
    let number = unsafe {
        raw::hps_push(
            kept.as_mut_ptr(), kept.len(), channels, left.as_ptr(), SIDE_SIZE, left.as_ptr(), 0, right.as_ptr(), right.len(), right_data.as_ptr(), right_data.len(),
            last, lent.as_mut_ptr(), lent.len(), &mut offset, &mut length,
        )
    };
    assert_eq!(lent, [0x5A; 8]);
    (number, offset, length)
}

#[test]
fn a_push_of_no_addresses_leaves_everything() {
    let mut lent = [0x5A; 256];
    let (mut loader, _) = Loader::begin(300, 1, Looping::Auto, &mut lent).unwrap();
    let odd = Side { rate: 0, coefficients: [9; 16], gain: 7, ..side(0) };
    nothing(&mut loader, &[(odd, &[])], &mut lent);
    loader.cue(5, Kind::Point, 1).unwrap();
    nothing(&mut loader, &[(side(0), &[])], &mut []);
    loader.push(&[(side(16), &[7; 8])], false, &mut lent).unwrap().unwrap();
    nothing(&mut loader, &[(odd, &[])], &mut lent);
    refused(&loader, 10, |l, lent| l.push(&[(side(0), &[0])], false, lent).map(drop));
    refused(&loader, 10, |l, lent| l.push(&[(side(0), &[])], true, lent).map(drop));
    refused(&loader, 29, |l, lent| l.push(&[(side(0), &[]), (side(0), &[])], false, lent).map(drop));
    loader.push(&[(side(16), &[7; 8])], true, &mut lent).unwrap().unwrap();
    refused(&loader, 26, |l, lent| l.push(&[(side(0), &[])], false, lent).map(drop));
    assert_eq!(loader.finish(&mut lent), Ok(288));
}

#[test]
fn a_push_of_no_addresses_as_c_has_it() {
    for channels in [1, 2] {
        let mut kept = [0x5A; LOADER_SIZE + 8];
        assert_eq!(begin_into(300, channels, 2, &mut kept), 0);
        let before = kept;
        assert_eq!(nothing_raw(&mut kept, channels, &[0; SIDE_SIZE], &[], false), (0, 0, 0));
        assert_eq!(nothing_raw(&mut kept, channels, &[0; SIDE_SIZE], &[], true), (9, 0x5A, 0x5A), "with the last mark");
        assert_eq!(nothing_raw(&mut kept, channels, &[0; SIDE_SIZE], &[1], false), if channels == 1 { (0, 0, 0) } else { (9, 0x5A, 0x5A) });
        assert!(kept == before, "every byte of the record, and those past it");
    }
}

#[test]
fn stereo_sides_must_agree() {
    let mut lent = [0; 256];
    let (loader, _) = Loader::begin(4096, 2, Looping::Auto, &mut lent).unwrap();
    refused(&loader, 15, |l, lent| l.push(&[(side(16), &[0; 8]), (Side { rate: 1, ..side(16) }, &[0; 8])], false, lent).map(drop));
    refused(&loader, 12, |l, lent| l.push(&[(side(16), &[0; 8]), (side(17), &[0; 9])], false, lent).map(drop));
}

#[test]
fn the_table_takes_128_cues_and_then_only_equal_ones() {
    let mut lent = [0; 1];
    let (mut loader, _) = Loader::begin(4096, 1, Looping::Auto, &mut lent).unwrap();
    for i in 0..128 {
        loader.cue(i, Kind::Point, 7).unwrap();
    }
    refused(&loader, 20, |l, _| l.cue(200, Kind::Point, 7));
    let full = loader.clone();
    assert_eq!(loader.cue(100, Kind::Point, 7), Ok(()));
    assert!(loader == full, "an equal cue adds nothing");
}

#[test]
fn bytes_that_are_no_loader_are_refused() {
    for bytes in [[0xFF; LOADER_SIZE], [0x01; LOADER_SIZE]] {
        let wrong = Loader::from_bytes(bytes);
        refused(&wrong, NO_RECORD, |l, _| l.cue(0, Kind::Point, 1));
        refused(&wrong, NO_RECORD, |l, lent| l.push(&[(side(16), &[0; 8])], false, lent).map(drop));
        refused(&wrong, NO_RECORD, |l, lent| l.finish(lent).map(drop));
    }
}

/// Whatever the host hands in as a record: the calls end and write nothing outside of what is lent.
#[test]
fn changed_records_do_no_harm() {
    let (slot, _, _) = loaded();
    let mut lent = [0; 256];
    let (loader, _) = Loader::begin(SLOT, 1, Looping::Enabled, &mut lent).unwrap();
    let mut x = 1u64;
    let mut next = move || {
        x = x.wrapping_mul(6_364_136_223_846_793_005).wrapping_add(1_442_695_040_888_963_407);
        (x >> 33) as usize
    };
    for _ in 0..20_000 {
        let mut opened = [0; OPENED_SIZE];
        open_into(&slot, &mut opened).unwrap();
        let mut bytes = *loader.bytes();
        for _ in 0..next() % 4 {
            opened[next() % 200] = next() as u8;
            bytes[next() % 200] = next() as u8;
        }
        let (opened, mut loader) = (Opened::from_bytes(opened), Loader::from_bytes(bytes));
        let mut position = next() % 4;
        if let Ok(Some(b)) = opened.block(&slot, next() % 3, &mut position) {
            assert!(b.start <= b.end && b.end <= slot.len());
        }
        let _ = opened.remaining(&slot, next() % 4);
        let _ = opened.next_cue(&slot, &mut Cursor::default());
        let _ = loader.cue(next() as u64, Kind::Point, 1);
        let mut lent = [0x5A; 80];
        let _ = loader.push(&[(side(16), &[0; 8])], false, &mut lent[..72]);
        assert_eq!(lent[72..], [0x5A; 8]);
    }
}

#[test]
fn the_estimate_refuses_in_its_order_and_is_never_below_the_finished_length() {
    assert_eq!(estimate(&[16; 513], 3, 0), Err(3));
    assert_eq!(estimate(&[1; 513], 1, 0), Err(5));
    assert_eq!(estimate(&[16, 1], 1, 0), Err(10));
    assert_eq!(estimate(&[131_073], 1, 0), Err(13));
    assert_eq!(estimate(&[32, 17], 2, 1), Ok(128 + 2 * 32 + 2 * 32 + 2 * 32 + 32));
    assert_eq!(estimate(&[32, 17], 2, 1).unwrap(), loaded().1 as u64);
}
