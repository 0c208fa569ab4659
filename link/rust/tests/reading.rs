//! What must hold of opening, block reads, cues and listing as they are linked: the numbers, what is left alone on a refusal, what a finished slot opens to.
mod common;

use common::loaded;
use hps::*;

#[test]
fn a_finished_slot_opens_to_what_was_loaded() {
    let (slot, length, places) = loaded();
    let opened = Opened::open(&slot).unwrap();
    assert_eq!((opened.rate(), opened.channels(), opened.blocks(), opened.loop_start()), (32_000, 2, 2, Some(1)));
    assert_eq!(places[0], Place { offset: 15, length: 1 });
    assert_eq!(places[1], Place { offset: 128, length: 32 + 32 + 32 + 32 });
    assert_eq!(places[2], Place { offset: 256, length: 32 + 32 + 32 });
    assert_eq!(length, 352);
    for channel in 0..2 {
        let mut position = 0;
        for (length, bytes) in [(32, 16), (17, 9)] {
            let b = opened.block(&slot, channel, &mut position).unwrap().unwrap();
            assert_eq!((b.length, b.end - b.start), (length, bytes));
            assert_eq!((b.predictor_and_scale, b.last, b.oldest), (0x1234, -7, 9));
            let first = 16 * (position as u8 - 1) | if channel == 1 { 0x80 } else { 0 };
            assert_eq!(slot[b.start], first);
        }
        assert_eq!(position, 2);
        assert_eq!(opened.block(&slot, channel, &mut position), Ok(None));
        assert_eq!(position, 2);
    }
    assert_eq!(opened.remaining(&slot, 0), Ok(49));
    assert_eq!(opened.remaining(&slot, 1), Ok(17));
    assert_eq!(opened.remaining(&slot, 2), Ok(0));
}

#[test]
fn cues_come_one_by_one_as_they_come_together() {
    let (slot, _, _) = loaded();
    let opened = Opened::open(&slot).unwrap();
    let mut cursor = Cursor::default();
    let mut one_by_one = Vec::new();
    while let Some(cue) = opened.next_cue(&slot, &mut cursor).unwrap() {
        one_by_one.push(cue);
    }
    assert_eq!(one_by_one, [Cue { start: 3, point: Some(1) }, Cue { start: 28, point: None }]);
    assert_eq!(opened.next_cue(&slot, &mut cursor), Ok(None));
    let mut out = [0xEE; 10 * CUE_SIZE];
    let (together, more) = opened.cues(&slot, &mut Cursor::default(), &mut out).unwrap();
    assert_eq!(together.chunks(CUE_SIZE).map(cue).collect::<Vec<_>>(), one_by_one);
    assert!(!more);
    assert!(out[2 * CUE_SIZE..].iter().all(|b| *b == 0xEE), "bytes beyond the cues were changed");
}

#[test]
fn opening_refuses_by_number_and_leaves_the_lent_bytes() {
    let (slot, _, _) = loaded();
    let mut bad_magic = slot.clone();
    bad_magic[3] ^= 1;
    let mut bad_count = slot.clone();
    bad_count[15] = 3;
    let mut bad_format = slot.clone();
    bad_format[19] = 9;
    for (number, slot) in [(1, &slot[..140]), (2, &bad_magic[..]), (3, &bad_count), (4, &bad_format), (7, &vec![0; 16_777_217])] {
        let mut opened = [0x5A; OPENED_SIZE];
        assert_eq!(open_into(slot, &mut opened), Err(number));
        assert!(opened.iter().all(|b| *b == 0x5A), "refused with {number}");
    }
    // Too few bytes for the record come before every other number.
    for slot in [&slot[..], &bad_count, &vec![0; 16_777_217]] {
        let mut short = [0x5A; OPENED_SIZE - 1];
        assert_eq!(open_into(slot, &mut short), Err(NO_ROOM));
        assert!(short.iter().all(|b| *b == 0x5A));
    }
    let mut long = [0x5A; OPENED_SIZE + 8];
    assert_eq!(open_into(&slot, &mut long), Ok(()));
    let offsets: Vec<u32> = long[136..OPENED_SIZE].chunks(4).map(|b| u32::from_be_bytes(b.try_into().unwrap())).collect();
    assert_eq!(offsets[..2], [128, 256]);
    assert!(offsets[2..].iter().all(|offset| *offset == 0), "the offsets beyond the blocks are zeros");
    assert!(long[OPENED_SIZE..].iter().all(|b| *b == 0x5A), "bytes beyond the record were changed");
}

#[test]
fn a_record_is_opened_again() {
    let (slot, _, _) = loaded();
    let opened = Opened::open(&slot).unwrap();
    let mut record = Opened::from_bytes([0x5A; OPENED_SIZE]);
    assert_eq!(record.open_again(&slot[..140]), Err(1));
    assert_eq!(record, Opened::from_bytes([0x5A; OPENED_SIZE]), "a refused opening leaves the record");
    assert_eq!(record.open_again(&slot), Ok(()));
    assert_eq!(record, opened);
}

/// Cue calls into lent bytes of any length: their number, how many cues, and whether the cursor is as it was.
fn cues_into(slot: &[u8], opened: &Opened, cursor: &mut [u8], out: &mut [u8]) -> (u32, usize, bool) {
    let (before, mut cues) = (cursor.to_vec(), 77);
    let (o, c) = (opened.bytes(), (cursor.as_mut_ptr(), cursor.len()));
    let number =
        unsafe { raw::hps_cues(slot.as_ptr(), slot.len(), o.as_ptr(), o.len(), c.0, c.1, out.as_mut_ptr(), out.len(), &mut cues) };
    (number, cues, cursor == before)
}

#[test]
fn refused_cue_calls_leave_cursor_count_and_buffer() {
    let (slot, _, _) = loaded();
    let opened = Opened::open(&slot).unwrap();
    let mut out = [0xEE; 4 * CUE_SIZE];
    assert_eq!(cues_into(&slot, &opened, &mut [0; CURSOR_SIZE - 1], &mut out), (NO_ROOM, 77, true));
    assert_eq!(cues_into(&slot, &Opened::from_bytes([0; OPENED_SIZE]), &mut [0; CURSOR_SIZE], &mut out[..1]), (NO_RECORD, 77, true));
    assert_eq!(cues_into(&slot, &opened, &mut [0; CURSOR_SIZE], &mut out[..CUE_SIZE - 1]), (14, 77, true));
    assert_eq!(cues_into(&slot[..140], &opened, &mut [0; CURSOR_SIZE], &mut out), (1, 77, true));
    assert_eq!(out, [0xEE; 4 * CUE_SIZE]);
    // The range and the loop are given with 0; the second block's header, which leaves the slot, refuses the next call.
    let mut cursor = [0; CURSOR_SIZE];
    assert_eq!(cues_into(&slot[..270], &opened, &mut cursor, &mut out), (0, 2, false));
    assert_eq!([cue(&out), cue(&out[CUE_SIZE..])], [Cue { start: 3, point: Some(1) }, Cue { start: 28, point: None }]);
    assert!(out[2 * CUE_SIZE..].iter().all(|b| *b == 0xEE), "bytes beyond the cues were changed");
    let given = out;
    assert_eq!(cues_into(&slot[..270], &opened, &mut cursor, &mut out), (1, 77, true));
    assert_eq!(out, given);
    // On the whole slot the same cursor goes on to the end.
    assert_eq!(cues_into(&slot, &opened, &mut cursor, &mut out), (END, 0, false));
}

#[test]
fn block_reads_refuse_by_number() {
    let (slot, _, _) = loaded();
    let opened = Opened::open(&slot).unwrap();
    let mut position = 0;
    assert_eq!(opened.block(&slot, 2, &mut position), Err(6));
    assert_eq!(position, 0);
    assert_eq!(opened.block(&slot[..200], 1, &mut position), Err(1));
    assert_eq!(position, 1, "block read's 1 comes with the moved position");
    assert_eq!(opened.remaining(&slot[..260], 0), Err(1));
    assert_eq!(opened.next_cue(&slot[..140], &mut Cursor::default()), Err(1));
}

#[test]
fn bytes_that_are_no_opening_record_are_refused() {
    let (slot, _, _) = loaded();
    for bytes in [[0xFF; OPENED_SIZE], [0x01; OPENED_SIZE]] {
        let wrong = Opened::from_bytes(bytes);
        assert_eq!(wrong.block(&slot, 0, &mut 0), Err(NO_RECORD));
        assert_eq!(wrong.remaining(&slot, 0), Err(NO_RECORD));
        assert_eq!(wrong.next_cue(&slot, &mut Cursor::default()), Err(NO_RECORD));
    }
    assert_eq!(Opened::from_bytes([0; OPENED_SIZE]).block(&slot, 0, &mut 0), Err(NO_RECORD));
}

#[test]
fn a_listing_comes_in_whole_lines() {
    let (slot, _, _) = loaded();
    let mut out = [0x5A; 4096];
    let whole = listing(&slot, &mut out).to_vec();
    let text = String::from_utf8(whole.clone()).unwrap();
    let words: Vec<&str> = text.lines().map(|l| &l[..4]).collect();
    assert_eq!(words, ["HEAD", "BLCK", "BLCK", "CUEP", "LOOP"]);
    for n in 0..whole.len() + LISTING_LINE {
        let mut out = [0x5A; 4096];
        let part = listing(&slot, &mut out[..n]).to_vec();
        let mut fits = 0;
        for line in whole.split_inclusive(|b| *b == b'\n') {
            if fits + line.len() > n {
                break;
            }
            fits += line.len();
        }
        assert_eq!(part, whole[..fits], "other than the whole lines that fit into {n} bytes");
        assert!(out[part.len()..].iter().all(|b| *b == 0x5A), "bytes beyond the lines were changed");
    }
    assert_eq!(listing(&slot[..100], &mut out), b"STOP          1\n");
}
