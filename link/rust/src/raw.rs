//! The functions of libhps.a as `include/hps.h` declares them, for records in bytes of the caller's own. A Rattle slice is a pointer and a length.
unsafe extern "C" {
    pub fn hps_open(slot: *const u8, slot_length: usize, opened: *mut u8, opened_length: usize) -> u32;
    pub fn hps_block(
        slot: *const u8,
        slot_length: usize,
        opened: *const u8,
        opened_length: usize,
        channel: usize,
        position: &mut usize,
        start: &mut usize,
        end: &mut usize,
        length: &mut u64,
        predictor_and_scale: &mut u16,
        last: &mut i16,
        oldest: &mut i16,
    ) -> u32;
    pub fn hps_remaining(
        slot: *const u8,
        slot_length: usize,
        opened: *const u8,
        opened_length: usize,
        position: usize,
        addresses: &mut u64,
    ) -> u32;
    pub fn hps_cues(
        slot: *const u8,
        slot_length: usize,
        opened: *const u8,
        opened_length: usize,
        cursor: *mut u8,
        cursor_length: usize,
        out: *mut u8,
        out_length: usize,
        cues: &mut usize,
    ) -> u32;
    pub fn hps_listing(slot: *const u8, slot_length: usize, out: *mut u8, out_length: usize) -> usize;
    pub fn hps_begin(
        slot_length: usize,
        channels: usize,
        mode: u32,
        loader: *mut u8,
        loader_length: usize,
        lent: *mut u8,
        lent_length: usize,
        offset: &mut usize,
        length: &mut usize,
    ) -> u32;
    pub fn hps_cue(
        loader: *mut u8,
        loader_length: usize,
        start: u64,
        kind: u32,
        range: u64,
        name: u32,
    ) -> u32;
    pub fn hps_push(
        loader: *mut u8,
        loader_length: usize,
        channels: usize,
        left: *const u8,
        left_length: usize,
        left_data: *const u8,
        left_data_length: usize,
        right: *const u8,
        right_length: usize,
        right_data: *const u8,
        right_data_length: usize,
        last: bool,
        lent: *mut u8,
        lent_length: usize,
        offset: &mut usize,
        length: &mut usize,
    ) -> u32;
    pub fn hps_finish(
        loader: *mut u8,
        loader_length: usize,
        lent: *mut u8,
        lent_length: usize,
        finished: &mut usize,
    ) -> u32;
    pub fn hps_estimate(
        lengths: *const usize,
        blocks: usize,
        channels: usize,
        points: u32,
        length: &mut u64,
    ) -> u32;
}
