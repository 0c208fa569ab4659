//! The proved calls on walk-in music slots, for Rust. An error is a refusal's number of document 01, or one of those below.
pub mod raw;

/// Past the last block, or no more cues.
pub const END: u32 = 255;
/// The bytes are no record.
pub const NO_RECORD: u32 = 254;
/// No such looping mode or kind of cue.
pub const NO_KIND: u32 = 253;
/// The bytes lent for a record or a cursor are too few for it.
pub const NO_ROOM: u32 = 252;
/// A side of a channel of the push has fewer than `SIDE_SIZE` bytes.
pub const NO_SIDE: u32 = 251;

pub const OPENED_SIZE: usize = 2184;
pub const LOADER_SIZE: usize = 3256;
pub const CURSOR_SIZE: usize = 32;
pub const CUE_SIZE: usize = 16;
pub const SIDE_SIZE: usize = 48;
pub const LISTING_LINE: usize = 60;

fn answer(number: u32) -> Result<(), u32> {
    if number == 0 { Ok(()) } else { Err(number) }
}

#[inline]
fn u32_at(bytes: &[u8], at: usize) -> u32 {
    u32::from_be_bytes(bytes[at..at + 4].try_into().unwrap())
}

/// The opening record. A changed slot answers by its present bytes.
#[derive(Clone, PartialEq, Eq, Debug)]
pub struct Opened {
    bytes: [u8; OPENED_SIZE],
}

/// What a block read gives; the data is the slot from `start` to `end`.
#[derive(Clone, Copy, Default, PartialEq, Eq, Debug)]
pub struct Block {
    pub start: usize,
    pub end: usize,
    pub length: u64,
    pub predictor_and_scale: u16,
    pub last: i16,
    pub oldest: i16,
}

/// A cue read back: the loop, or a point with its name.
#[derive(Clone, Copy, PartialEq, Eq, Debug)]
pub struct Cue {
    pub start: u64,
    pub point: Option<u32>,
}

/// Where cue calls stand.
#[derive(Clone, Default, PartialEq, Eq, Debug)]
pub struct Cursor {
    bytes: [u8; CURSOR_SIZE],
}

impl Opened {
    pub fn open(slot: &[u8]) -> Result<Opened, u32> {
        // An accepted opening puts every byte of the record: none needs a value before.
        let mut opened = std::mem::MaybeUninit::<Opened>::uninit();
        answer(unsafe { raw::hps_open(slot.as_ptr(), slot.len(), opened.as_mut_ptr().cast(), OPENED_SIZE) })?;
        Ok(unsafe { opened.assume_init() })
    }

    /// Opens another slot into this record, which stays as it is where that slot is refused. The record's 2,184 bytes are put where they stay; `open` moves them out.
    pub fn open_again(&mut self, slot: &[u8]) -> Result<(), u32> {
        open_into(slot, &mut self.bytes)
    }

    /// The record that these bytes spell, whoever wrote them; what they do not spell is refused by the calls.
    pub fn from_bytes(bytes: [u8; OPENED_SIZE]) -> Opened {
        Opened { bytes }
    }

    /// The record's bytes, to be kept elsewhere.
    pub fn bytes(&self) -> &[u8; OPENED_SIZE] {
        &self.bytes
    }

    pub fn rate(&self) -> u32 {
        u32_at(&self.bytes, 8)
    }

    pub fn channels(&self) -> usize {
        u32_at(&self.bytes, 12) as usize
    }

    pub fn blocks(&self) -> usize {
        u32_at(&self.bytes, 128) as usize
    }

    pub fn loop_start(&self) -> Option<usize> {
        match u32_at(&self.bytes, 132) {
            u32::MAX => None,
            i => Some(i as usize),
        }
    }

    /// The block at a position, which moves on, or `None` past the last.
    pub fn block(&self, slot: &[u8], channel: usize, position: &mut usize) -> Result<Option<Block>, u32> {
        let mut b = Block::default();
        // Each slice is lent with its own length.
        let number = unsafe {
            raw::hps_block(
                slot.as_ptr(),
                slot.len(),
                self.bytes.as_ptr(),
                OPENED_SIZE,
                channel,
                position,
                &mut b.start,
                &mut b.end,
                &mut b.length,
                &mut b.predictor_and_scale,
                &mut b.last,
                &mut b.oldest,
            )
        };
        match number {
            0 => Ok(Some(b)),
            END => Ok(None),
            n => Err(n),
        }
    }

    pub fn remaining(&self, slot: &[u8], position: usize) -> Result<u64, u32> {
        let mut addresses = 0;
        let (opened, length) = (self.bytes.as_ptr(), OPENED_SIZE);
        answer(unsafe {
            raw::hps_remaining(slot.as_ptr(), slot.len(), opened, length, position, &mut addresses)
        })?;
        Ok(addresses)
    }

    /// Cues from the cursor on, as many as `out` holds; their bytes, and whether more may follow. A refusal that comes after cues is left to the next call;
    /// 14 where `out` holds no cue.
    pub fn cues<'a>(&self, slot: &[u8], cursor: &mut Cursor, out: &'a mut [u8]) -> Result<(&'a [u8], bool), u32> {
        let mut cues = 0;
        let number = unsafe {
            raw::hps_cues(
                slot.as_ptr(),
                slot.len(),
                self.bytes.as_ptr(),
                OPENED_SIZE,
                cursor.bytes.as_mut_ptr(),
                CURSOR_SIZE,
                out.as_mut_ptr(),
                out.len(),
                &mut cues,
            )
        };
        match number {
            0 | END => Ok((&out[..cues * CUE_SIZE], number == 0)),
            n => Err(n),
        }
    }

    /// The next cue, or `None` after the last.
    pub fn next_cue(&self, slot: &[u8], cursor: &mut Cursor) -> Result<Option<Cue>, u32> {
        let mut out = [0; CUE_SIZE];
        let (bytes, _) = self.cues(slot, cursor, &mut out)?;
        Ok(bytes.chunks(CUE_SIZE).next().map(cue))
    }
}

/// A cue of what `Opened::cues` gives.
#[inline]
pub fn cue(bytes: &[u8]) -> Cue {
    let start = u64::from_be_bytes(bytes[..8].try_into().unwrap());
    let point = if u32_at(bytes, 8) == 0 { Some(u32_at(bytes, 12)) } else { None };
    Cue { start, point }
}

/// Opens a slot into lent bytes: `NO_ROOM` where they are too few.
pub fn open_into(slot: &[u8], opened: &mut [u8]) -> Result<(), u32> {
    answer(unsafe { raw::hps_open(slot.as_ptr(), slot.len(), opened.as_mut_ptr(), opened.len()) })
}

/// As many whole lines of the listing as fit; the whole listing if `LISTING_LINE` bytes of `out` are left.
pub fn listing<'a>(slot: &[u8], out: &'a mut [u8]) -> &'a [u8] {
    let n = unsafe { raw::hps_listing(slot.as_ptr(), slot.len(), out.as_mut_ptr(), out.len()) };
    &out[..n]
}

#[derive(Clone, Copy, PartialEq, Eq, Debug)]
pub enum Looping {
    Disabled,
    Enabled,
    Auto,
}

#[derive(Clone, Copy, PartialEq, Eq, Debug)]
pub enum Kind {
    Point,
    Loop,
    Range(u64),
}

/// What a push says of a channel.
#[derive(Clone, Copy, Default, PartialEq, Eq, Debug)]
pub struct Side {
    pub rate: u32,
    pub length: u32,
    pub coefficients: [i16; 16],
    pub gain: u16,
    pub predictor_and_scale: u16,
    pub last: i16,
    pub oldest: i16,
}

impl Side {
    fn bytes(&self) -> [u8; SIDE_SIZE] {
        let mut b = [0; SIDE_SIZE];
        b[..4].copy_from_slice(&self.rate.to_be_bytes());
        b[4..8].copy_from_slice(&self.length.to_be_bytes());
        for (to, x) in b[8..40].chunks_mut(2).zip(self.coefficients) {
            to.copy_from_slice(&x.to_be_bytes());
        }
        b[40..42].copy_from_slice(&self.gain.to_be_bytes());
        b[42..44].copy_from_slice(&self.predictor_and_scale.to_be_bytes());
        b[44..46].copy_from_slice(&self.last.to_be_bytes());
        b[46..].copy_from_slice(&self.oldest.to_be_bytes());
        b
    }
}

/// A write that is handed out: its bytes are the first ones of the lent buffer.
#[derive(Clone, Copy, Default, PartialEq, Eq, Debug)]
pub struct Place {
    pub offset: usize,
    pub length: usize,
}

/// Where finish's three writes go; their bytes lie in the lent buffer one after the other.
pub const FINISH: [Place; 3] = [
    Place { offset: 0, length: 15 },
    Place { offset: 16, length: 112 },
    Place { offset: 15, length: 1 },
];

/// The writer's record.
#[derive(Clone, PartialEq, Eq, Debug)]
pub struct Loader {
    bytes: [u8; LOADER_SIZE],
}

impl Loader {
    /// Begins loading a slot of this length.
    pub fn begin(slot: usize, channels: usize, mode: Looping, lent: &mut [u8]) -> Result<(Loader, Place), u32> {
        let mut loader = Loader { bytes: [0; LOADER_SIZE] };
        let mut place = Place::default();
        answer(unsafe {
            raw::hps_begin(
                slot,
                channels,
                mode as u32,
                loader.bytes.as_mut_ptr(),
                LOADER_SIZE,
                lent.as_mut_ptr(),
                lent.len(),
                &mut place.offset,
                &mut place.length,
            )
        })?;
        Ok((loader, place))
    }

    /// The record that these bytes spell, whoever wrote them; what they do not spell is refused by the calls.
    pub fn from_bytes(bytes: [u8; LOADER_SIZE]) -> Loader {
        Loader { bytes }
    }

    /// The record's bytes, to be kept elsewhere.
    pub fn bytes(&self) -> &[u8; LOADER_SIZE] {
        &self.bytes
    }

    pub fn cue(&mut self, start: u64, kind: Kind, name: u32) -> Result<(), u32> {
        let (kind, range) = match kind {
            Kind::Point => (0, 0),
            Kind::Loop => (1, 0),
            Kind::Range(n) => (2, n),
        };
        answer(unsafe { raw::hps_cue(self.bytes.as_mut_ptr(), LOADER_SIZE, start, kind, range, name) })
    }

    /// One block, a side and its data for each channel. A push of no addresses, without data and not the last, has no block and no write.
    pub fn push(&mut self, sides: &[(Side, &[u8])], last: bool, lent: &mut [u8]) -> Result<Option<Place>, u32> {
        let none: (Side, &[u8]) = (Side::default(), &[]);
        let left = sides.first().unwrap_or(&none);
        let right = sides.get(1).unwrap_or(&none);
        let (left_side, right_side) = (left.0.bytes(), right.0.bytes());
        let mut place = Place::default();
        answer(unsafe {
            raw::hps_push(
                self.bytes.as_mut_ptr(),
                LOADER_SIZE,
                sides.len(),
                left_side.as_ptr(),
                SIDE_SIZE,
                left.1.as_ptr(),
                left.1.len(),
                right_side.as_ptr(),
                SIDE_SIZE,
                right.1.as_ptr(),
                right.1.len(),
                last,
                lent.as_mut_ptr(),
                lent.len(),
                &mut place.offset,
                &mut place.length,
            )
        })?;
        Ok((place.length > 0).then_some(place))
    }

    /// Gives the finished length; `FINISH` says where the lent buffer's bytes go.
    pub fn finish(&mut self, lent: &mut [u8]) -> Result<usize, u32> {
        let mut finished = 0;
        let (loader, length) = (self.bytes.as_mut_ptr(), LOADER_SIZE);
        answer(unsafe { raw::hps_finish(loader, length, lent.as_mut_ptr(), lent.len(), &mut finished) })?;
        Ok(finished)
    }
}

/// The estimate of a finished length.
pub fn estimate(lengths: &[usize], channels: usize, points: u32) -> Result<u64, u32> {
    let mut length = 0;
    answer(unsafe {
        raw::hps_estimate(lengths.as_ptr(), lengths.len(), channels, points, &mut length)
    })?;
    Ok(length)
}
