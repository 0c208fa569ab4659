//! The slots that both sides read, and the block that both sides load.

/// How a slot's stream is made: mono, ADPCM, each block with so many bytes of data and so many cues.
pub struct Stream {
    pub blocks: usize,
    pub data: usize,
    pub cues: usize,
}

pub const RATE: u32 = 32_000;
pub const COEFFICIENTS: [i16; 16] = [1820, -856, 3238, -1514, 2333, -550, 3336, -1376, 2444, -949, 3666, -1764, 2654, -701, 3420, -1398];

fn padded(n: usize, to: usize) -> usize {
    n.div_ceil(to) * to
}

/// Bytes that are not all alike.
pub fn noise(n: usize) -> Vec<u8> {
    let mut x = 0x9E37_79B9_7F4A_7C15u64;
    let mut next = move || {
        x ^= x << 13;
        x ^= x >> 7;
        x ^= x << 17;
        (x >> 32) as u8
    };
    (0..n).map(|_| next()).collect()
}

fn header(slot: &mut Vec<u8>, addresses: u64) {
    slot.extend(b" HALPST\0");
    slot.extend(RATE.to_be_bytes());
    slot.extend(1u32.to_be_bytes());
    slot.extend([0, 1, 0, 0]);
    slot.extend(2u32.to_be_bytes());
    slot.extend((addresses as u32 - 1).to_be_bytes());
    slot.extend(2u32.to_be_bytes());
    slot.extend(COEFFICIENTS.iter().flat_map(|c| c.to_be_bytes()));
    slot.resize(128, 0);
}

/// The slot of a stream that loops to its first block.
pub fn slot(s: &Stream) -> Vec<u8> {
    let block = 32 + padded(s.cues, 4) * 8 + padded(s.data, 32);
    let data = noise(padded(s.data, 32));
    let mut slot = Vec::new();
    header(&mut slot, (2 * s.data * s.blocks) as u64);
    for i in 0..s.blocks {
        let next = if i + 1 == s.blocks { 128 } else { slot.len() + block };
        slot.extend((padded(s.data, 32) as u32).to_be_bytes());
        slot.extend((2 * s.data as u32 - 1).to_be_bytes());
        slot.extend((next as u32).to_be_bytes());
        slot.extend([0, 7, 0, 8, 0, 9, 0, 0]);
        slot.extend([0; 8]);
        slot.extend([s.cues as u8, 0, 0, 0]);
        for c in 0..padded(s.cues, 4) {
            slot.extend((c as u32).to_be_bytes());
            slot.extend(((i * s.cues + c) as u32).to_be_bytes());
        }
        slot.extend(&data);
    }
    slot
}
