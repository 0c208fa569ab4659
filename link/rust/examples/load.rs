//! Loads a stream into a slot, opens it and prints its listing.
use hps::{Cursor, FINISH, Kind, Loader, Looping, Opened, Place, Side};

/// The server carries a write out.
fn carry_out(slot: &mut [u8], place: Place, bytes: &[u8]) {
    slot[place.offset..place.offset + place.length].copy_from_slice(&bytes[..place.length]);
}

fn load(slot: &mut [u8]) -> Result<usize, u32> {
    let mut lent = [0; 256];
    let (mut loader, place) = Loader::begin(slot.len(), 1, Looping::Auto, &mut lent)?;
    carry_out(slot, place, &lent);
    loader.cue(0, Kind::Loop, 0)?;
    loader.cue(5, Kind::Point, 0)?;
    let side = Side { rate: 32_000, length: 16, ..Side::default() };
    if let Some(place) = loader.push(&[(side, &[7; 8])], true, &mut lent)? {
        carry_out(slot, place, &lent);
    }
    let length = loader.finish(&mut lent)?;
    let mut from = 0;
    for place in FINISH {
        carry_out(slot, place, &lent[from..]);
        from += place.length;
    }
    Ok(length)
}

fn main() -> Result<(), u32> {
    let mut slot = [0xAA; 1024];
    let length = load(&mut slot)?;
    let opened = Opened::open(&slot)?;
    let block = opened.block(&slot, 0, &mut 0)?.expect("a block");
    println!("{length} bytes, data of the first block at {} to {}", block.start, block.end);
    let mut cursor = Cursor::default();
    while let Some(cue) = opened.next_cue(&slot, &mut cursor)? {
        println!("cue at {}", cue.start);
    }
    let mut out = [0; 1024];
    print!("{}", String::from_utf8_lossy(hps::listing(&slot, &mut out)));
    Ok(())
}
