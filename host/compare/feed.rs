//! Frames and widths once more, written by hand from docs/FEED.md and docs/RULES.md, without the library.

pub const NUMBERS: usize = 18;

const UPDATE: u8 = 0xD1;
const SUMMARY: u8 = 0x96;
const LONGEST: usize = 1500;

/// What is wrong with a frame: number, layer, and the byte at which it lies.
struct Fault(u64, u64, u64);

fn u32_of(bytes: &[u8]) -> u64 {
    u32::from_le_bytes(bytes.try_into().unwrap()).into()
}

fn u64_of(bytes: &[u8]) -> u64 {
    u64::from_le_bytes(bytes.try_into().unwrap())
}

fn printable(symbol: &[u8]) -> bool {
    symbol.iter().all(|b| (b' '..=b'~').contains(b))
}

fn is_auction(letter: u8) -> bool {
    b"GOHV".contains(&letter)
}

/// The kind of the message at `place`, with its numbers in `m`.
fn message(frame: &[u8], place: u64, left: u8, m: &mut [u64; NUMBERS]) -> Result<u32, Fault> {
    let (at, count) = if place == 0 {
        if frame.len() < 8 || usize::from(u16::from_le_bytes([frame[0], frame[1]])) != frame.len() {
            return Err(Fault(30, 1, 0));
        }
        (8, frame[2])
    } else {
        (place, left)
    };
    let size = frame.len() as u64;
    if count == 0 {
        return if at < size { Err(Fault(34, 1, at)) } else { Ok(0) };
    }
    if at >= size {
        return Err(Fault(31, 2, at));
    }
    let rest = &frame[at as usize..];
    let length = usize::from(rest[0]);
    if length < 2 || length > rest.len() {
        return Err(Fault(31, 2, at));
    }
    let body = &rest[..length];
    let least = match body[1] {
        UPDATE => 64,
        SUMMARY => 27,
        _ => 0,
    };
    if length < least {
        return Err(Fault(32, 2, at));
    }
    if least > 0 && !printable(&body[6..14]) {
        return Err(Fault(33, 3, at + 6));
    }
    if least > 0 && !is_auction(body[14]) {
        return Err(Fault(33, 3, at + 14));
    }
    m[0] = at + length as u64;
    m[1] = (count - 1).into();
    m[2] = at;
    m[3] = length as u64;
    if least == 0 {
        return Ok(3);
    }
    m[4] = at + 6;
    m[5] = u32_of(&body[2..6]);
    m[6] = body[14].into();
    m[7] = u64_of(&body[15..23]);
    if body[1] == SUMMARY {
        m[8] = u32_of(&body[23..27]);
        return Ok(2);
    }
    m[9] = u32_of(&body[23..27]);
    m[10] = u32_of(&body[27..31]);
    m[11] = u64_of(&body[31..39]);
    m[12] = u64_of(&body[39..47]);
    m[13] = body[47].into();
    m[14] = u64_of(&body[48..56]);
    m[15] = u64_of(&body[56..64]);
    Ok(1)
}

#[inline(never)]
pub fn read(frame: &[u8], place: u64, left: u8, numbers: &mut [u64]) -> u32 {
    let Some(told) = numbers.first_chunk_mut::<NUMBERS>() else {
        return 5;
    };
    *told = [0; NUMBERS];
    told[0] = place;
    told[1] = left.into();
    match message(frame, place, left, told) {
        Ok(kind) => kind,
        Err(Fault(number, layer, byte)) => {
            told[2] = byte;
            told[16] = number;
            told[17] = layer;
            4
        }
    }
}

fn length_said(buffer: &[u8]) -> usize {
    let byte = |i: usize| usize::from(buffer.get(i).copied().unwrap_or(0));
    byte(0) + 256 * byte(1)
}

/// The part of a buffer into which `size` bytes more go behind its frame, once the refusals are seen to.
fn room<'a>(buffer: &'a mut [u8], size: usize, symbol: &[u8], letter: u8) -> Result<&'a mut [u8], u32> {
    let length = length_said(buffer);
    let end = length + size;
    if length < 8 || end > LONGEST || end > buffer.len() || buffer[2] == 255 {
        return Err(35);
    }
    if symbol.len() != 8 || !printable(symbol) || !is_auction(letter) {
        return Err(36);
    }
    buffer[..2].copy_from_slice(&(end as u16).to_le_bytes());
    buffer[2] += 1;
    Ok(&mut buffer[length..end])
}

#[inline(never)]
pub fn start(buffer: &mut [u8]) -> u32 {
    if buffer.len() < 8 {
        return 35;
    }
    buffer[..8].copy_from_slice(&[8, 0, 0, 0, 0, 0, 0, 0]);
    0
}

#[inline(never)]
pub fn add_update(
    buffer: &mut [u8],
    offset: u32,
    symbol: &[u8],
    auction: u8,
    reference: u64,
    buy: u32,
    sell: u32,
    indicative: u64,
    auction_only: u64,
    condition: u8,
    bid: u64,
    offer: u64,
) -> u32 {
    let m = match room(buffer, 64, symbol, auction) {
        Ok(m) => m,
        Err(refusal) => return refusal,
    };
    m[0] = 64;
    m[1] = UPDATE;
    m[2..6].copy_from_slice(&offset.to_le_bytes());
    m[6..14].copy_from_slice(symbol);
    m[14] = auction;
    m[15..23].copy_from_slice(&reference.to_le_bytes());
    m[23..27].copy_from_slice(&buy.to_le_bytes());
    m[27..31].copy_from_slice(&sell.to_le_bytes());
    m[31..39].copy_from_slice(&indicative.to_le_bytes());
    m[39..47].copy_from_slice(&auction_only.to_le_bytes());
    m[47] = condition;
    m[48..56].copy_from_slice(&bid.to_le_bytes());
    m[56..64].copy_from_slice(&offer.to_le_bytes());
    0
}

#[inline(never)]
pub fn add_summary(buffer: &mut [u8], offset: u32, symbol: &[u8], auction: u8, price: u64, contracts: u32) -> u32 {
    let m = match room(buffer, 27, symbol, auction) {
        Ok(m) => m,
        Err(refusal) => return refusal,
    };
    m[0] = 27;
    m[1] = SUMMARY;
    m[2..6].copy_from_slice(&offset.to_le_bytes());
    m[6..14].copy_from_slice(symbol);
    m[14] = auction;
    m[15..23].copy_from_slice(&price.to_le_bytes());
    m[23..27].copy_from_slice(&contracts.to_le_bytes());
    0
}

pub fn frame_size(buffer: &[u8]) -> u64 {
    length_said(buffer).min(buffer.len()) as u64
}

/// The published widths, in ten-thousandths of a dollar, by the bid, from docs/RULES.md.
#[inline(never)]
pub fn width(bid: u64) -> u64 {
    match bid {
        0..=1_99_99 => 50_00,
        2_00_00..=5_00_99 => 80_00,
        5_01_00..=10_00_99 => 1_00_00,
        10_01_00..=20_00_99 => 2_00_00,
        20_01_00..=50_00_99 => 3_00_00,
        50_01_00..=100_00_99 => 5_00_00,
        100_01_00..=200_00_99 => 8_00_00,
        200_01_00.. => 12_00_00,
    }
}

/// The lowest bid of each row of the table.
pub const EDGES: [u64; 8] = [0, 2_00_00, 5_01_00, 10_01_00, 20_01_00, 50_01_00, 100_01_00, 200_01_00];
