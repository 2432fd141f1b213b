//! A zlib stream with one block of fixed codes: literals, and matches with the last place of the same four bytes.

const LONGEST_MATCH: usize = 258;
const FARTHEST_MATCH: usize = 32_768;
const HASH_BITS: u32 = 15;

/// Base lengths of the codes from 257 on, and their extra bits.
const LENGTHS: [(usize, u32); 29] = [
    (3, 0),
    (4, 0),
    (5, 0),
    (6, 0),
    (7, 0),
    (8, 0),
    (9, 0),
    (10, 0),
    (11, 1),
    (13, 1),
    (15, 1),
    (17, 1),
    (19, 2),
    (23, 2),
    (27, 2),
    (31, 2),
    (35, 3),
    (43, 3),
    (51, 3),
    (59, 3),
    (67, 4),
    (83, 4),
    (99, 4),
    (115, 4),
    (131, 5),
    (163, 5),
    (195, 5),
    (227, 5),
    (258, 0),
];

pub fn zlib(data: &[u8]) -> Vec<u8> {
    let mut bits = Bits { bytes: vec![0x78, 0x01], pending: 0, count: 0 };
    // The last block, with fixed codes.
    bits.put(0b011, 3);
    let mut last_seen = vec![usize::MAX; 1 << HASH_BITS];
    let mut at = 0;
    while at < data.len() {
        let (length, distance) = match_at(data, at, &last_seen);
        if length >= 4 {
            bits.length(length);
            bits.distance(distance);
        } else {
            bits.symbol(u32::from(data[at]));
        }
        let end = at + length.max(1);
        for place in at..end {
            if let Some(slot) = hash(data, place) {
                last_seen[slot] = place;
            }
        }
        at = end;
    }
    bits.symbol(256);
    bits.flush();
    bits.bytes.extend_from_slice(&adler(data).to_be_bytes());
    bits.bytes
}

/// Where the four bytes at a place are kept, if there are four.
fn hash(data: &[u8], at: usize) -> Option<usize> {
    let four = data.get(at..at + 4)?;
    let number = u32::from_le_bytes([four[0], four[1], four[2], four[3]]);
    Some((number.wrapping_mul(0x9E37_79B1) >> (32 - HASH_BITS)) as usize)
}

/// The length and distance of the match with the last place of the same hash; length 0 if there is none.
fn match_at(data: &[u8], at: usize, last_seen: &[usize]) -> (usize, usize) {
    let before = hash(data, at).map_or(usize::MAX, |slot| last_seen[slot]);
    if before == usize::MAX || at - before > FARTHEST_MATCH {
        return (0, 0);
    }
    let most = LONGEST_MATCH.min(data.len() - at);
    let length = (0..most).take_while(|&i| data[before + i] == data[at + i]).count();
    if length >= 4 {
        (length, at - before)
    } else {
        (0, 0)
    }
}

/// Bits in the order of deflate: the lowest first, and codes from their highest.
struct Bits {
    bytes: Vec<u8>,
    pending: u64,
    count: u32,
}

impl Bits {
    fn put(&mut self, value: u32, count: u32) {
        self.pending |= u64::from(value) << self.count;
        self.count += count;
        while self.count >= 8 {
            self.bytes.push(self.pending as u8);
            self.pending >>= 8;
            self.count -= 8;
        }
    }

    fn code(&mut self, code: u32, count: u32) {
        self.put(code.reverse_bits() >> (32 - count), count);
    }

    /// A literal, the end of the block, or a length, by the fixed codes.
    fn symbol(&mut self, symbol: u32) {
        match symbol {
            0..=143 => self.code(0x30 + symbol, 8),
            144..=255 => self.code(0x190 + symbol - 144, 9),
            256..=279 => self.code(symbol - 256, 7),
            _ => self.code(0xC0 + symbol - 280, 8),
        }
    }

    fn length(&mut self, length: usize) {
        let index = LENGTHS.iter().rposition(|&(base, _)| base <= length).expect("a length from 3 on");
        let (base, extra) = LENGTHS[index];
        self.symbol(257 + index as u32);
        self.put((length - base) as u32, extra);
    }

    fn distance(&mut self, distance: usize) {
        // Codes 0 to 3 are distances 1 to 4; from then on two codes share a number of extra bits.
        let less_one = (distance - 1) as u32;
        if less_one < 4 {
            self.code(less_one, 5);
            return;
        }
        let extra = 30 - less_one.leading_zeros();
        self.code(2 * extra + (less_one >> extra), 5);
        self.put(less_one & ((1 << extra) - 1), extra);
    }

    fn flush(&mut self) {
        if self.count > 0 {
            self.put(0, 8 - self.count);
        }
    }
}

fn adler(data: &[u8]) -> u32 {
    let (a, b) = data.iter().fold((1_u32, 0_u32), |(a, b), &byte| {
        let a = (a + u32::from(byte)) % 65_521;
        (a, (b + a) % 65_521)
    });
    b << 16 | a
}
