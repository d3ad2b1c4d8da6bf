//! A PNG file of at most 256 colours, a byte a pixel, written with the standard library alone.
//!
//! Rows are stored as differences to the row above, and runs of equal differences are compressed with
//! deflate's fixed codes: flat areas of a chart take next to nothing.

/// The bytes of a PNG file: pixels row by row from the upper left, each the number of a colour.
pub fn encode(width: usize, height: usize, colours: &[[u8; 3]], pixels: &[u8]) -> Vec<u8> {
    let mut file = b"\x89PNG\r\n\x1a\n".to_vec();
    chunk(&mut file, b"IHDR", &header(width, height));
    chunk(&mut file, b"PLTE", colours.as_flattened());
    chunk(&mut file, b"IDAT", &zlib(&row_differences(width, pixels)));
    chunk(&mut file, b"IEND", &[]);
    file
}

/// Width and height; 8 bits a pixel, colours by number, and the only methods there are, not interlaced.
fn header(width: usize, height: usize) -> Vec<u8> {
    let mut bytes = Vec::new();
    bytes.extend((width as u32).to_be_bytes());
    bytes.extend((height as u32).to_be_bytes());
    bytes.extend([8, 3, 0, 0, 0]);
    bytes
}

fn chunk(file: &mut Vec<u8>, kind: &[u8; 4], data: &[u8]) {
    file.extend((data.len() as u32).to_be_bytes());
    let begin = file.len();
    file.extend(kind);
    file.extend(data);
    let check = crc32(&file[begin..]);
    file.extend(check.to_be_bytes());
}

fn crc32(bytes: &[u8]) -> u32 {
    !bytes.iter().fold(u32::MAX, |crc, byte| {
        (0..8).fold(crc ^ u32::from(*byte), |crc, _| {
            (crc >> 1) ^ (0xEDB8_8320 & (crc & 1).wrapping_neg())
        })
    })
}

/// Each row as PNG's filter 2 has it: the filter's number, then the differences to the row above.
fn row_differences(width: usize, pixels: &[u8]) -> Vec<u8> {
    let mut above = vec![0; width];
    let mut filtered = Vec::with_capacity(pixels.len() + pixels.len() / width.max(1));
    for row in pixels.chunks_exact(width) {
        filtered.push(2);
        filtered.extend(row.iter().zip(&above).map(|(p, a)| p.wrapping_sub(*a)));
        above.copy_from_slice(row);
    }
    filtered
}

fn zlib(data: &[u8]) -> Vec<u8> {
    let mut bytes = vec![0x78, 0x01];
    bytes.extend(deflate(data));
    bytes.extend(adler32(data).to_be_bytes());
    bytes
}

fn adler32(data: &[u8]) -> u32 {
    const MODULUS: u32 = 65_521;
    let (low, high) = data.iter().fold((1, 0), |(low, high), byte| {
        let low = (low + u32::from(*byte)) % MODULUS;
        (low, (high + low) % MODULUS)
    });
    high << 16 | low
}

/// One deflate block with the fixed codes: a byte, and then as many more of it as follow at once.
fn deflate(data: &[u8]) -> Vec<u8> {
    let mut bits = Bits::default();
    bits.put(0b011, 3);
    for run in data.chunk_by(|a, b| a == b) {
        bits.put_symbol(u32::from(run[0]));
        put_repeats(&mut bits, run[0], run.len() - 1);
    }
    bits.put_symbol(END_OF_BLOCK);
    bits.bytes
}

/// The byte before, so many times again: as copies at a distance of 1, and the rest byte by byte.
fn put_repeats(bits: &mut Bits, byte: u8, mut times: usize) {
    while times >= SHORTEST_COPY {
        let length = times.min(LONGEST_COPY);
        put_copy_length(bits, length);
        bits.put(0, DISTANCE_BITS);
        times -= length;
    }
    for _ in 0..times {
        bits.put_symbol(u32::from(byte));
    }
}

const END_OF_BLOCK: u32 = 256;
const SHORTEST_COPY: usize = 3;
const LONGEST_COPY: usize = 258;
/// A distance of 1 is the fixed code 0 of five bits, with nothing after it.
const DISTANCE_BITS: u32 = 5;

/// A copy's length as deflate has it: lengths from 11 on share a symbol in groups of 2, 4, 8, 16 and
/// 32, four groups each, and so many further bits say which one it is; 258 has a symbol of its own.
fn put_copy_length(bits: &mut Bits, length: usize) {
    if length == LONGEST_COPY {
        return bits.put_symbol(285);
    }
    let past = (length - SHORTEST_COPY) as u32;
    let further = past.checked_ilog2().map_or(0, |log| log.saturating_sub(2));
    bits.put_symbol(257 + 4 * further + (past >> further));
    bits.put(past & ((1 << further) - 1), further);
}

/// Bits in deflate's order: each byte is filled from its lowest bit up.
#[derive(Default)]
struct Bits {
    bytes: Vec<u8>,
    used: u32,
}

impl Bits {
    /// The lowest `count` bits of a number, lowest first.
    fn put(&mut self, number: u32, count: u32) {
        for bit in 0..count {
            if self.used % 8 == 0 {
                self.bytes.push(0);
            }
            if let Some(last) = self.bytes.last_mut() {
                *last |= ((number >> bit & 1) as u8) << (self.used % 8);
            }
            self.used += 1;
        }
    }

    /// The fixed code of a byte, the end of the block or a length, highest bit first.
    fn put_symbol(&mut self, symbol: u32) {
        let (code, count) = match symbol {
            0..=143 => (0x30 + symbol, 8),
            144..=255 => (0x190 + symbol - 144, 9),
            256..=279 => (symbol - 256, 7),
            _ => (0xC0 + symbol - 280, 8),
        };
        self.put(code.reverse_bits() >> (32 - count), count);
    }
}
