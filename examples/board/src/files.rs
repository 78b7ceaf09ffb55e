//! A picture as PPM and as PNG.

use svga::Picture;

/// Red, green and blue of each pixel, row by row.
fn bytes_of(row: &[u32]) -> impl Iterator<Item = u8> + '_ {
    row.iter().flat_map(|pixel| [(pixel >> 16) as u8, (pixel >> 8) as u8, *pixel as u8])
}

pub fn ppm(picture: &Picture<'_>) -> Vec<u8> {
    let mut file = format!("P6\n{} {}\n255\n", picture.width, picture.height).into_bytes();
    file.extend(picture.rows().flat_map(bytes_of));
    file
}

pub fn png(picture: &Picture<'_>) -> Vec<u8> {
    // each row as its difference from the row above it, which packs well
    let mut lines = Vec::new();
    let mut above = vec![0; picture.width as usize * 3];
    for row in picture.rows() {
        let bytes: Vec<u8> = bytes_of(row).collect();
        lines.push(2);
        lines.extend(bytes.iter().zip(&above).map(|(byte, above)| byte.wrapping_sub(*above)));
        above = bytes;
    }
    let mut packed = vec![0x78, 0x01];
    packed.extend(deflate(&lines));
    packed.extend(adler(&lines).to_be_bytes());

    let mut head = [picture.width.to_be_bytes(), picture.height.to_be_bytes()].concat();
    head.extend([8, 2, 0, 0, 0]); // 8 bits, red green blue
    let mut file = b"\x89PNG\r\n\x1a\n".to_vec();
    for (kind, data) in [(b"IHDR", &head[..]), (b"IDAT", &packed[..]), (b"IEND", &[])] {
        let body = [kind, data].concat();
        file.extend((data.len() as u32).to_be_bytes());
        file.extend(&body);
        file.extend(crc(&body).to_be_bytes());
    }
    file
}

fn crc(data: &[u8]) -> u32 {
    !data
        .iter()
        .fold(!0, |sum, byte| (0..8).fold(sum ^ u32::from(*byte), |sum: u32, _| sum >> 1 ^ (0xEDB8_8320 & (sum & 1).wrapping_neg())))
}

fn adler(data: &[u8]) -> u32 {
    let (a, b) = data.iter().fold((1, 0), |(a, b), byte| {
        let a = (a + u32::from(*byte)) % 65_521;
        (a, (b + a) % 65_521)
    });
    b << 16 | a
}

/// Bits, the lowest first in each byte.
#[derive(Default)]
struct Bits {
    bytes: Vec<u8>,
    held: u32,
    count: u32,
}

impl Bits {
    fn put(&mut self, bits: u32, count: u32) {
        self.held |= bits << self.count;
        self.count += count;
        while self.count >= 8 {
            self.bytes.push(self.held as u8);
            self.held >>= 8;
            self.count -= 8;
        }
    }

    /// A Huffman code, which goes in by its highest bit first.
    fn code(&mut self, code: u32, count: u32) {
        self.put(code.reverse_bits() >> (32 - count), count);
    }

    /// A literal, the end or a length, in deflate's fixed code.
    fn symbol(&mut self, symbol: u32) {
        match symbol {
            0..=143 => self.code(0x30 + symbol, 8),
            144..=255 => self.code(0x190 + symbol - 144, 9),
            256..=279 => self.code(symbol - 256, 7),
            _ => self.code(0xC0 + symbol - 280, 8),
        }
    }

    /// Deflate's way with lengths and distances: small values have a code each; above, `2^group` codes share each number of extra bits.
    /// Gives the code, the extra bits and their number.
    fn stepped(value: u32, group: u32) -> (u32, u32, u32) {
        if value < 2 << group {
            return (value, 0, 0);
        }
        let extra = value.ilog2() - group;
        ((extra << group) + (value >> extra), value & ((1 << extra) - 1), extra)
    }

    fn repeat(&mut self, length: usize, distance: usize) {
        if length == 258 {
            self.symbol(285);
        } else {
            let (code, rest, extra) = Bits::stepped(length as u32 - 3, 2);
            self.symbol(257 + code);
            self.put(rest, extra);
        }
        let (code, rest, extra) = Bits::stepped(distance as u32 - 1, 1);
        self.code(code, 5);
        self.put(rest, extra);
    }
}

/// One block in deflate's fixed code; repeats are sought where the same four bytes last stood, and three bytes back.
fn deflate(data: &[u8]) -> Vec<u8> {
    let mut last = vec![usize::MAX; 1 << 15];
    let mut bits = Bits::default();
    bits.put(0b011, 3);
    let mut at = 0;
    while at < data.len() {
        let mut best = (0, 0);
        if let Some(four) = data.get(at..at + 4) {
            let slot = (u32::from_le_bytes(four.try_into().unwrap()).wrapping_mul(0x9E37_79B1) >> 17) as usize;
            for from in [last[slot], at.wrapping_sub(1), at.wrapping_sub(3)] {
                if from < at && at - from <= 32_768 {
                    let length = data[at..].iter().zip(&data[from..]).take(258).take_while(|(a, b)| a == b).count();
                    best = best.max((length, from));
                }
            }
            last[slot] = at;
        }
        if best.0 >= 4 {
            bits.repeat(best.0, at - best.1);
            at += best.0;
        } else {
            bits.symbol(u32::from(data[at]));
            at += 1;
        }
    }
    bits.symbol(256);
    bits.put(0, 7); // to a whole byte
    bits.bytes
}
