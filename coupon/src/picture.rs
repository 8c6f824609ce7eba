//! A picture of 8-bit RGB samples; PPM in, PNG out.
use crate::huffman;
use std::io::{self, Read};

/// Three bytes a pixel, row after row.
#[derive(Clone, Debug, PartialEq, Eq)]
pub struct Picture {
    pub width: usize,
    pub height: usize,
    pub rgb: Vec<u8>,
}

impl Picture {
    /// A picture of one colour.
    pub fn new(width: usize, height: usize, colour: [u8; 3]) -> Picture {
        Picture { width, height, rgb: colour.repeat(width * height) }
    }

    pub fn pixel(&self, x: usize, y: usize) -> [u8; 3] {
        let at = 3 * (y * self.width + x);
        [self.rgb[at], self.rgb[at + 1], self.rgb[at + 2]]
    }

    pub fn set(&mut self, x: usize, y: usize, colour: [u8; 3]) {
        let at = 3 * (y * self.width + x);
        self.rgb[at..at + 3].copy_from_slice(&colour);
    }

    /// The upper left part, of at most these sides.
    pub fn cropped(&self, width: usize, height: usize) -> Picture {
        let (width, height) = (width.min(self.width), height.min(self.height));
        let rows = self.rgb.chunks(3 * self.width).take(height);
        Picture { width, height, rgb: rows.flat_map(|row| &row[..3 * width]).copied().collect() }
    }

    /// Reads a binary PPM (P6) of 8-bit samples.
    pub fn read_ppm(mut from: impl Read) -> io::Result<Picture> {
        let mut bytes = Vec::new();
        from.read_to_end(&mut bytes)?;
        let bad = |what: &str| io::Error::new(io::ErrorKind::InvalidData, format!("not a binary PPM of 8-bit samples: {what}"));
        let mut at = 0;
        if word(&bytes, &mut at) != b"P6" {
            return Err(bad("it does not begin with P6"));
        }
        let mut number = |what: &str| {
            let digits = std::str::from_utf8(word(&bytes, &mut at)).unwrap_or_default();
            digits.parse::<usize>().map_err(|_| bad(what))
        };
        let (width, height, most) = (number("its width")?, number("its height")?, number("its largest sample")?);
        if most != 255 || width == 0 || height == 0 || width > 1 << 14 || height > 1 << 14 {
            return Err(bad("samples up to 255 and sides of 1 to 16,384 are taken"));
        }
        let rgb = bytes.get(at + 1..at + 1 + 3 * width * height).ok_or_else(|| bad("it ends early"))?;
        Ok(Picture { width, height, rgb: rgb.to_vec() })
    }

    /// The picture as a PNG: each row's best filter, then literals under one Huffman code.
    pub fn png(&self) -> Vec<u8> {
        let mut header = Vec::new();
        header.extend((self.width as u32).to_be_bytes());
        header.extend((self.height as u32).to_be_bytes());
        header.extend([8, 2, 0, 0, 0]);
        let mut file = b"\x89PNG\r\n\x1a\n".to_vec();
        chunk(&mut file, b"IHDR", &header);
        chunk(&mut file, b"IDAT", &zlib(&self.filtered()));
        chunk(&mut file, b"IEND", &[]);
        file
    }

    /// Each row with the filter (none, left, up, mean, Paeth) whose bytes are smallest in sum.
    fn filtered(&self) -> Vec<u8> {
        let stride = 3 * self.width;
        let mut rows = Vec::with_capacity((stride + 1) * self.height);
        let above = vec![0; stride];
        for y in 0..self.height {
            let row = &self.rgb[y * stride..(y + 1) * stride];
            let up = if y == 0 { &above[..] } else { &self.rgb[(y - 1) * stride..y * stride] };
            let tried = (0..5u8).map(|filter| filter_row(filter, row, up));
            let best = tried.min_by_key(|bytes| bytes[1..].iter().map(|&b| u64::from((b as i8).unsigned_abs())).sum::<u64>());
            rows.extend(best.expect("five filters"));
        }
        rows
    }

    /// Peak signal to noise ratio in decibels, over all samples; infinite for equal pictures.
    pub fn psnr(&self, other: &Picture) -> f64 {
        assert_eq!((self.width, self.height), (other.width, other.height));
        let squares: f64 = self.rgb.iter().zip(&other.rgb).map(|(&a, &b)| (f64::from(a) - f64::from(b)).powi(2)).sum();
        10.0 * (255.0f64.powi(2) * self.rgb.len() as f64 / squares).log10()
    }
}

/// The next word of a PPM's header, comments skipped.
fn word<'a>(bytes: &'a [u8], at: &mut usize) -> &'a [u8] {
    while let Some(byte) = bytes.get(*at) {
        match byte {
            b'#' => *at += bytes[*at..].iter().position(|&b| b == b'\n').unwrap_or(bytes.len() - *at),
            b if b.is_ascii_whitespace() => *at += 1,
            _ => break,
        }
    }
    let from = (*at).min(bytes.len());
    *at = from + bytes[from..].iter().position(|b| b.is_ascii_whitespace()).unwrap_or(bytes.len() - from);
    &bytes[from..*at]
}

fn filter_row(filter: u8, row: &[u8], up: &[u8]) -> Vec<u8> {
    let mut out = vec![filter];
    out.extend((0..row.len()).map(|i| {
        let (a, b) = (if i < 3 { 0 } else { row[i - 3] }, up[i]);
        let c = if i < 3 { 0 } else { up[i - 3] };
        let guess = match filter {
            0 => 0,
            1 => a,
            2 => b,
            3 => ((u16::from(a) + u16::from(b)) / 2) as u8,
            _ => paeth(a, b, c),
        };
        row[i].wrapping_sub(guess)
    }));
    out
}

fn paeth(a: u8, b: u8, c: u8) -> u8 {
    let (left, up, corner) = (i32::from(a), i32::from(b), i32::from(c));
    let guess = left + up - corner;
    let (by_left, by_up, by_corner) = ((guess - left).abs(), (guess - up).abs(), (guess - corner).abs());
    if by_left <= by_up && by_left <= by_corner {
        a
    } else if by_up <= by_corner {
        b
    } else {
        c
    }
}

fn chunk(file: &mut Vec<u8>, name: &[u8; 4], data: &[u8]) {
    file.extend((data.len() as u32).to_be_bytes());
    let from = file.len();
    file.extend(name);
    file.extend(data);
    file.extend(crc(&file[from..]).to_be_bytes());
}

fn crc(bytes: &[u8]) -> u32 {
    !bytes.iter().fold(!0u32, |mut crc, &byte| {
        crc ^= u32::from(byte);
        for _ in 0..8 {
            crc = if crc & 1 == 1 { (crc >> 1) ^ 0xedb8_8320 } else { crc >> 1 };
        }
        crc
    })
}

/// Bits, the lowest of a byte first.
#[derive(Default)]
struct Bits {
    bytes: Vec<u8>,
    /// Bits of the last byte that are taken.
    used: u32,
}

impl Bits {
    fn put(&mut self, value: u32, length: u32) {
        for i in 0..length {
            if self.used == 0 {
                self.bytes.push(0);
            }
            *self.bytes.last_mut().expect("pushed") |= ((value >> i & 1) as u8) << self.used;
            self.used = (self.used + 1) % 8;
        }
    }

    /// A Huffman word, its highest bit first.
    fn put_word(&mut self, word: u32, length: u32) {
        self.put(word.reverse_bits() >> (32 - length), length);
    }
}

/// One deflate block of literals under their own Huffman code, as a zlib stream.
fn zlib(data: &[u8]) -> Vec<u8> {
    let mut uses = vec![0u32; 257];
    data.iter().for_each(|&byte| uses[usize::from(byte)] += 1);
    uses[256] = 1;
    let lengths = huffman::lengths(&uses, 15);
    let words = huffman::words(&lengths);
    let mut bits = Bits::default();
    bits.put(1, 1);
    bits.put(2, 2);
    bits.put(0, 5);
    bits.put(0, 5);
    bits.put(15, 4);
    // the lengths of all lengths: 4 bits for each of 0 to 15, in the order that deflate lists them
    for symbol in [16, 17, 18, 0, 8, 7, 9, 6, 10, 5, 11, 4, 12, 3, 13, 2, 14, 1, 15] {
        bits.put(if symbol < 16 { 4 } else { 0 }, 3);
    }
    // 257 literal lengths, and one distance of length 1, of which there is no use
    for length in lengths.iter().map(|&length| u32::from(length)).chain([1]) {
        bits.put_word(length, 4);
    }
    for &byte in data.iter() {
        bits.put_word(words[usize::from(byte)], u32::from(lengths[usize::from(byte)]));
    }
    bits.put_word(words[256], u32::from(lengths[256]));
    let mut stream = vec![0x78, 0x01];
    stream.extend(bits.bytes);
    let (a, b) = data.iter().fold((1u32, 0u32), |(a, b), &byte| {
        let a = (a + u32::from(byte)) % 65_521;
        (a, (b + a) % 65_521)
    });
    stream.extend((b << 16 | a).to_be_bytes());
    stream
}
