//! Paints a scanned paper coupon: grain, a border, text, a face value, a bar code. The same picture on every run.
use crate::picture::Picture;

const WIDTH: usize = 512;
const HEIGHT: usize = 256;
const INK: [u8; 3] = [38, 36, 44];
const RED: [u8; 3] = [178, 34, 40];
const BLUE: [u8; 3] = [36, 66, 140];

/// Letters of 5 by 7 dots, a row a number, the highest of five bits at the left.
const LETTERS: &[(char, [u8; 7])] = &[
    ('0', [14, 17, 19, 21, 25, 17, 14]),
    ('1', [4, 12, 4, 4, 4, 4, 14]),
    ('2', [14, 17, 1, 6, 8, 16, 31]),
    ('3', [14, 17, 1, 6, 1, 17, 14]),
    ('4', [2, 6, 10, 18, 31, 2, 2]),
    ('5', [31, 16, 30, 1, 1, 17, 14]),
    ('6', [6, 8, 16, 30, 17, 17, 14]),
    ('7', [31, 1, 2, 4, 8, 8, 8]),
    ('8', [14, 17, 17, 14, 17, 17, 14]),
    ('9', [14, 17, 17, 15, 1, 2, 12]),
    ('.', [0, 0, 0, 0, 0, 12, 12]),
    ('A', [14, 17, 17, 31, 17, 17, 17]),
    ('C', [14, 17, 16, 16, 16, 17, 14]),
    ('D', [30, 17, 17, 17, 17, 17, 30]),
    ('E', [31, 16, 16, 30, 16, 16, 31]),
    ('F', [31, 16, 16, 30, 16, 16, 16]),
    ('H', [17, 17, 17, 31, 17, 17, 17]),
    ('I', [14, 4, 4, 4, 4, 4, 14]),
    ('L', [16, 16, 16, 16, 16, 16, 31]),
    ('N', [17, 25, 21, 19, 17, 17, 17]),
    ('O', [14, 17, 17, 17, 17, 17, 14]),
    ('P', [30, 17, 17, 30, 16, 16, 16]),
    ('R', [30, 17, 17, 30, 20, 18, 17]),
    ('S', [15, 16, 16, 14, 1, 1, 30]),
    ('T', [31, 4, 4, 4, 4, 4, 4]),
    ('U', [17, 17, 17, 17, 17, 17, 14]),
    ('V', [17, 17, 17, 17, 17, 10, 4]),
    ('Y', [17, 17, 10, 4, 4, 4, 4]),
];

/// The bars of each digit in a "2 of 5" code: wide ones are 1.
const BARS: [u8; 10] = [6, 17, 9, 24, 5, 20, 12, 3, 18, 10];

/// Numbers from a seed (xorshift).
struct Random(u64);

impl Random {
    fn next(&mut self) -> u64 {
        self.0 ^= self.0 << 13;
        self.0 ^= self.0 >> 7;
        self.0 ^= self.0 << 17;
        self.0
    }

    /// Between -1 and 1, small ones likelier: the mean of three.
    fn grain(&mut self) -> f32 {
        (0..3).map(|_| (self.next() >> 40) as f32 / (1u64 << 23) as f32 - 1.0).sum::<f32>() / 3.0
    }
}

fn fill(picture: &mut Picture, left: usize, top: usize, width: usize, height: usize, colour: [u8; 3]) {
    for y in top..(top + height).min(picture.height) {
        for x in left..(left + width).min(picture.width) {
            picture.set(x, y, colour);
        }
    }
}

/// Text with dots of `size` by `size` pixels.
fn write(picture: &mut Picture, text: &str, left: usize, top: usize, size: usize, colour: [u8; 3]) {
    for (n, letter) in text.chars().enumerate() {
        let Some((_, rows)) = LETTERS.iter().find(|(known, _)| *known == letter) else { continue };
        for (y, row) in rows.iter().enumerate() {
            for x in (0..5).filter(|x| row >> (4 - x) & 1 == 1) {
                fill(picture, left + (6 * n + x) * size, top + y * size, size, size, colour);
            }
        }
    }
}

/// The digits as bars of 2 and 5 pixels, with their text below.
fn bar_code(picture: &mut Picture, digits: &str, left: usize, top: usize, height: usize) {
    let mut x = left;
    let mut bar = |picture: &mut Picture, wide: bool| {
        let width = if wide { 5 } else { 2 };
        fill(picture, x, top, width, height, INK);
        x += width + 2;
    };
    [true, true, false].into_iter().for_each(|wide| bar(picture, wide));
    for digit in digits.bytes() {
        (0..5).rev().for_each(|bit| bar(picture, BARS[usize::from(digit - b'0')] >> bit & 1 == 1));
    }
    [true, false, true].into_iter().for_each(|wide| bar(picture, wide));
    write(picture, digits, left, top + height + 5, 2, INK);
}

/// The coupon as it was printed.
fn printed() -> Picture {
    let mut picture = Picture::new(WIDTH, HEIGHT, [236, 226, 198]);
    for (inset, colour) in [(8, BLUE), (11, [236, 226, 198])] {
        fill(&mut picture, inset, inset, WIDTH - 2 * inset, HEIGHT - 2 * inset, colour);
    }
    fill(&mut picture, 20, 20, 300, 44, BLUE);
    write(&mut picture, "COUPON", 32, 26, 5, [240, 236, 224]);
    write(&mut picture, "SAVE", 28, 80, 4, RED);
    write(&mut picture, "2.50", 28, 118, 9, RED);
    write(&mut picture, "VALID UNTIL 31.12.", 28, 196, 2, INK);
    write(&mut picture, "ONE PER VISIT. NO CASH VALUE.", 28, 220, 1, INK);
    bar_code(&mut picture, "047193", 296, 84, 96);
    // a soft disc, as a logo's shading
    for y in 0..HEIGHT {
        for x in 0..WIDTH {
            let away = ((x as f32 - 440.0).powi(2) + (y as f32 - 48.0).powi(2)).sqrt();
            if away < 30.0 {
                let shade = 1.0 - away / 40.0;
                picture.set(x, y, [236, 226, 198].map(|paper: u8| (f32::from(paper) * (1.0 - 0.6 * shade)) as u8));
            }
        }
    }
    picture
}

/// The printed coupon as a scanner sees it: a little blurred, unevenly lit, with the paper's grain.
pub fn scanned() -> Picture {
    let printed = printed();
    let mut picture = printed.clone();
    let mut random = Random(0x5eed_c0de_0000_0001);
    let mut fibre = vec![0.0f32; WIDTH];
    for y in 0..HEIGHT {
        for x in 0..WIDTH {
            fibre[x] = 0.7 * fibre[x] + 0.3 * (if x == 0 { 0.0 } else { 0.8 * fibre[x - 1] }) + 5.0 * random.grain();
            let light = 1.0 - 0.06 * (x as f32 / WIDTH as f32) - 0.04 * (y as f32 / HEIGHT as f32);
            let mut colour = [0; 3];
            for (channel, sample) in colour.iter_mut().enumerate() {
                let at = |dx: usize, dy: usize| {
                    let (x, y) = ((x + dx).saturating_sub(1).min(WIDTH - 1), (y + dy).saturating_sub(1).min(HEIGHT - 1));
                    f32::from(printed.pixel(x, y)[channel])
                };
                let blurred = (4.0 * at(1, 1) + at(0, 1) + at(2, 1) + at(1, 0) + at(1, 2)) / 8.0;
                *sample = (blurred * light + fibre[x] + 1.5 * random.grain()).clamp(0.0, 255.0) as u8;
            }
            picture.set(x, y, colour);
        }
    }
    picture
}
