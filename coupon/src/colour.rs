//! XYB, the colours of JPEG XL, from sRGB and back; planes of whole cells.
use crate::picture::Picture;

/// What each of three receptors takes of red, green and blue (ISO/IEC 18181-1, the default opsin matrix).
const ABSORBED: [[f32; 3]; 3] =
    [[0.3, 0.622, 0.078], [0.23, 0.692, 0.078], [0.243_422_69, 0.204_767_44, 0.551_809_87]];
const BIAS: f32 = 0.003_793_073_3;

/// X, Y and B of a picture, each padded to whole cells of 8 by 8 by its last samples.
#[derive(Clone)]
pub struct Planes {
    /// Sides of the picture that they stand for.
    pub picture: (usize, usize),
    /// Samples in a row, a multiple of 8.
    pub width: usize,
    /// Rows, a multiple of 8.
    pub height: usize,
    pub samples: [Vec<f32>; 3],
}

impl Planes {
    /// Planes of the same sides, all 0.
    pub fn like(&self) -> Planes {
        let blank = || vec![0.0; self.width * self.height];
        Planes { samples: [blank(), blank(), blank()], ..*self }
    }

    pub fn of(picture: &Picture) -> Planes {
        let whole = |side: usize| 8 * side.div_ceil(8);
        let (width, height) = (whole(picture.width), whole(picture.height));
        let mut samples = [const { Vec::new() }; 3];
        for y in 0..height {
            for x in 0..width {
                let xyb = to_xyb(picture.pixel(x.min(picture.width - 1), y.min(picture.height - 1)));
                samples.iter_mut().zip(xyb).for_each(|(plane, sample)| plane.push(sample));
            }
        }
        Planes { picture: (picture.width, picture.height), width, height, samples }
    }

    pub fn to_picture(&self) -> Picture {
        let (width, height) = self.picture;
        let mut picture = Picture::new(width, height, [0; 3]);
        for y in 0..height {
            for x in 0..width {
                let at = y * self.width + x;
                picture.set(x, y, to_rgb([self.samples[0][at], self.samples[1][at], self.samples[2][at]]));
            }
        }
        picture
    }
}

/// sRGB's curve, from a sample to light.
fn light(sample: u8) -> f32 {
    let v = f32::from(sample) / 255.0;
    if v <= 0.040_45 {
        v / 12.92
    } else {
        ((v + 0.055) / 1.055).powf(2.4)
    }
}

fn sample(light: f32) -> u8 {
    let v = if light <= 0.003_130_8 { 12.92 * light } else { 1.055 * light.powf(1.0 / 2.4) - 0.055 };
    (v * 255.0).round().clamp(0.0, 255.0) as u8
}

fn to_xyb(rgb: [u8; 3]) -> [f32; 3] {
    let rgb = rgb.map(light);
    let [l, m, s] = ABSORBED.map(|row| (row.iter().zip(rgb).map(|(a, b)| a * b).sum::<f32>() + BIAS).cbrt() - BIAS.cbrt());
    [(l - m) / 2.0, (l + m) / 2.0, s]
}

fn to_rgb([x, y, b]: [f32; 3]) -> [u8; 3] {
    let lms = [y + x, y - x, b].map(|v| (v + BIAS.cbrt()).powi(3) - BIAS);
    inverse(ABSORBED).map(|row| sample(row.iter().zip(lms).map(|(a, b)| a * b).sum()))
}

/// The inverse of a 3 by 3 matrix, by cofactors.
fn inverse(m: [[f32; 3]; 3]) -> [[f32; 3]; 3] {
    let cofactor = |r: usize, c: usize| {
        let at = |i: usize, j: usize| m[(r + i) % 3][(c + j) % 3];
        at(1, 1) * at(2, 2) - at(1, 2) * at(2, 1)
    };
    let determinant: f32 = (0..3).map(|c| m[0][c] * cofactor(0, c)).sum();
    std::array::from_fn(|r| std::array::from_fn(|c| cofactor(c, r) / determinant))
}

#[cfg(test)]
mod tests {
    use super::{to_rgb, to_xyb};

    #[test]
    fn colours_come_back() {
        for rgb in [[0, 0, 0], [255, 255, 255], [255, 0, 0], [0, 255, 0], [0, 0, 255], [12, 200, 99], [236, 226, 198]] {
            assert_eq!(to_rgb(to_xyb(rgb)), rgb);
        }
        // grey has no X
        assert!(to_xyb([128, 128, 128])[0].abs() < 1e-6);
    }
}
