//! The cosine transform of square blocks, scan orders and quantisation weights.
use std::f32::consts::PI;

/// The transform of a block of n by n samples, by rows and columns. Coefficient (0, 0) is the mean, as in JPEG XL.
pub fn forward(samples: &[f32], n: usize) -> Vec<f32> {
    let basis = basis(n);
    both_ways(samples, n, |line, out| {
        for (k, coefficient) in out.iter_mut().enumerate() {
            *coefficient = (0..n).map(|i| basis[k * n + i] * line[i]).sum::<f32>() / n as f32;
        }
    })
}

/// And back.
pub fn backward(coefficients: &[f32], n: usize) -> Vec<f32> {
    let basis = basis(n);
    both_ways(coefficients, n, |line, out| {
        for (i, sample) in out.iter_mut().enumerate() {
            *sample = (0..n).map(|k| basis[k * n + i] * line[k]).sum();
        }
    })
}

/// 1 for k = 0, else sqrt(2) cos((2i + 1) k pi / 2n).
fn basis(n: usize) -> Vec<f32> {
    (0..n * n)
        .map(|at| match (at / n, at % n) {
            (0, _) => 1.0,
            (k, i) => 2.0f32.sqrt() * ((2 * i + 1) as f32 * k as f32 * PI / (2 * n) as f32).cos(),
        })
        .collect()
}

fn both_ways(block: &[f32], n: usize, line_transform: impl Fn(&[f32], &mut [f32])) -> Vec<f32> {
    let mut rows = vec![0.0; n * n];
    for (line, out) in block.chunks(n).zip(rows.chunks_mut(n)) {
        line_transform(line, out);
    }
    let mut columns = vec![0.0; n * n];
    let (mut line, mut out) = (vec![0.0; n], vec![0.0; n]);
    for x in 0..n {
        (0..n).for_each(|y| line[y] = rows[y * n + x]);
        line_transform(&line, &mut out);
        (0..n).for_each(|y| columns[y * n + x] = out[y]);
    }
    columns
}

/// The natural order of ISO/IEC 18181-1 for a square block of `cells` by `cells` cells: the lowest cells x cells coefficients first, which a
/// decoder gets with the DC picture, then diagonal by diagonal.
pub fn scan(cells: usize) -> Vec<u32> {
    let n = 8 * cells;
    let index = |x: usize, y: usize| (y * n + x) as u32;
    let mut order: Vec<u32> = (0..cells * cells).map(|at| index(at % cells, at / cells)).collect();
    for diagonal in 0..2 * n - 1 {
        for step in 0..=diagonal {
            let (x, y) = if diagonal % 2 == 0 { (step, diagonal - step) } else { (diagonal - step, step) };
            if x < n && y < n && (x >= cells || y >= cells) {
                order.push(index(x, y));
            }
        }
    }
    order
}

/// Bands of the default weights for 8 by 8 blocks (ISO/IEC 18181-1): X, Y, B.
const BANDS: [[f32; 6]; 3] = [
    [3150.0, 0.0, -0.4, -0.4, -0.4, -2.0],
    [560.0, 0.0, -0.3, -0.3, -0.3, -0.3],
    [512.0, -2.0, -1.0, 0.0, -1.0, -2.0],
];

/// The inverse quantisation weights of a channel's block. For 8 by 8 they are the standard's default ones. For larger blocks they are a smooth
/// table of this program's own, not the standard's: the same bands at the same share of the highest frequency, times the side, since a
/// coefficient of a larger block stands for more samples.
pub fn inverse_weights(channel: usize, cells: usize) -> Vec<f32> {
    let n = 8 * cells;
    let mut bands = BANDS[channel];
    for i in 1..bands.len() {
        let v = bands[i];
        bands[i] = bands[i - 1] * if v > 0.0 { 1.0 + v } else { 1.0 / (1.0 - v) };
    }
    let at = |x: usize, y: usize| {
        let share = |i: usize| i as f32 / (n - 1) as f32;
        let position = share(x).hypot(share(y)) * 5.0 / (2.0f32.sqrt() + 1e-6);
        let band = position as usize;
        bands[band] * (bands[band + 1] / bands[band]).powf(position - band as f32) * cells as f32
    };
    (0..n * n).map(|i| at(i % n, i / n)).collect()
}

#[cfg(test)]
mod tests {
    use super::{backward, forward, inverse_weights, scan};

    #[test]
    fn the_transform_goes_both_ways() {
        for n in [8, 16, 32] {
            let samples: Vec<f32> = (0..n * n).map(|i| ((i * 37 % 101) as f32).sin()).collect();
            let coefficients = forward(&samples, n);
            assert!((coefficients[0] - samples.iter().sum::<f32>() / (n * n) as f32).abs() < 1e-5);
            assert!(backward(&coefficients, n).iter().zip(&samples).all(|(a, b)| (a - b).abs() < 1e-4));
        }
    }

    #[test]
    fn scans_hold_each_index_once_and_begin_at_the_standard_s_zigzag() {
        assert_eq!(scan(1)[..10], [0, 1, 8, 16, 9, 2, 3, 10, 17, 24]);
        assert_eq!(scan(2)[..6], [0, 1, 16, 17, 32, 2]);
        for cells in [1, 2, 4] {
            let mut sorted = scan(cells);
            sorted.sort_unstable();
            assert!(sorted.iter().enumerate().all(|(i, &at)| i as u32 == at) && sorted.len() == 64 * cells * cells);
        }
    }

    #[test]
    fn weights_fall_with_frequency() {
        assert_eq!(inverse_weights(1, 1)[0], 560.0);
        for channel in 0..3 {
            for cells in [1, 2, 4] {
                let weights = inverse_weights(channel, cells);
                assert!(weights.iter().all(|w| w.is_finite() && *w > 0.0));
                assert!(weights[0] >= weights[64 * cells * cells - 1]);
            }
        }
    }
}
