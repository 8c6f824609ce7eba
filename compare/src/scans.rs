//! Scans: the standard's natural order for every shape, and others.

use crate::random::Random;

/// The standard's natural order of a block of cx by cy covered blocks: the lowest frequencies first, then zigzag over the
/// frequencies as scaled to a square.
pub fn natural(cx: usize, cy: usize) -> Vec<u32> {
    let (wide, narrow) = (cx.max(cy), cx.min(cy));
    let ratio = wide / narrow;
    let side = 8 * wide;
    let mut low: Vec<u32> = Vec::new();
    let mut high: Vec<u32> = Vec::new();
    for y in 0..narrow {
        low.extend((0..wide).map(|x| (y * side + x) as u32));
    }
    let mut visit = |mut x: usize, mut y: usize, turned: bool| {
        if turned {
            std::mem::swap(&mut x, &mut y);
        }
        if y % ratio != 0 {
            return;
        }
        y /= ratio;
        if x >= wide || y >= narrow {
            high.push((y * side + x) as u32);
        }
    };
    for diagonal in 0..side {
        for j in 0..=diagonal {
            visit(j, diagonal - j, diagonal % 2 == 1);
        }
    }
    for diagonal in (1..side).rev() {
        for j in 0..diagonal {
            visit(side - diagonal + j, side - 1 - j, diagonal % 2 == 0);
        }
    }
    low.extend(high);
    low
}

pub fn shuffled(random: &mut Random, n: usize) -> Vec<u32> {
    let mut scan: Vec<u32> = (0..n as u32).collect();
    for i in (1..n).rev() {
        scan.swap(i, random.below(i + 1));
    }
    scan
}

/// Holds the natural order to the five that the Rust spells out. True where all agree.
pub fn agree_with_the_rust() -> bool {
    use crate::ac_context as rust;
    let bytes = |list: &[u8]| list.iter().map(|&x| u32::from(x)).collect::<Vec<_>>();
    let pairs = |list: &[u16]| list.iter().map(|&x| u32::from(x)).collect::<Vec<_>>();
    natural(1, 1) == bytes(&rust::K_COEFF_ORDER_8X8)
        && natural(2, 1) == bytes(&rust::K_COEFF_ORDER_16X8)
        && natural(2, 2) == bytes(&rust::K_COEFF_ORDER_16X16)
        && natural(4, 2) == pairs(&rust::K_COEFF_ORDER_32X16)
        && natural(4, 4) == pairs(&rust::K_COEFF_ORDER_32X32)
}
