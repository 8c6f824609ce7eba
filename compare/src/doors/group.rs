// The bias record of group.rs, for any `one` and the default numerator; and the count that it predicts, 32 at the first cell.

pub(crate) fn bias(one: f32) -> super::DequantBias {
    super::DequantBias::new(one)
}

pub(crate) fn level(one: f32, quant: i32) -> f32 {
    bias(one).level(quant)
}

pub(crate) fn predict_from_top_and_left(row_top: Option<&[u8]>, row: &[u8], x: usize) -> u8 {
    super::predict_from_top_and_left(row_top, row, x, 32)
}
