//! Stand-ins for the modules of the Rust that are not in its text. Where document 01 gives the rule, the stand-in follows it;
//! the others are never reached by a search and only let the files compile.

/// `pack_signed`, `Token`, `uint_encode_with_config` and the types that entropy_code.rs names.
pub(crate) mod entropy {
    /// Document 01, module 1: level v packs to 2v if v >= 0, else to -2v - 1.
    pub(crate) fn pack_signed(v: i32) -> u32 {
        if v >= 0 {
            2 * v as u32
        } else {
            2 * v.unsigned_abs() - 1
        }
    }

    /// A stream of tokens, for `AdaptiveRate` alone. No search reaches it.
    #[derive(Clone, Copy)]
    pub(crate) struct TokenSlice<'a>(pub(crate) &'a [token::Token]);

    impl<'a> TokenSlice<'a> {
        pub(crate) fn iter(self) -> impl Iterator<Item = &'a token::Token> {
            self.0.iter()
        }
    }

    /// For `AdaptiveRate` alone. No search reaches it.
    pub(crate) fn f_log2(x: f64) -> f64 {
        x.log2()
    }

    pub(crate) mod token {
        #[derive(Clone, Copy, Debug)]
        pub(crate) struct Token {
            pub(crate) context: u32,
            pub(crate) value: u32,
        }

        impl Token {
            pub(crate) fn new(context: u32, value: u32) -> Self {
                Self { context, value }
            }
        }

        /// A configuration (s, m, l) of document 01.
        #[derive(Clone, Copy, Debug)]
        pub(crate) struct HybridUintConfig {
            pub(crate) s: u32,
            pub(crate) m: u32,
            pub(crate) l: u32,
        }

        /// Document 01, module 1, splitting: symbol, number of extra bits, and the extra bits (which no price looks at).
        pub(crate) fn uint_encode_with_config(value: u32, config: HybridUintConfig) -> (u32, u32, u32) {
            let HybridUintConfig { s, m, l } = config;
            if value < 1 << s {
                return (value, 0, 0);
            }
            let n = 31 - value.leading_zeros();
            let extra = n - m - l;
            let under_top = (value >> (n - m)) & ((1 << m) - 1);
            let lowest = value & ((1 << l) - 1);
            let symbol = (1 << s) + ((n - s) << (m + l)) + (under_top << l) + lowest;
            (symbol, extra, (value >> l) & ((1 << extra) - 1))
        }
    }

    pub(crate) use token::Token;

    pub(crate) mod prefix_code {
        /// Document 01, module 4: 128 symbol prices for each cluster.
        pub(crate) const ALPHABET_SIZE: usize = 128;

        #[derive(Clone)]
        pub(crate) struct PrefixCode {
            pub(crate) depths: [u8; ALPHABET_SIZE],
            pub(crate) single_symbol: bool,
        }
    }

    /// What the ANS branch of the price book reads (ticket 2 of document 02).
    pub(crate) mod ans {
        pub(crate) const ANS_LOG_TAB_SIZE: usize = 12;

        #[derive(Clone)]
        pub(crate) struct AnsHistogram {
            pub(crate) freqs: [u16; super::prefix_code::ALPHABET_SIZE],
        }

        #[derive(Clone)]
        pub(crate) struct AnsEncSymbolInfo;
    }
}

pub(crate) mod adaptive_quant {
    /// Ticket 2 of document 02: a logarithm from the float's bits, with additions that wrap, and no fused step. The original's own series is not in the
    /// text; the constants are the f32 nearest 2 / (k ln 2), k = 7, 5, 3, 1.
    pub(crate) fn dirty_log2f(d: f32) -> f32 {
        let i = d.to_bits().wrapping_add(0x3f80_0000 - 0x3f35_04f3);
        let n = (i >> 23) as i32 - 127;
        let a = f32::from_bits((i & 0x7f_ffff).wrapping_add(0x3f35_04f3));
        let x = (a - 1.0) / (a + 1.0);
        let y = x * x;
        let series = (f32::from_bits(0x3ed3_0bb1) * y + f32::from_bits(0x3f13_bb63)) * y + f32::from_bits(0x3f76_384f);
        (y * x) * series + (x * f32::from_bits(0x4038_aa3b) + n as f32)
    }
}

pub(crate) mod util {
    /// Document 01, module 6: the nearest whole number, halves away from zero. The original's own rule for halves is not known.
    pub(crate) trait FastRound {
        fn fast_round(self) -> Self;
    }

    impl FastRound for f32 {
        fn fast_round(self) -> f32 {
            self.round()
        }
    }

    /// For the explicit biases alone, which check 10 refuses.
    pub(crate) fn f32_to_f16_bits(_: f32) -> u16 {
        unreachable!("explicit biases are not compared")
    }

    /// For the explicit biases alone, which check 10 refuses.
    pub(crate) fn f16_bits_to_f32(_: u16) -> f32 {
        unreachable!("explicit biases are not compared")
    }
}

/// For `few_colors` alone, which is no part of a search.
pub(crate) mod image {
    pub(crate) struct Image3F;

    impl Image3F {
        pub(crate) fn plane_row(&self, _plane: usize, _y: usize) -> &[f32] {
            unreachable!("few_colors is not compared")
        }
    }
}

/// `CHANNEL_WEIGHT` is not in the text; document 01 makes the channel weight an argument.
pub(crate) mod inflated_cost {
    pub(crate) const CHANNEL_WEIGHT: [f32; 3] = [1.0; 3];
}

/// `RD_LAMBDA` is not in the text; lambda is an argument of a search.
pub(crate) mod ac_strategy {
    pub(crate) const RD_LAMBDA: f32 = 1.0;
}

/// For `RdoqSearch::of` alone.
pub(crate) mod effort {
    pub(crate) struct Effort {
        pub(crate) rdoq_trellis: bool,
        pub(crate) rdoq_beam: bool,
    }
}

/// Decides `legacy_limit` alone, which never skips a block of document 01 (8,064 is under 32,896).
pub(crate) mod dc_group_data {
    pub(crate) fn is_128_strategy(raw_strategy: u8) -> bool {
        (21..=23).contains(&raw_strategy)
    }
}

/// For `rdoq_lambda` alone.
#[derive(Clone, Copy)]
pub(crate) struct Arbiter;

pub(crate) struct Tuning {
    pub(crate) rdoq_lambda: f32,
}

impl Arbiter {
    pub(crate) fn tuning(self) -> Tuning {
        Tuning { rdoq_lambda: 1.0 }
    }
}

/// For `rdoq_channel_weights` alone.
#[derive(Clone, Copy)]
pub(crate) enum CodingTransform {
    Xyb,
    Rgb,
    YCbCr,
}

impl CodingTransform {
    pub(crate) fn channel_weights(self) -> [f32; 3] {
        [1.0; 3]
    }
}
