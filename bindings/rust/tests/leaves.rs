//! The price book and the leaf calls, within their domains and outside. Expected numbers are worked out by hand from the definitions.
use rdoq::{
    candidates, chroma_weight, distortion_weight, fine_block_context, fine_non_zero_context, fine_zero_density_contexts_offset,
    lambda, level, pack_signed, uint_encode_with_config, window_len, zero_density_context, zero_density_context_8x8, Bias, Book,
    BookBuilder, Config, PrefixCode, Pricing, Refusal, Split, Window, CONTEXTS, READY, STACK_BYTES, STORE_RECORD, STORE_RUNS,
    SYMBOLS,
};
use std::collections::HashSet;

const OUTSIDE: Refusal = Refusal::Domain;

fn builder() -> BookBuilder {
    BookBuilder::new(vec![0; CONTEXTS], &[[4, 2, 0]])
}

fn config(split_exponent: u32, msb_in_token: u32, lsb_in_token: u32) -> Config {
    Config { split_exponent, msb_in_token, lsb_in_token }
}

#[test]
fn refusals_have_their_numbers() {
    let mut texts = HashSet::new();
    for number in (1..=19).chain(27..=28).chain(33..=37) {
        let refusal = Refusal::from_number(number).unwrap();
        assert_eq!(refusal.number(), number);
        let text = refusal.to_string();
        assert!(text.starts_with(&format!("refusal {number}: ")), "{text}");
        assert!(texts.insert(text));
    }
    assert_eq!(Refusal::from_number(0), None);
    assert_eq!(Refusal::from_number(255), None);
    assert_eq!(Refusal::StoreRecord.number(), 37);
    assert_eq!(Refusal::Ideal.number(), 13);
    assert_eq!(Refusal::BandInfinite.number(), 15);
}

#[cfg(feature = "std")]
#[test]
fn a_refusal_is_an_error() {
    let error: Box<dyn std::error::Error> = Box::new(Refusal::Domain);
    assert_eq!(error.to_string(), Refusal::Domain.to_string());
}

#[test]
fn a_book_from_symbol_prices() {
    let prices: Vec<f32> = (0..SYMBOLS).map(|s| s as f32).collect();
    let book = builder().symbol_prices(prices).fill().unwrap();
    assert_eq!(book.check(), Ok(()));
    assert_eq!(book.clusters(), 1);
    // below 16 the symbol is the value; 16 is symbol 16 with 2 extra bits, 255 symbol 31 with 5, 65,536 symbol 64 with 14
    for (value, bits) in [(0, 0.0), (15, 15.0), (16, 18.0), (255, 36.0), (65_536, 78.0)] {
        assert_eq!(book.token_bits(0, value), Ok(bits), "{value}");
    }
    assert_eq!(book.ready()[255], 36.0);
    assert_eq!(book.token_bits(14_849, 131_071).map(|bits| bits.is_finite()), Ok(true));
    assert_eq!(book.token_bits(14_850, 0), Err(OUTSIDE));
    assert_eq!(book.token_bits(0, 131_072), Err(OUTSIDE));
    assert_eq!(book.token_bits_pair(14_848, 16), Ok((18.0, 18.0)));
    assert_eq!(book.token_bits_pair(14_849, 16), Err(OUTSIDE));
}

#[test]
fn a_price_is_that_of_the_contexts_cluster() {
    let mut map = vec![0; CONTEXTS];
    map[7] = 1;
    let mut prices = vec![1.0; SYMBOLS];
    prices.extend(vec![2.0; SYMBOLS]);
    let book = BookBuilder::new(map, &[[4, 2, 0], [4, 2, 1]]).symbol_prices(prices).fill().unwrap();
    assert_eq!(book.token_bits_pair(6, 3), Ok((1.0, 2.0)));
    assert_eq!(book.token_bits_pair(7, 3), Ok((2.0, 1.0)));
}

#[test]
fn a_book_from_an_ans_code() {
    let mut freqs = vec![0; 2 * SYMBOLS];
    freqs[..4].copy_from_slice(&[2_048, 1_024, 3, 4_096]);
    freqs[SYMBOLS] = 39;
    let two = BookBuilder::new(vec![0; CONTEXTS], &[[4, 2, 0], [4, 2, 0]]);
    let book = two.clone().ans_code(&freqs).unwrap().fill().unwrap();
    assert_eq!(book.check(), Ok(()));
    // powers of two are exact; 3 and 39 by their bits
    assert_eq!(book.symbols()[..2], [1.0, 2.0]);
    assert_eq!(book.symbols()[2].to_bits(), 0x4126_a3fe);
    assert_eq!(book.symbols()[3..5], [0.0, 15.0]);
    assert!((f64::from(book.symbols()[SYMBOLS]) - (12.0 - 39f64.log2())).abs() < 1e-6);
    freqs[2 * SYMBOLS - 1] = 4_097;
    assert_eq!(two.clone().ans_code(&freqs).err(), Some(Refusal::Frequency));
    freqs.pop();
    assert_eq!(two.ans_code(&freqs).err(), Some(Refusal::BookLength));
    assert_eq!(BookBuilder::new(vec![0; CONTEXTS], &[]).ans_code(&[]).err(), Some(Refusal::MapLength));
}

#[test]
fn a_book_from_a_prefix_code() {
    let mut depths = vec![0; 2 * SYMBOLS];
    depths[0] = 1;
    depths[1] = 9;
    depths[SYMBOLS + 3] = 4;
    let two = BookBuilder::new(vec![0; CONTEXTS], &[[4, 2, 0], [4, 2, 0]]);
    for (pricing, lacking) in [(Pricing::Lenient, 15.0), (Pricing::Strict, f32::INFINITY)] {
        let book = two.clone().prefix_code(&depths, &[0, 5], pricing).unwrap().fill().unwrap();
        assert_eq!(book.check(), Ok(()));
        assert_eq!(book.symbols()[..3], [1.0, 9.0, lacking]);
        // the second cluster's code has a single symbol
        assert_eq!(book.symbols()[SYMBOLS + 2..SYMBOLS + 4], [lacking, 0.0]);
    }
    // a cluster without a word costs 15 throughout, strict or not, whatever its flag
    depths[SYMBOLS + 3] = 0;
    for (pricing, lacking) in [(Pricing::Lenient, 15.0), (Pricing::Strict, f32::INFINITY)] {
        let book = two.clone().prefix_code(&depths, &[0, 5], pricing).unwrap().fill().unwrap();
        assert_eq!(book.symbols()[..3], [1.0, 9.0, lacking]);
        assert_eq!(book.symbols()[SYMBOLS..], [15.0; SYMBOLS]);
    }
    assert_eq!(two.clone().prefix_code(&depths[1..], &[0, 0], Pricing::Strict).unwrap_err(), Refusal::BookLength);
    assert_eq!(two.prefix_code(&depths, &[0], Pricing::Strict).unwrap_err(), Refusal::BookLength);
    let none = BookBuilder::new(vec![0; CONTEXTS], &[]);
    assert_eq!(none.prefix_code(&[], &[], Pricing::Strict).unwrap_err(), Refusal::MapLength);
}

#[test]
fn a_value_past_the_last_symbol() {
    for (split, last, price) in [([5, 2, 2], 2_047, 7.0), ([6, 3, 0], 16_383, 11.0), ([6, 3, 3], 127, 1.0)] {
        // the next cluster's prices are not read
        let book = BookBuilder::new(vec![0; CONTEXTS], &[split, split]).symbol_prices(vec![1.0; 2 * SYMBOLS]).fill().unwrap();
        assert_eq!(book.check(), Ok(()));
        assert_eq!(book.token_bits(0, last), Ok(price));
        assert_eq!(book.token_bits(0, last + 1), Ok(f32::INFINITY));
        assert_eq!(book.token_bits_pair(0, last + 1), Ok((f32::INFINITY, f32::INFINITY)));
    }
}

#[test]
fn what_filling_refuses() {
    let good = vec![1.0; SYMBOLS];
    let fill = |map: Vec<u8>, configs: &[[u8; 3]], prices: Vec<f32>| BookBuilder::new(map, configs).symbol_prices(prices).fill();
    let map = || vec![0; CONTEXTS];
    assert_eq!(fill(vec![0; CONTEXTS + 1], &[[4, 2, 0]], good.clone()), Err(Refusal::MapLength));
    assert_eq!(fill(map(), &[], vec![]), Err(Refusal::MapLength));
    assert_eq!(fill(map(), &[[4, 2, 0]; 257], vec![1.0; 257 * SYMBOLS]), Err(Refusal::MapLength));
    assert!(fill(map(), &[[4, 2, 0]; 256], vec![1.0; 256 * SYMBOLS]).is_ok());
    assert_eq!(fill(map(), &[[4, 2, 0]], vec![1.0; SYMBOLS - 1]), Err(Refusal::BookLength));
    assert_eq!(fill(vec![1; CONTEXTS], &[[4, 2, 0]], good.clone()), Err(Refusal::MapEntry));
    assert_eq!(fill(map(), &[[5, 3, 3]], good.clone()), Err(Refusal::Configuration));
    assert_eq!(fill(map(), &[[7, 2, 2]], good.clone()), Err(Refusal::Configuration));
    for (price, passes) in
        [(f32::NAN, false), (-1.0, false), (1_024.5, false), (1_024.0, true), (f32::INFINITY, true), (-0.0, true)]
    {
        let mut prices = good.clone();
        prices[100] = price;
        let reply = fill(map(), &[[4, 2, 0]], prices);
        assert_eq!(reply.as_ref().err(), if passes { None } else { Some(&Refusal::SymbolPrice) }, "{price}");
    }
    assert!(fill(map(), &[[4, 2, 1]], good.clone()).is_ok());
    assert!(fill(map(), &[[6, 2, 0]], good).is_ok());
}

#[test]
fn a_book_with_a_wrong_ready_price() {
    let book = builder().symbol_prices(vec![1.0; SYMBOLS]).fill().unwrap();
    let mut ready = book.ready().to_vec();
    ready[200] = 1.0;
    let wrong = Book::from_parts(1, book.map().to_vec(), book.configs().to_vec(), book.symbols().to_vec(), ready);
    assert_eq!(wrong.check(), Err(Refusal::ReadyPrice));
    assert_eq!(wrong.token_bits(0, 200), Err(OUTSIDE));
    assert_eq!(wrong.token_bits(0, 201), Ok(6.0));
}

#[test]
fn packing_and_splitting() {
    for (level, packed) in [(0, 0), (-1, 1), (1, 2), (-32_768, 65_535), (32_768, 65_536)] {
        assert_eq!(pack_signed(level), Ok(packed));
    }
    for level in [32_769, -32_769, i32::MAX, i32::MIN] {
        assert_eq!(pack_signed(level), Err(OUTSIDE));
    }
    for (value, symbol, extra_bits, bits) in [(15, 15, 0, 0), (16, 16, 2, 0), (255, 31, 5, 31), (65_536, 64, 14, 0)] {
        assert_eq!(uint_encode_with_config(value, config(4, 2, 0)), Ok(Split { symbol, extra_bits, bits }));
    }
    assert_eq!(uint_encode_with_config(131_072, config(4, 2, 0)), Err(OUTSIDE));
    assert_eq!(uint_encode_with_config(2_048, config(5, 2, 2)), Ok(Split { symbol: 128, extra_bits: 7, bits: 0 }));
    assert_eq!(uint_encode_with_config(0, config(5, 3, 3)), Err(OUTSIDE));
    assert_eq!(uint_encode_with_config(0, config(7, 0, 0)), Err(OUTSIDE));
    assert_eq!(uint_encode_with_config(0, config(4, 256, 0)), Err(OUTSIDE));
}

#[test]
fn contexts() {
    assert!(fine_block_context(2, 26, true).unwrap() < 30);
    assert_eq!(fine_block_context(3, 0, false), Err(OUTSIDE));
    assert_eq!(fine_block_context(0, 27, false), Err(OUTSIDE));
    // the buckets of 7, 8, 63 and 64 are 7, 8, 35 and 36; a bucket has 30 contexts
    for (count, bucket) in [(7, 7), (8, 8), (63, 35), (64, 36), (u32::MAX, 36)] {
        assert_eq!(fine_non_zero_context(count, 29), Ok(bucket * 30 + 29));
    }
    assert_eq!(fine_non_zero_context(0, 30), Err(OUTSIDE));
    // 30 * 37 contexts of counts come first
    assert_eq!(fine_zero_density_contexts_offset(0), Ok(1_110));
    assert_eq!(fine_zero_density_contexts_offset(29), Ok(14_392));
    assert_eq!(fine_zero_density_contexts_offset(30), Err(OUTSIDE));
    assert_eq!(zero_density_context(33, 31, 1, 1), Ok(457));
    assert_eq!(zero_density_context_8x8(33, 31, 1), Ok(457));
    assert_eq!(zero_density_context(3, 5, 2, 0), Ok(64));
    assert_eq!(zero_density_context(34, 31, 1, 0), Err(OUTSIDE));
    assert_eq!(zero_density_context(1, 5, 3, 0), Err(OUTSIDE));
    assert_eq!(zero_density_context_8x8(34, 31, 0), Err(OUTSIDE));
    assert_eq!(zero_density_context_8x8(1, 5, 2), Err(OUTSIDE));
}

#[test]
fn biased_levels() {
    let bias = Bias::new(0.75);
    for (quant, restored) in [(0, 0.0), (1, 0.75), (-1, -0.75), (2, 2.0 - 0.145 / 2.0), (-32_768, -32_768.0 + 0.145 / 32_768.0)] {
        assert_eq!(level(bias, quant), Ok(restored));
    }
    assert_eq!(level(bias, 32_769), Err(OUTSIDE));
    assert_eq!(level(Bias::new(2.5), 1), Err(OUTSIDE));
    assert_eq!(level(Bias { one: 1.0, numerator: 0.0 }, 1), Err(OUTSIDE));
}

#[test]
fn weights() {
    // the ratio is held within 0.5 to 2
    for (ratio, expected) in [(1.0, 1.0), (0.25, 0.5), (8.0, 2.0), (f32::INFINITY, 2.0)] {
        assert_eq!(lambda(8.0, 0.5, ratio), Ok(expected));
    }
    assert_eq!(lambda(8.0, 0.5, f32::NAN), Err(OUTSIDE));
    for (distance, weight) in [(0.0, 2.0), (2.25, 2.0), (3.125, 1.5), (4.0, 1.0), (25.0, 1.0)] {
        assert_eq!(chroma_weight(distance), Ok(weight));
    }
    assert_eq!(chroma_weight(25.5), Err(OUTSIDE));
    assert_eq!(chroma_weight(f32::NAN), Err(OUTSIDE));
    // 1 + strength * (1 - index / length)^2, the strength growing from 0 at a distance of 2 to 1 at 3
    for (index, length, distance, weight) in
        [(0, 64, 2.0, 1.0), (0, 64, 3.0, 2.0), (32, 64, 3.0, 1.25), (64, 64, 9.0, 1.0), (16, 64, 2.5, 1.28125)]
    {
        assert_eq!(distortion_weight(index, length, distance), Ok(weight));
    }
    assert_eq!(distortion_weight(65, 64, 1.0), Err(OUTSIDE));
    assert_eq!(distortion_weight(0, 1_025, 1.0), Err(OUTSIDE));
    assert_eq!(distortion_weight(0, 64, -1.0), Err(OUTSIDE));
}

#[test]
fn windows() {
    for (covered, length, restoring) in [(1, 63, 20), (2, 126, 48), (16, 1_008, 256), (32, 1_024, 256), (1_024, 1_024, 256)] {
        assert_eq!(window_len(covered), Ok(Window { length, restoring }));
    }
    for covered in [0, 3, 2_048] {
        assert_eq!(window_len(covered), Err(OUTSIDE));
    }
}

#[test]
fn candidate_levels() {
    // not restoring: the level, one step toward zero, and 0
    for (current, list) in [(3, vec![3, 2, 0]), (-1, vec![-1, 0]), (0, vec![0])] {
        assert_eq!(candidates(0.0, current, false), Ok(list));
    }
    // restoring: the level, 0, the ideal's rounding and its neighbours; the level alone where a large ideal is close to its rounding
    for (ideal, current, list) in [(0.75, 0, vec![0, 1, 2]), (3.25, 3, vec![3, 0, 2, 4]), (3.125, 3, vec![3])] {
        assert_eq!(candidates(ideal, current, true), Ok(list));
    }
    assert_eq!(candidates(-32_767.0, 32_767, true).map(|list| list[0]), Ok(32_767));
    for (ideal, current) in [(f32::NAN, 0), (32_768.0, 0), (0.0, 32_768), (0.0, -32_768)] {
        assert_eq!(candidates(ideal, current, true), Err(OUTSIDE));
    }
}

/// What the `# Errors` sections say: each domain at its ends, and just outside.
#[test]
fn the_ends_of_each_domain() {
    fn inside<T>(reply: Result<T, Refusal>) {
        assert_eq!(reply.err(), None);
    }
    fn outside<T>(reply: Result<T, Refusal>) {
        assert_eq!(reply.err(), Some(OUTSIDE));
    }
    inside(fine_non_zero_context(u32::MAX, 29));
    outside(fine_non_zero_context(0, 30));
    // the last position of the smallest and of the largest block, and the first with every level nonzero
    for (left, k, covered) in [(1, 63, 1), (63, 1, 1), (1, 65_535, 1_024), (64_512, 1_024, 1_024)] {
        inside(zero_density_context(left, k, covered, 1));
        outside(zero_density_context(left + 1, k, covered, 1));
        outside(zero_density_context(left, k, covered, 2));
        outside(zero_density_context(0, k, covered, 1));
    }
    for (k, covered) in [(0, 1), (64, 1), (1_023, 1_024), (65_536, 1_024), (3, 3), (2_048, 2_048), (0, 0)] {
        outside(zero_density_context(1, k, covered, 0));
    }
    for (left, k) in [(1, 63), (63, 1)] {
        inside(zero_density_context_8x8(left, k, 1));
        outside(zero_density_context_8x8(left + 1, k, 1));
        outside(zero_density_context_8x8(left, k, 2));
    }
    inside(level(Bias::new(0.0), 32_768));
    inside(level(Bias::new(2.0), -32_768));
    outside(level(Bias::new(1.0), 32_769));
    outside(level(Bias::new(f32::NAN), 0));
    inside(lambda(f32::NAN, f32::INFINITY, -1.0));
    outside(lambda(1.0, 1.0, f32::NAN));
    inside(distortion_weight(1_024, 1_024, 25.0));
    outside(distortion_weight(2, 1, 1.0));
    outside(distortion_weight(0, 1_025, 1.0));
    outside(distortion_weight(0, 1, f32::NAN));
    inside(candidates(-32_767.0, 32_767, true));
    outside(candidates(f32::NAN, 1, true));
    outside(candidates(0.0, -32_768, true));
    let book = builder().symbol_prices(vec![1.0; SYMBOLS]).fill().unwrap();
    inside(book.token_bits(14_849, 131_071));
    inside(book.token_bits_pair(14_848, 131_071));
    outside(book.token_bits(14_850, 0));
    outside(book.token_bits(0, 131_072));
    outside(book.token_bits_pair(14_849, 0));
    outside(book.token_bits_pair(u32::MAX, 0));
}

#[test]
fn the_constants_are_the_headers() {
    let path = concat!(env!("CARGO_MANIFEST_DIR"), "/../../include/rdoq.h");
    let header = match std::fs::read_to_string(path) {
        Ok(header) => header,
        Err(_) => return println!("{path} is missing, as in a package of the crate alone"),
    };
    for (name, value) in [
        ("CONTEXTS", CONTEXTS),
        ("SYMBOLS", SYMBOLS),
        ("READY", READY),
        ("STORE_RUNS", STORE_RUNS),
        ("STORE_RECORD", STORE_RECORD),
        ("STACK_BYTES", STACK_BYTES),
    ] {
        assert!(header.contains(&format!("#define RDOQ_{name} {value}u")), "{name} is not {value} in the header");
    }
}

#[test]
fn the_library_is_of_this_version() {
    let (major, minor, patch) = rdoq::version();
    assert_eq!(format!("{major}.{minor}.{patch}"), env!("CARGO_PKG_VERSION"));
}

#[test]
fn codes_of_each_cluster_are_one_list() {
    let two = || BookBuilder::new(vec![0; CONTEXTS], &[[4, 2, 0], [5, 2, 2]]);
    let (mut depths, mut freqs) = (vec![0; 2 * SYMBOLS], vec![0; 2 * SYMBOLS]);
    depths[..3].copy_from_slice(&[1, 2, 2]);
    depths[SYMBOLS + 1] = 4;
    freqs[..2].copy_from_slice(&[4_000, 96]);
    freqs[SYMBOLS..].fill(32);
    let short = PrefixCode { depths: &[1, 2, 2], single_symbol: false };
    let single = PrefixCode { depths: &[0, 4], single_symbol: true };
    for pricing in [Pricing::Lenient, Pricing::Strict] {
        let whole = two().prefix_code(&depths, &[0, 1], pricing).unwrap().fill();
        assert_eq!(two().prefix_clusters(&[short, single], pricing).unwrap().fill(), whole);
    }
    let whole = two().ans_code(&freqs).unwrap().fill();
    assert_eq!(two().ans_clusters(&[&[4_000, 96], &[32; SYMBOLS]]).unwrap().fill(), whole);

    // not a list for each cluster, or too long a list; the clusters are asked for first, a frequency last
    let long = PrefixCode { depths: &[1; 2 * SYMBOLS], single_symbol: false };
    for codes in [&[][..], &[short], &[long], &[short, long], &[short, single, single]] {
        assert_eq!(two().prefix_clusters(codes, Pricing::Lenient).unwrap_err(), Refusal::BookLength);
    }
    let (few, twice, many) = (&[1_u16][..], &[1; 2 * SYMBOLS][..], &[4_097; SYMBOLS + 1][..]);
    for lists in [&[][..], &[twice], &[few, many], &[few, few, few]] {
        assert_eq!(two().ans_clusters(lists).unwrap_err(), Refusal::BookLength);
    }
    assert_eq!(two().ans_clusters(&[&[1], &[4_097]]).unwrap_err(), Refusal::Frequency);
    let none = BookBuilder::new(vec![0; CONTEXTS], &[]);
    assert_eq!(none.clone().prefix_clusters(&[short], Pricing::Lenient).unwrap_err(), Refusal::MapLength);
    assert_eq!(none.ans_clusters(&[]).unwrap_err(), Refusal::MapLength);
}
