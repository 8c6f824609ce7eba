//! The tally beside sums that are worked out afresh from the list of calls.
use rdoq::{Book, BookBuilder, Refusal, Tally, CONTEXTS, SYMBOLS};

struct Random(u64);

impl Random {
    fn below(&mut self, n: u32) -> u32 {
        self.0 ^= self.0 << 13;
        self.0 ^= self.0 >> 7;
        self.0 ^= self.0 << 17;
        (((self.0 >> 32) * u64::from(n)) >> 32) as u32
    }
}

/// Three clusters; the last has symbols above 127.
fn book() -> Book {
    let map = (0..CONTEXTS).map(|context| (context % 3) as u8).collect();
    BookBuilder::new(map, &[[4, 2, 0], [0, 0, 0], [5, 2, 2]]).symbol_prices(vec![1.0; 3 * SYMBOLS]).fill().unwrap()
}

/// The place of a token and its extra bits, by the rule of splitting.
fn use_of(context: u32, value: u32) -> (usize, u64) {
    let cluster = context as usize % 3;
    let [s, m, l] = [[4u32, 2, 0], [0, 0, 0], [5, 2, 2]][cluster];
    let (symbol, extra) = if value < 1 << s {
        (value, 0)
    } else {
        let n = 31 - value.leading_zeros();
        let high = (value >> (n - m)) % (1 << m);
        ((1 << s) + ((n - s) << (m + l)) + (high << l) + value % (1 << l), n - m - l)
    };
    (SYMBOLS * cluster + (symbol as usize).min(127), u64::from(extra))
}

type Tokens = (Vec<u32>, Vec<u32>);

fn tokens(random: &mut Random) -> Tokens {
    let count = random.below(12);
    (0..count).map(|_| (random.below(9), if random.below(3) == 0 { random.below(131_072) } else { random.below(4) })).unzip()
}

/// Counts and total from all the calls that were answered, each sum begun anew.
fn afresh(calls: &[(bool, Tokens)]) -> (Vec<i64>, i64) {
    let (mut counts, mut extra) = (vec![0; 3 * SYMBOLS], 0);
    for (add, (contexts, values)) in calls {
        for (&context, &value) in contexts.iter().zip(values) {
            let (place, bits) = use_of(context, value);
            let sign = if *add { 1 } else { -1 };
            counts[place] += sign;
            extra += sign * bits as i64;
        }
    }
    (counts, extra)
}

#[test]
fn any_run_of_calls() {
    let (book, mut random) = (book(), Random(7));
    let mut refused = 0;
    for _ in 0..200 {
        let mut tally = Tally::new(3);
        let mut answered: Vec<(bool, Tokens)> = Vec::new();
        for _ in 0..60 {
            let add = random.below(2) == 0;
            let call = if !add && random.below(2) == 0 && !answered.is_empty() {
                answered[random.below(answered.len() as u32) as usize].1.clone()
            } else {
                tokens(&mut random)
            };
            let before = tally.clone();
            let with_it: Vec<_> = answered.iter().cloned().chain([(add, call.clone())]).collect();
            let (counts, extra) = afresh(&with_it);
            let short = counts.iter().any(|&n| n < 0) || extra < 0;
            let reply = if add { tally.add(&book, &call.0, &call.1) } else { tally.remove(&book, &call.0, &call.1) };
            if short {
                assert_eq!((reply, &tally), (Err(Refusal::TallyEmpty), &before));
                refused += 1;
                continue;
            }
            assert_eq!(reply, Ok(()));
            answered = with_it;
            assert!(tally.counts().iter().map(|&n| i64::from(n)).eq(counts), "counts");
            assert_eq!(tally.extra_bits() as i64, extra);
        }
    }
    assert!(refused > 1000, "{refused}");
}

#[test]
fn the_ends_of_the_types() {
    let book = book();
    let mut counts = vec![0; 3 * SYMBOLS];
    counts[3] = u32::MAX - 1;
    let mut tally = Tally::from_parts(counts, u64::MAX - 7);
    assert_eq!(tally.add(&book, &[0], &[3]), Ok(()));
    assert_eq!(tally.count(0, 3), u32::MAX);
    // the tokens before the one that has no room are taken out again
    let before = tally.clone();
    assert_eq!(tally.add(&book, &[0, 3, 0], &[5, 1, 3]), Err(Refusal::TallyFull));
    assert_eq!(tally, before);
    // 16 has two extra bits under 4,2,0, 64 four
    assert_eq!(tally.add(&book, &[0, 0, 0], &[16, 16, 16]), Ok(()));
    assert_eq!(tally.extra_bits(), u64::MAX - 1);
    let before = tally.clone();
    assert_eq!(tally.add(&book, &[0, 0], &[1, 16]), Err(Refusal::TallyFull));
    assert_eq!(tally, before);
    let mut small = Tally::from_parts(vec![1; 3 * SYMBOLS], 1);
    let before = small.clone();
    assert_eq!(small.remove(&book, &[0, 0], &[1, 16]), Err(Refusal::TallyEmpty));
    assert_eq!(small.remove(&book, &[0, 0], &[1, 1]), Err(Refusal::TallyEmpty));
    assert_eq!(small, before);
}

#[test]
fn symbols_above_127_count_as_127() {
    let mut tally = Tally::new(3);
    tally.add(&book(), &[2, 2], &[131_071, 2_048]).unwrap();
    assert_eq!(tally.count(2, 127), 2);
    assert_eq!(tally.counts().iter().sum::<u32>(), 2);
}

#[test]
fn refusals_in_their_order() {
    let book = book();
    let kept = Tally::new(3);
    for (contexts, values) in [(vec![0, 1], vec![0]), (vec![14_850], vec![0]), (vec![0], vec![131_072])] {
        let mut tally = kept.clone();
        assert_eq!(tally.add(&book, &contexts, &values), Err(Refusal::Domain));
        assert_eq!(tally.remove(&book, &contexts, &values), Err(Refusal::Domain));
        assert_eq!(tally, kept);
    }
    let mut two = Tally::new(2);
    assert_eq!(two.add(&book, &[14_850], &[0]), Err(Refusal::BookLength));
    let bad = |clusters, map: Vec<u8>, configs: Vec<u8>| {
        let book = Book::from_parts(clusters, map, configs, Vec::new(), Vec::new());
        Tally::new(clusters as usize).add(&book, &[0, 1], &[0])
    };
    assert_eq!(bad(1, vec![0; 14_849], vec![4, 2, 0]), Err(Refusal::MapLength));
    assert_eq!(bad(1, vec![0; CONTEXTS], vec![4, 2]), Err(Refusal::BookLength));
    assert_eq!(bad(1, vec![1; CONTEXTS], vec![7, 2, 0]), Err(Refusal::MapEntry));
    assert_eq!(bad(1, vec![0; CONTEXTS], vec![7, 2, 0]), Err(Refusal::Configuration));
    assert_eq!(bad(1, vec![0; CONTEXTS], vec![4, 2, 0]), Err(Refusal::Domain));
    assert_eq!(Tally::new(3).add(&book, &[], &[]), Ok(()));
}

#[test]
fn debug_says_how_many_and_not_each() {
    assert_eq!(format!("{:?}", Tally::new(64)), "Tally { counts: [8192], extra: 0 }");
}
