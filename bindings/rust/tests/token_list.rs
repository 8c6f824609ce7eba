//! The fixed list of tokens: what the Rust's token loop writes, split by its clusters' configurations, and what a plain reader makes of right and damaged lists.
//! `compare/src/bin/tokens.rs` writes it (`tokens --list`); this library has no part in it.
use rdoq::{read_lists, write_tokens, Book, BookBuilder, Refusal, Shape, CONTEXTS, SYMBOLS};

const LIST: &str = include_str!("token_list.txt");

fn book() -> Book {
    let map = (0..CONTEXTS).map(|context| (context % 3) as u8).collect();
    BookBuilder::new(map, &[[4, 2, 0], [5, 2, 2], [6, 3, 0]]).symbol_prices(vec![1.0; 3 * SYMBOLS]).fill().unwrap()
}

fn number<T: std::str::FromStr>(word: &str) -> T {
    word.trim().parse().unwrap_or_else(|_| panic!("a number: {word:?}"))
}

/// Words of a list, each of numbers between `between`s.
fn lists<T: std::str::FromStr>(text: &str, between: char) -> Vec<Vec<T>> {
    text.split_whitespace().map(|word| word.split(between).map(number).collect()).collect()
}

/// Shape, and the scan: steps of an odd number.
fn head(text: &str) -> (Shape, Vec<u32>) {
    let words: Vec<u32> = text.split_whitespace().skip(1).map(number).collect();
    let [cx, cy, strategy, channel, qf_hi, predicted, step] = words[..] else { panic!("seven numbers: {text:?}") };
    let n = 64 * cx * cy;
    let shape = Shape { cx, cy, strategy: strategy as u8, channel: channel as u8, qf_hi: qf_hi == 1, predicted: predicted as u8 };
    (shape, (0..n).map(|i| (u64::from(i) * u64::from(step) % u64::from(n)) as u32).collect())
}

/// Levels from pairs of scan position and level; `others` elsewhere.
fn levels(scan: &[u32], pairs: &str, others: impl Fn(usize) -> i32) -> Vec<i32> {
    let mut levels: Vec<i32> = vec![0; scan.len()];
    scan.iter().enumerate().for_each(|(k, &place)| levels[place as usize] = others(k));
    for pair in lists::<i32>(pairs, ':') {
        levels[scan[pair[0] as usize] as usize] = pair[1];
    }
    levels
}

#[test]
fn the_writer_writes_the_rust_s_tokens() {
    let (book, mut met) = (book(), Vec::new());
    for line in LIST.lines().filter(|line| line.starts_with('W')) {
        let [first, pairs, code, tokens] = line.split('|').collect::<Vec<_>>()[..] else { panic!("{line}") };
        let (shape, scan) = head(first);
        let written = write_tokens(&book, shape, &scan, &levels(&scan, pairs, |_| 0));
        met.push(number::<u8>(code));
        match written {
            Ok(found) => {
                assert_eq!(number::<u8>(code), 0, "{line}");
                let found: Vec<Vec<u32>> = found.iter().map(|t| vec![t.context, t.symbol, t.extra_bits, t.bits]).collect();
                assert_eq!(found, lists::<u32>(tokens, ','), "{line}");
            }
            Err(refusal) => assert_eq!(refusal.number(), number::<u8>(code), "{line}"),
        }
    }
    assert!(met.len() == 70 && [0, 20, 24].iter().all(|code| met.contains(code)));
}

#[test]
fn the_reader_reads_as_a_plain_one() {
    let (book, mut met) = (book(), Vec::new());
    for line in LIST.lines().filter(|line| line.starts_with('R')) {
        let [first, pairs, code, restored] = line.split('|').collect::<Vec<_>>()[..] else { panic!("{line}") };
        let (shape, scan) = head(first);
        let pairs = lists::<u32>(pairs, ',');
        let (symbols, bits): (Vec<u32>, Vec<u32>) = pairs.iter().map(|pair| (pair[0], pair[1])).unzip();
        let before: Vec<i32> = (0..scan.len() as i32).map(|i| 7 * i - 90).collect();
        let mut after = before.clone();
        let read = read_lists(&book, shape, &scan, &symbols, &bits, &mut after);
        met.push(number::<u8>(code));
        match read {
            Ok(count) => {
                assert_eq!((number::<u8>(code), count), (0, symbols.len()), "{line}");
                let covered = (shape.cx * shape.cy) as usize;
                let kept = |k: usize| if k < covered { before[scan[k] as usize] } else { 0 };
                assert_eq!(after, levels(&scan, restored, kept), "{line}");
            }
            Err(refusal) => {
                assert_eq!(refusal.number(), number::<u8>(code), "{line}");
                assert_eq!(after, before, "{line}");
            }
        }
    }
    assert!(met.len() > 100 && [0, 20, 21, 22, 24, 25].iter().all(|code| met.contains(code)));
    assert_eq!(Refusal::LevelsOwed.number(), 25);
}
