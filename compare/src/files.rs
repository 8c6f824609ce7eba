//! Whole block files: those that end in a record that can't be read, the fixed list of answers, and the sample of `make run`.

use crate::data::{row_floats, trellis_bytes, write_width, Block, BlockFile, Book, Reply, Search, HALF_WIDTH, SEARCHES, WIDEST};
use crate::entropy::prefix_code::PrefixCode;
use crate::judge::{due, Original, Source};
use crate::plain::{Problem, Rule, RULES};
use crate::random::Random;
use crate::{blocks, books, checks, made, port, report};

/// The longest lists and rooms that the program holds: map, configurations, symbol prices, ready prices; a block's lists; choice
/// bytes and a row.
const HELD: [usize; 4] = [14912, 774, 33024, 66048];
const HELD_LEVELS: usize = 65600;
const HELD_ROOMS: [u32; 2] = [26688, 64];

/// The lines that are due for a block.
fn lines(original: &mut Original, number: usize, book: &Book, block: &Block) -> String {
    let mut text = String::new();
    for search in SEARCHES {
        let due = due(original, search, book, block);
        assert!(due.fault.is_none(), "the Rust and the plain definitions part");
        text += &format!("{number} {search:?} {}{}\n", due.outcome.reply, report::changes(block, &due.outcome.levels));
    }
    text
}

/// A file of a few records and one that can't be read behind them, with what is due for it.
fn unreadable(random: &mut Random) -> (Vec<u8>, String) {
    let (mut file, mut text) = (BlockFile::new(), String::new());
    let mut original = Original::new();
    // Before any book: a book of no bytes and 0 clusters.
    let mut book = Book::default();
    original.take(&book);
    let mut number = 0;
    for _ in 0..random.below(5) {
        if random.once_in(3) {
            book = books::random_book(random);
            original.take(&book);
            file.book(&book);
        } else {
            let width = blocks::random_width(random);
            let mut block = blocks::random_block(random, 1, width);
            block.half_width = random.pick(&[width, width, width, 0, WIDEST + 1]);
            if random.once_in(4) {
                // Of two in a row the later counts.
                file.width(random.next() as u32);
                file.width(block.half_width);
            }
            file.block(&block);
            text += &lines(&mut original, number, &book, &block);
            number += 1;
        }
    }
    let mut file = file.bytes;
    let from = file.len();
    spoilt(random, &mut file);
    if file.len() > from {
        text += &format!("unreadable record at byte {from}\n");
    }
    (file, text)
}

/// Appends a record that can't be read, or nothing.
fn spoilt(random: &mut Random, file: &mut Vec<u8>) {
    let from = file.len();
    match random.below(6) {
        0 => {}
        1 => {
            // Any tag but the three, and anything behind it.
            let tag = loop {
                let byte = random.next() as u8;
                if !b"KCW".contains(&byte) {
                    break byte;
                }
            };
            file.push(tag);
            for _ in 0..random.below(2000) {
                file.push(random.next() as u8);
            }
        }
        2 => {
            let mut book = books::random_book(random);
            match random.below(4) {
                0 => book.map.resize(HELD[0] + 1, 0),
                1 => book.configs.resize(HELD[1] + 1, 0),
                2 => book.symbols.resize(HELD[2] + 1, 0.0),
                _ => book.ready.resize(HELD[3] + 1, 0.0),
            }
            book.write(file);
        }
        3 => {
            let mut block = blocks::random_block(random, 1, HALF_WIDTH);
            match random.below(7) {
                0 => block.levels.resize(HELD_LEVELS + 1, 0),
                1 => block.scan.resize(HELD_LEVELS + 1, 0),
                2 => block.source.resize(HELD_LEVELS + 1, 0.0),
                3 => block.inverse.resize(HELD_LEVELS + 1, 0.0),
                4 => block.choices = HELD_ROOMS[0] + 1,
                5 => block.rows[0] = HELD_ROOMS[1] + 1,
                _ => block.rows[1] = u32::MAX,
            }
            block.write(file);
        }
        _ => {
            // Cut short, at least by a byte.
            match random.below(5) {
                0 | 1 => books::random_book(random).write(file),
                2 | 3 => blocks::random_block(random, 1, HALF_WIDTH).write(file),
                _ => write_width(random.next() as u32, file),
            }
            let whole = file.len() - from;
            let kept = if random.once_in(2) { random.below(whole.min(80)) } else { random.below(whole) };
            file.truncate(from + kept);
        }
    }
}

/// Runs the port on files that end in an unreadable record. Answers how many differ.
pub fn compare_unreadable(program: &str, seed: u64, files: u64) -> u64 {
    let mut differences = 0;
    for index in 0..files {
        let (file, right) = unreadable(&mut Random::of(&[seed, 3000, index]));
        let length = file.len();
        let printed = port::run(program, file).unwrap_or_else(|fault| fault);
        if printed != right {
            differences += 1;
            println!("DIFFERENCE in file {index} of seed {seed}, {length} bytes:\n  printed\n{printed}  due is\n{right}");
        }
    }
    println!("{files} files that end in a record that can't be read: {differences} differences");
    differences
}

/// The contexts of a count come first.
const COUNT_CONTEXTS: usize = 37 * 30;

/// How many blocks of each class the fixed list takes.
const LISTED: [(usize, usize); 7] = [(1, 200), (2, 50), (4, 24), (8, 12), (16, 6), (32, 4), (64, 4)];

/// Larger books are left out, so that the list stays small.
const FEW_CLUSTERS: u32 = 3;

/// Whether a search with this rule broken answers something else on the block.
fn decides(rule: Rule, book: &Book, block: &Block) -> bool {
    let passed = |search: &&Search| checks::refusal(**search, book, block) == 0;
    SEARCHES.iter().filter(passed).any(|&search| {
        Problem::new(book, block, rule).run(search) != Problem::new(book, block, Rule::Kept).run(search)
    })
}

/// Whether the Rust gets to its end on the block, or is not run at all.
fn answered(book: &Book, block: &Block) -> bool {
    let mut original = Original::new();
    original.take(book);
    SEARCHES.iter().all(|&search| due(&mut original, search, book, block).source != Source::NoSymbol)
}

/// The blocks of the fixed list, as class and number: some of each size, two for each check, and more until each rule decides one of them.
fn listed(seed: u64) -> Vec<(usize, u64)> {
    let small = |class: usize, index: u64| {
        let (book, block) = made(seed, class, index);
        book.clusters <= FEW_CLUSTERS && answered(&book, &block)
    };
    let mut list: Vec<(usize, u64)> = Vec::new();
    for (class, blocks) in LISTED {
        let numbers = (0..).filter(|&index| small(class, index)).take(blocks);
        list.extend(numbers.map(|index| (class, index)));
    }
    // Of the damaged inputs the first two that each check refuses.
    for number in (1..=14).chain([18, 26]) {
        let refused = |&index: &u64| {
            let (book, block) = made(seed, 0, index);
            small(0, index) && checks::refusal(Search::Trellis, &book, &block) == number
        };
        list.extend((0..).filter(refused).take(2).map(|index| (0, index)));
    }
    for rule in RULES {
        let shows = |&(class, index): &(usize, u64)| {
            let (book, block) = made(seed, class, index);
            class != 0 && decides(rule, &book, &block)
        };
        if !list.iter().any(shows) {
            let more = (0..100_000).flat_map(|index| [(1, index), (2, index), (32, index)]);
            let found = more.filter(|&(class, index)| small(class, index)).find(shows);
            list.push(found.unwrap_or_else(|| panic!("no block that {rule:?} decides")));
        }
    }
    list
}

/// A book of one cluster with split 4,2,0 and these symbol prices.
fn one_cluster(symbols: impl Fn(usize) -> f32) -> Book {
    split_by([4, 2, 0], symbols)
}

fn split_by(config: [u8; 3], symbols: impl Fn(usize) -> f32) -> Book {
    let mut book = Book { clusters: 1, map: vec![0; 14850], configs: config.into(), ..Book::default() };
    book.symbols = (0..128).map(symbols).collect();
    books::fill_ready(&mut book);
    book
}

/// A strict prefix code of two clusters, in which nobody trained the second, of the counts. `later` says that it gets its words later; else every depth 0 costs
/// +infinity, there too.
fn untrained(later: bool) -> Book {
    let map = (0..14850).map(|context| u8::from(context < COUNT_CONTEXTS)).collect();
    let mut book = Book { clusters: 2, map, configs: vec![4, 2, 0, 4, 2, 0], ..Book::default() };
    let mut codes = vec![PrefixCode { depths: [0; 128], single_symbol: false }; 2];
    codes[0].depths[..32].fill(5);
    books::price_prefix(&mut book, &codes, true);
    if !later {
        book.symbols[128..].fill(f32::INFINITY);
        books::fill_ready(&mut book);
    }
    book
}

/// Examples of a search: of document 01 an all-zero block, every symbol at price 1 and then at +infinity, and a block with coefficients that are not numbers
/// between two good ones; and two blocks whose counts lie in a cluster that nobody trained, which the trellis refused with 15 while that cluster cost
/// +infinity throughout; a good block under 5,2,2 and 6,3,3, and one with a level of 100, for which 6,3,3 has no word; the
/// block whose rounding buys nearly all that it may (ticket 13). Last, a block of 30 levels that are cheap to drop, at every half-width of
/// the band: the wider, the more go.
fn examples() -> Vec<(Book, Vec<Block>)> {
    let zeros = Block { lambda: 3.0, channel: 1, ..blocks::empty_block() };
    let mut good = zeros.clone();
    good.source[1..6].copy_from_slice(&[4.6, -3.2, 1.75, 0.25, 0.75]);
    good.levels[1..6].copy_from_slice(&[5, -3, 2, 0, 1]);
    let mut failed = good.clone();
    failed.source[3..5].fill(f32::NAN);
    let mut far = good.clone();
    (far.source[1], far.levels[1]) = (100.0, 100);
    let mut cheap = Block { choices: trellis_bytes(WIDEST) * 63, rows: [row_floats(WIDEST); 2], ..zeros.clone() };
    cheap.source[1..31].fill(0.4);
    cheap.levels[1..31].fill(1);
    let widths = (1..=WIDEST).map(|half_width| Block { half_width, ..cheap.clone() }).collect();
    vec![
        (one_cluster(|_| 1.0), vec![zeros.clone()]),
        (one_cluster(|_| f32::INFINITY), vec![zeros.clone()]),
        (one_cluster(|symbol| 0.5 + 0.25 * symbol as f32), vec![good.clone(), failed, good.clone()]),
        (untrained(false), vec![zeros.clone(), good.clone()]),
        (untrained(true), vec![zeros, good.clone()]),
        (split_by([5, 2, 2], |symbol| 0.5 + 0.25 * symbol as f32), vec![good.clone()]),
        (split_by([6, 3, 3], |symbol| 0.5 + 0.25 * symbol as f32), vec![good, far]),
        (books::free_of_cost(), vec![blocks::nearly_off()]),
        (one_cluster(|symbol| 0.5 + 0.25 * symbol as f32), widths),
    ]
}

/// Writes the fixed list as a program's `stdin` and `stdout`: the blocks, and the Rust's answers.
pub fn write_list(folder: &str, seed: u64) {
    let (mut file, mut text) = (BlockFile::new(), String::new());
    let mut original = Original::new();
    let mut latest = None;
    let list = listed(seed);
    for (number, &(class, index)) in list.iter().enumerate() {
        let (book, block) = made(seed, class, index);
        let name = (class, index / crate::per_book(class));
        if latest != Some(name) {
            file.book(&book);
            original.take(&book);
            latest = Some(name);
        }
        file.block(&block);
        text += &lines(&mut original, number, &book, &block);
    }
    let number = list.len() + append(examples(), list.len(), &mut file, &mut text);
    let path = |name: &str| format!("{folder}/{name}");
    std::fs::write(path("stdin"), file.bytes).expect("stdin is written");
    std::fs::write(path("stdout"), text).expect("stdout is written");
    println!("{number} blocks with the Rust's answers in {folder}; each rule decides one of them");
}

/// Appends blocks under their books to a file, with the lines that are due for them, numbered from `first` on; how many they are.
fn append(groups: Vec<(Book, Vec<Block>)>, first: usize, file: &mut BlockFile, text: &mut String) -> usize {
    let mut original = Original::new();
    let mut number = first;
    for (book, blocks) in groups {
        file.book(&book);
        original.take(&book);
        for block in blocks {
            file.block(&block);
            *text += &lines(&mut original, number, &book, &block);
            number += 1;
        }
    }
    number - first
}

/// The first block of a draw, twelve coefficients in eighths, for which the three searches write three different blocks, the trellis the cheapest of its and the beam's.
fn parting(book: &Book) -> Block {
    let mut random = Random::of(&[1]);
    let mut original = Original::new();
    original.take(book);
    loop {
        let mut block = blocks::empty_block();
        for at in 1..13 {
            let eighths = random.below(49) as f32 - 24.0;
            block.source[at] = eighths / 8.0;
            block.levels[at] = block.source[at].round() as i32;
        }
        let [greedy, beam, trellis, _] = SEARCHES.map(|search| due(&mut original, search, book, &block).outcome);
        let cheaper = match (trellis.reply, beam.reply) {
            (Reply::Cost { bits: found, .. }, Reply::Cost { bits: other, .. }) => f32::from_bits(found) < f32::from_bits(other),
            _ => false,
        };
        if cheaper && greedy.levels != beam.levels && greedy.levels != trellis.levels {
            return block;
        }
    }
}

/// Writes the sample of `make run`, blocks.bin and the Rust's answers in blocks.txt: a block for which the searches part, the same with a failed strip, the block
/// again, an all-zero block, and one that no symbol can write.
pub fn write_sample(folder: &str) {
    let book = one_cluster(|symbol| 0.5 + 0.75 * symbol as f32);
    let good = parting(&book);
    let mut failed = good.clone();
    failed.source[4..8].fill(f32::NAN);
    let zeros = blocks::empty_block();
    let groups = vec![
        (book, vec![good.clone(), failed, good, zeros.clone()]),
        (one_cluster(|_| f32::INFINITY), vec![zeros]),
    ];
    let (mut file, mut text) = (BlockFile::new(), String::new());
    append(groups, 0, &mut file, &mut text);
    let path = |name: &str| format!("{folder}/{name}");
    std::fs::write(path("blocks.bin"), file.bytes).expect("the sample is written");
    std::fs::write(path("blocks.txt"), text).expect("its answers are written");
}
