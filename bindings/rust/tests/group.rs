//! A whole group in order: predictions worked out by hand, every refusal of a list, and channels that do not touch each other.
use rdoq::{
    fine_block_context, fine_non_zero_context, rdoq_block, rdoq_group, Bias, Block, Book, BookBuilder, GroupBlock, Refusal, Room,
    Search, Settings, Shape, Stopped, CONTEXTS, SYMBOLS,
};

const SEARCHES: [Search; 4] = [Search::Greedy, Search::Beam, Search::Trellis, Search::Unfactored];

/// A block of the tests, with lists of its own.
#[derive(Clone)]
struct Given {
    x: u32,
    y: u32,
    cx: u32,
    cy: u32,
    strategy: u8,
    channel: u8,
    settings: Settings,
    scan: Vec<u32>,
    source: Vec<f32>,
    inv_qm: Vec<f32>,
    levels: Vec<i32>,
}

impl Given {
    fn at(x: u32, y: u32, cx: u32, cy: u32) -> Given {
        let n = 64 * (cx * cy) as usize;
        let strategy = match cx * cy {
            1 => 0,
            2 => 6,
            4 => 4,
            8 => 10,
            16 => 5,
            32 => 19,
            64 => 18,
            128 => 22,
            256 => 21,
            512 => 25,
            _ => 24,
        };
        let settings = Settings { lambda: 2f32.powi(-20), ..Settings::default() };
        let scan = (0..n as u32).collect();
        Given { x, y, cx, cy, strategy, channel: 1, settings, scan, source: vec![0.0; n], inv_qm: vec![1.0; n], levels: vec![0; n] }
    }

    /// With this many levels of 9 from scan position c on, which no search lets go.
    fn holding(mut self, count: usize) -> Given {
        let c = (self.cx * self.cy) as usize;
        self.source[c..c + count].fill(9.0);
        self.levels[c..c + count].fill(9);
        self
    }

    fn of_channel(mut self, channel: u8) -> Given {
        self.channel = channel;
        self
    }

    /// With one level that is kept only where a count of 1 is cheap.
    fn doubtful(mut self) -> Given {
        let c = (self.cx * self.cy) as usize;
        self.source[c] = 0.6;
        self.levels[c] = 1;
        self.settings.lambda = 1.0;
        self
    }

    fn listed(&self) -> GroupBlock<'_> {
        GroupBlock {
            x: self.x,
            y: self.y,
            cx: self.cx,
            cy: self.cy,
            strategy: self.strategy,
            channel: self.channel,
            qf_hi: false,
            settings: self.settings,
            bias: Bias::default(),
            scale: 1.0,
            scan: &self.scan,
            source: &self.source,
            inv_qm: &self.inv_qm,
        }
    }
}

fn plain_book() -> Book {
    BookBuilder::new(vec![0; CONTEXTS], &[[4, 2, 0]]).symbol_prices(vec![1.0; SYMBOLS]).fill().unwrap()
}

/// A book in which a count of 0 is dear and one of 1 costs nothing, where this count was predicted for a block of the channel.
fn book_for(predicted: u32, channel: u32, strategy: u32) -> Book {
    let context = fine_non_zero_context(predicted, fine_block_context(channel, strategy, false).unwrap()).unwrap();
    let mut map = vec![0; CONTEXTS];
    map[context as usize] = 1;
    let mut prices = vec![1.0; 2 * SYMBOLS];
    prices[SYMBOLS] = 100.0;
    prices[SYMBOLS + 1] = 0.0;
    BookBuilder::new(map, &[[4, 2, 0]; 2]).symbol_prices(prices).fill().unwrap()
}

fn levels_of(blocks: &[Given]) -> Vec<i32> {
    blocks.iter().flat_map(|b| b.levels.iter().copied()).collect()
}

/// The reply, and the levels afterwards.
fn run(search: Search, book: &Book, blocks: &[Given], room: &mut Room) -> (Result<u32, Stopped>, Vec<i32>) {
    let listed: Vec<GroupBlock<'_>> = blocks.iter().map(Given::listed).collect();
    let mut levels = levels_of(blocks);
    let reply = rdoq_group(search, book, &listed, &mut levels, room);
    (reply, levels)
}

fn stopped(refusal: Refusal, settled: u32) -> Result<u32, Stopped> {
    Err(Stopped { refusal, settled })
}

/// The standard's buckets of counts, as document 01 gives them.
fn bucket(count: u32) -> u32 {
    if count < 8 {
        count
    } else if count < 64 {
        4 + count / 2
    } else {
        36
    }
}

/// The last block is coded by this predicted count, and by no other.
#[track_caller]
fn predicts(blocks: &[Given], expected: u32) {
    let last = blocks.last().unwrap();
    let c = (last.cx * last.cy) as usize;
    for count in 0..64 {
        let book = book_for(count, last.channel.into(), last.strategy.into());
        for search in SEARCHES {
            let (reply, levels) = run(search, &book, blocks, &mut Room::new());
            assert_eq!(reply, Ok(blocks.len() as u32));
            let kept = levels[levels.len() - last.levels.len() + c] == 1;
            assert_eq!(kept, bucket(count) == bucket(expected), "{search:?}: {count} for {expected}");
        }
    }
}

#[test]
fn the_first_cell() {
    predicts(&[Given::at(0, 0, 1, 1).doubtful()], 32);
}

#[test]
fn from_the_left_and_from_above() {
    let first = Given::at(0, 0, 1, 1).holding(5);
    predicts(&[first.clone(), Given::at(1, 0, 1, 1).doubtful()], 5);
    predicts(&[first.clone(), Given::at(0, 1, 1, 1).doubtful()], 5);
    // (2 + 5 + 1) / 2: the mean, rounded up
    let around = [first.clone(), Given::at(1, 0, 1, 1).holding(2), Given::at(0, 1, 1, 1).holding(5)];
    predicts(&[&around[..], &[Given::at(1, 1, 1, 1).doubtful()]].concat(), 4);
    // (3 + 6 + 1) / 2 and (6 + 6 + 1) / 2
    let around = [first.clone(), Given::at(1, 0, 1, 1).holding(3), Given::at(0, 1, 1, 1).holding(6)];
    predicts(&[&around[..], &[Given::at(1, 1, 1, 1).doubtful()]].concat(), 5);
    let around = [first, Given::at(1, 0, 1, 1).holding(6), Given::at(0, 1, 1, 1).holding(6)];
    predicts(&[&around[..], &[Given::at(1, 1, 1, 1).doubtful()]].concat(), 6);
}

#[test]
fn a_count_over_the_covered_blocks_is_rounded_up_and_fills_all_cells() {
    // 5 over 2 is 3, in both of its cells
    let wide = Given::at(0, 0, 2, 1).holding(5);
    predicts(&[wide.clone(), Given::at(2, 0, 1, 1).doubtful()], 3);
    predicts(&[wide.clone(), Given::at(0, 1, 1, 1).doubtful()], 3);
    // above (1, 1) stands the second cell, 3; to its left 1: (3 + 1 + 1) / 2
    predicts(&[wide, Given::at(0, 1, 1, 1).holding(1), Given::at(1, 1, 1, 1).doubtful()], 2);
    // cx runs right and cy down: 7 over 4 is 2, in the column of (0, 0) to (0, 3)
    let tall = Given::at(0, 0, 1, 4).holding(7);
    predicts(&[tall.clone(), Given::at(1, 0, 1, 1).doubtful()], 2);
    predicts(&[tall.clone(), Given::at(0, 4, 1, 1).doubtful()], 2);
    // (4 + 2 + 1) / 2
    predicts(&[tall, Given::at(1, 0, 1, 1).holding(4), Given::at(1, 1, 1, 1).doubtful()], 3);
    // a large block's own prediction
    predicts(&[Given::at(0, 0, 1, 1).holding(7), Given::at(1, 0, 4, 4).doubtful()], 7);
    // all 63 levels of a block: as many are predicted
    predicts(&[Given::at(0, 0, 1, 1).holding(63), Given::at(1, 0, 1, 1).doubtful()], 63);
}

#[test]
fn channels_have_cells_of_their_own() {
    let blocks = [
        Given::at(0, 0, 1, 1).holding(5),
        Given::at(0, 0, 1, 1).holding(2).of_channel(0),
        Given::at(0, 0, 1, 1).holding(7).of_channel(2),
        Given::at(1, 0, 1, 1).doubtful(),
    ];
    for (channel, expected) in [(1, 5), (0, 2), (2, 7)] {
        let mut blocks = blocks.clone();
        blocks[3].channel = channel;
        predicts(&blocks, expected);
    }
}

#[test]
fn a_list_is_refused_before_any_search() {
    let good = [Given::at(0, 0, 1, 1).holding(3), Given::at(1, 0, 2, 2).holding(4), Given::at(0, 1, 1, 1).doubtful()];
    let book = plain_book();
    let with = |at: usize, change: &dyn Fn(&mut Given)| {
        let mut blocks = good.clone();
        change(&mut blocks[at]);
        blocks
    };
    let cases = [
        (with(2, &|b| b.cx = 3), Refusal::BlockSide),
        (with(2, &|b| b.cy = 64), Refusal::BlockSide),
        (with(2, &|b| b.channel = 3), Refusal::Strategy),
        (with(2, &|b| b.x = 32), Refusal::OutsideGroup),
        (with(2, &|b| b.y = u32::MAX), Refusal::OutsideGroup),
        (with(1, &|b| b.x = 31), Refusal::OutsideGroup),
        (with(1, &|b| b.x = 0), Refusal::Overlap),
        (with(2, &|b| (b.x, b.y) = (2, 1)), Refusal::Overlap),
        (with(0, &|b| b.channel = 0), Refusal::NeighbourMissing),
        (with(2, &|b| b.y = 2), Refusal::NeighbourMissing),
        (with(1, &|b| b.x = 2), Refusal::NeighbourMissing),
        // several faults: 7 before 9 before 29 before 30 before 31, each over the whole list
        (with(2, &|b| (b.cx, b.channel) = (5, 3)), Refusal::BlockSide),
        (with(1, &|b| (b.channel, b.x) = (9, 40)), Refusal::Strategy),
        (with(2, &|b| (b.x, b.y) = (1, 31)), Refusal::NeighbourMissing),
    ];
    for (blocks, refusal) in &cases {
        for search in SEARCHES {
            let mut room = Room::from_parts(vec![7; 9_000], vec![3.5; 60], vec![-4.5; 60]);
            let before = room.clone();
            let (reply, levels) = run(search, &book, blocks, &mut room);
            assert_eq!(reply, stopped(*refusal, 0), "{search:?}");
            assert_eq!(levels, levels_of(blocks));
            assert_eq!(room, before);
        }
    }
    // 30 of the last blocks before 31 of the first
    let mut blocks = good.to_vec();
    blocks[0].x = 7;
    blocks.push(good[2].clone());
    assert_eq!(run(Search::Greedy, &book, &blocks, &mut Room::new()).0, stopped(Refusal::Overlap, 0));
    // the book comes first
    let short = BookBuilder::new(vec![0; 7], &[[4, 2, 0]]).symbol_prices(vec![1.0; SYMBOLS]).fill();
    assert_eq!(short.unwrap_err(), Refusal::MapLength);
}

#[test]
fn a_block_stops_the_list() {
    let book = plain_book();
    let good = [
        Given::at(0, 0, 1, 1).doubtful(),
        Given::at(1, 0, 1, 1).doubtful(),
        Given::at(2, 0, 2, 1).doubtful(),
        Given::at(4, 0, 1, 1).doubtful(),
    ];
    type Change<'a> = &'a dyn Fn(&mut Given);
    let stops: [(Change<'_>, Refusal); 10] = [
        (&|b| b.scan.truncate(127), Refusal::BlockLength),
        (&|b| b.source.push(0.0), Refusal::BlockLength),
        (&|b| b.inv_qm.clear(), Refusal::BlockLength),
        (&|b| b.strategy = 27, Refusal::Strategy),
        (&|b| b.strategy = 0, Refusal::Sides),
        (&|b| b.settings.lambda = 0.0, Refusal::Settings),
        (&|b| b.settings.half_width = 13, Refusal::HalfWidth),
        (&|b| b.scan[3] = 4, Refusal::Scan),
        (&|b| b.levels[9] = -32_768, Refusal::Level),
        (&|b| b.source[9] = f32::NAN, Refusal::Ideal),
    ];
    for (change, refusal) in stops {
        let mut blocks = good.clone();
        change(&mut blocks[2]);
        for search in SEARCHES {
            let (reply, levels) = run(search, &book, &blocks, &mut Room::new());
            assert_eq!(reply, stopped(refusal, 2), "{search:?}");
            // the first two let their level go; the others keep every level
            assert_eq!(levels[..128], [0; 128]);
            assert_eq!(levels[128..], levels_of(&blocks[2..]));
        }
    }
    // too few levels are left for the third, and for the first
    let listed: Vec<GroupBlock<'_>> = good.iter().map(Given::listed).collect();
    let mut levels = levels_of(&good);
    levels.truncate(255);
    assert_eq!(rdoq_group(Search::Trellis, &book, &listed, &mut levels, &mut Room::new()), stopped(Refusal::BlockLength, 2));
    assert_eq!(levels[..128], [0; 128]);
    assert_eq!(levels[128..], levels_of(&good)[128..255]);
    assert_eq!(rdoq_group(Search::Trellis, &book, &listed, &mut [], &mut Room::new()), stopped(Refusal::BlockLength, 0));
    // numbers that are left over are no matter, nor is an empty list
    let mut more = levels_of(&good);
    more.extend([i32::MIN; 5]);
    assert_eq!(rdoq_group(Search::Trellis, &book, &listed, &mut more, &mut Room::new()), Ok(4));
    assert_eq!(more[320..], [i32::MIN; 5]);
    assert_eq!(rdoq_group(Search::Beam, &book, &[], &mut more, &mut Room::new()), Ok(0));
    // too little room is the third's affair alone
    let mut small = Room::for_covered(1).unwrap();
    assert_eq!(run(Search::Beam, &book, &good, &mut small).0, Ok(4), "six bytes a position");
    let mut small = Room::from_parts(vec![0; 14 * 63], vec![0.0; 28], vec![0.0; 28]);
    assert_eq!(run(Search::Trellis, &book, &good, &mut small).0, stopped(Refusal::Room, 2));
    assert!(small.choices().iter().all(|&b| b == 255), "the second block cleared it");
    // 15 and 16 stop a list too
    let infinite = BookBuilder::new(vec![0; CONTEXTS], &[[4, 2, 0]]).symbol_prices(vec![f32::INFINITY; SYMBOLS]).fill().unwrap();
    assert_eq!(run(Search::Trellis, &infinite, &good, &mut Room::new()).0, stopped(Refusal::BandInfinite, 0));
    assert_eq!(run(Search::Beam, &infinite, &good, &mut Room::new()).0, stopped(Refusal::PathsInfinite, 0));
    assert_eq!(run(Search::Greedy, &infinite, &good, &mut Room::new()).0, Ok(4));
}

#[test]
fn a_second_run_over_the_levels_written() {
    // 32,767 is restored to 32,768 where the ideal is nearer to that; no level may stand at 32,768 before a search
    let mut first = Given::at(0, 0, 1, 1);
    first.levels[1] = 32_767;
    first.source[1] = 32_767.0;
    let mut blocks = vec![first, Given::at(1, 0, 1, 1).doubtful()];
    let book = plain_book();
    let (reply, levels) = run(Search::Trellis, &book, &blocks, &mut Room::new());
    assert_eq!(reply, Ok(2));
    blocks[0].levels.copy_from_slice(&levels[..64]);
    blocks[1].levels.copy_from_slice(&levels[64..]);
    let (again, same) = run(Search::Trellis, &book, &blocks, &mut Room::new());
    assert_eq!((again, &same), (Ok(2), &levels), "a list that was settled stays");
    blocks[0].levels[1] = 32_768;
    assert_eq!(run(Search::Trellis, &book, &blocks, &mut Room::new()).0, stopped(Refusal::Level, 0));
}

/// Sources by a small generator, so that levels are worth a search.
fn seeded(mut b: Given, seed: u32) -> Given {
    let mut state = seed.wrapping_mul(2_654_435_761).wrapping_add(12_345);
    let mut next = || {
        state = state.wrapping_mul(1_664_525).wrapping_add(1_013_904_223);
        (state >> 8) as f32 / (1u32 << 24) as f32
    };
    let c = (b.cx * b.cy) as usize;
    for (k, x) in b.source.iter_mut().enumerate().skip(c) {
        *x = (next() - 0.5) * 24.0 / (1.0 + k as f32 * 0.25 / c as f32);
    }
    b.levels = b.source.iter().map(|x| x.round() as i32).collect();
    b.settings.lambda = 0.05 + next();
    b
}

/// Prices that differ from context to context.
fn varied_book() -> Book {
    let map = (0..CONTEXTS).map(|context| (context % 7) as u8).collect();
    let prices = (0..7 * SYMBOLS).map(|at| 0.5 + (at % SYMBOLS) as f32 * 0.25 + (at / SYMBOLS) as f32 * 0.3).collect();
    BookBuilder::new(map, &[[4, 2, 0]; 7]).symbol_prices(prices).fill().unwrap()
}

#[test]
fn blocks_of_another_channel_alter_nothing() {
    let mut blocks = Vec::new();
    for y in 0..3 {
        for x in 0..3 {
            for channel in [1, 0, 2] {
                blocks.push(seeded(Given::at(2 * x, y, 2, 1), 100 * channel + 10 * x + y).of_channel(channel as u8));
            }
        }
    }
    let book = varied_book();
    for search in SEARCHES {
        let (reply, levels) = run(search, &book, &blocks, &mut Room::new());
        assert_eq!(reply, Ok(27));
        for channel in 0..3 {
            for keep in [true, false] {
                let some: Vec<usize> = (0..27).filter(|&i| (blocks[i].channel == channel) == keep).collect();
                let fewer: Vec<Given> = some.iter().map(|&i| blocks[i].clone()).collect();
                let (reply, alone) = run(search, &book, &fewer, &mut Room::new());
                assert_eq!(reply, Ok(some.len() as u32));
                for (at, &i) in some.iter().enumerate() {
                    assert_eq!(alone[128 * at..128 * at + 128], levels[128 * i..128 * i + 128], "{search:?}");
                }
            }
        }
    }
}

#[test]
fn each_block_is_that_of_a_search_by_itself() {
    let blocks = [seeded(Given::at(0, 0, 1, 1), 1), seeded(Given::at(1, 0, 1, 1), 2), seeded(Given::at(0, 1, 2, 2), 3)];
    let book = varied_book();
    for search in SEARCHES {
        let mut room = Room::new();
        let (reply, levels) = run(search, &book, &blocks, &mut room);
        assert_eq!(reply, Ok(3));
        let (mut counts, mut at) = ([0; 3], 0);
        for (i, b) in blocks.iter().enumerate() {
            let predicted = match i {
                0 => 32,
                1 => counts[0],
                // above (0, 1) stands the first block, to the left nothing
                _ => counts[0],
            };
            let shape =
                Shape { cx: b.cx, cy: b.cy, strategy: b.strategy, channel: b.channel, qf_hi: false, predicted: predicted as u8 };
            let block = Block {
                shape,
                settings: b.settings,
                bias: Bias::default(),
                scale: 1.0,
                scan: &b.scan,
                source: &b.source,
                inv_qm: &b.inv_qm,
            };
            let mut own = b.levels.clone();
            counts[i] = rdoq_block(search, &book, &block, &mut own, &mut room).unwrap().count;
            assert_eq!(own, levels[at..at + own.len()], "{search:?}, block {i}");
            at += own.len();
        }
    }
}

#[test]
fn what_a_stop_says() {
    let stopped = Stopped { refusal: Refusal::Overlap, settled: 0 };
    assert!(stopped.to_string().contains("share a cell"));
    assert_eq!(Refusal::from(stopped), Refusal::Overlap);
    let number = Refusal::from_number(29).unwrap();
    assert_eq!(number, Refusal::OutsideGroup);
}
