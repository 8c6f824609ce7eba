//! What the levels of a block cost as they stand: on blocks worked out by hand, beside the sum of the leaf calls, and beside the searches.
use rdoq::{
    chroma_weight, distortion_weight, fine_block_context, fine_non_zero_context, fine_zero_density_contexts_offset, input_cost,
    level, pack_signed, rdoq_block, window_len, zero_density_context, Bias, Block, Book, BookBuilder, InputCost, Refusal, Room,
    Search, Settings, Shape, CONTEXTS, SYMBOLS,
};

fn book(price: f32) -> Book {
    BookBuilder::new(vec![0; CONTEXTS], &[[4, 2, 0]]).symbol_prices(vec![price; SYMBOLS]).fill().unwrap()
}

/// Numbers from 0 up to 1, the same for the same seed.
fn numbers(seed: u32) -> impl FnMut() -> f32 {
    let mut state = seed.wrapping_mul(2_654_435_761).wrapping_add(12_345);
    move || {
        state = state.wrapping_mul(1_664_525).wrapping_add(1_013_904_223);
        (state >> 8) as f32 / (1u32 << 24) as f32
    }
}

#[derive(Clone)]
struct Given {
    book: Book,
    shape: Shape,
    settings: Settings,
    bias: Bias,
    scale: f32,
    scan: Vec<u32>,
    source: Vec<f32>,
    inv_qm: Vec<f32>,
    levels: Vec<i32>,
}

impl Given {
    /// One covered block, all zero, every symbol at one bit.
    fn zero() -> Given {
        Given {
            book: book(1.0),
            shape: Shape { cx: 1, cy: 1, strategy: 0, channel: 1, qf_hi: false, predicted: 0 },
            settings: Settings { lambda: 0.5, ..Settings::default() },
            bias: Bias::new(0.9),
            scale: 1.0,
            scan: (0..64).collect(),
            source: vec![0.0; 64],
            inv_qm: vec![1.0; 64],
            levels: vec![0; 64],
        }
    }

    /// A block of the shape with eight clusters that cost differently, quantised, with some small levels set to 0.
    fn seeded(seed: u32, cx: u32, cy: u32, strategy: u8, channel: u8) -> Given {
        let mut next = numbers(seed);
        let n = 64 * (cx * cy) as usize;
        let map = (0..CONTEXTS).map(|_| (next() * 8.0) as u8).collect();
        let prices = (0..8 * SYMBOLS).map(|at| 0.5 + (at % SYMBOLS) as f32 * 0.25 + next()).collect();
        let book = BookBuilder::new(map, &[[4, 2, 0]; 8]).symbol_prices(prices).fill().unwrap();
        let mut scan: Vec<u32> = (0..n as u32).collect();
        for at in 1..n {
            scan.swap(at, (next() * (at + 1) as f32) as usize);
        }
        let source: Vec<f32> = (0..n).map(|_| (next() - 0.5) * (next() * 9.0)).collect();
        let levels = source.iter().map(|x| if x.abs() < 0.8 { 0 } else { x.round() as i32 }).collect();
        let settings = Settings { lambda: 0.05 + next(), distance: 3.0 * next(), ..Settings::default() };
        let shape = Shape { cx, cy, strategy, channel, qf_hi: seed % 2 == 1, predicted: (next() * 40.0) as u8 };
        Given {
            book,
            shape,
            settings,
            bias: Bias::DEFAULT[channel as usize],
            scale: 1.0,
            scan,
            source,
            inv_qm: vec![1.0; n],
            levels,
        }
    }

    fn block(&self) -> Block<'_> {
        Block {
            shape: self.shape,
            settings: self.settings,
            bias: self.bias,
            scale: self.scale,
            scan: &self.scan,
            source: &self.source,
            inv_qm: &self.inv_qm,
        }
    }

    fn cost(&self) -> Result<InputCost, Refusal> {
        input_cost(&self.book, &self.block(), &self.levels)
    }

    fn told(&self) -> Result<(f32, u32), Refusal> {
        self.cost().map(|it| (it.cost, it.count))
    }

    /// The same block with the levels that a search wrote, and its answer.
    fn searched(&self, search: Search) -> (Given, f32, u32) {
        let mut after = self.clone();
        let answer = rdoq_block(search, &self.book, &self.block(), &mut after.levels, &mut Room::new()).unwrap();
        (after, answer.cost.unwrap(), answer.count)
    }

    /// A level is nonzero where the other has 0.
    fn restores(&self, other: &Given) -> bool {
        self.levels.iter().zip(&other.levels).any(|(&x, &y)| x != 0 && y == 0)
    }

    /// The cost by the leaf calls, each sum rounded once: the tail front to back, then the window back to front, then the count.
    fn summed(&self) -> (f32, u32) {
        let (shape, settings) = (self.shape, self.settings);
        let c = (shape.cx * shape.cy) as usize;
        let w = window_len(c as u32).unwrap().length;
        let base = (24 * c).min(64).min(63 * c);
        let block_context = fine_block_context(shape.channel.into(), shape.strategy.into(), shape.qf_hi).unwrap();
        let offset = fine_zero_density_contexts_offset(block_context).unwrap();
        let at = |k: usize| self.levels[self.scan[k] as usize];
        let nonzero = |k: usize| u32::from(at(k) != 0);
        let mut left = vec![0; 64 * c + 1];
        for k in (0..64 * c).rev() {
            left[k] = left[k + 1] + nonzero(k);
        }
        let token = |k: usize, prev: u32| {
            let context = offset + zero_density_context(left[k], k as u32, c as u32, prev).unwrap();
            settings.lambda * self.book.token_bits(context, pack_signed(at(k)).unwrap()).unwrap()
        };
        let count = left[c];
        let prev = |k: usize| if k == c { u32::from(count as usize <= 64 * c / 16) } else { nonzero(k - 1) };
        let mut cost = 0.0;
        for k in (c + w..64 * c).take_while(|&k| left[k] > 0) {
            cost += token(k, prev(k));
        }
        let chroma = if shape.channel == 1 { 1.0 } else { chroma_weight(settings.distance).unwrap() };
        for k in (c..c + w).rev() {
            let here = self.scan[k] as usize;
            let off = self.source[here] * self.inv_qm[here] * self.scale - level(self.bias, at(k)).unwrap();
            let spread = distortion_weight((k - c).min(base) as u32, base as u32, settings.distance).unwrap();
            let distortion = settings.channel_weight * chroma * spread * (off * off);
            cost += if left[k] == 0 { distortion } else { distortion + token(k, prev(k)) };
        }
        let context = fine_non_zero_context(shape.predicted.into(), block_context).unwrap();
        (cost + settings.lambda * self.book.token_bits(context, count).unwrap(), count)
    }
}

/// Sizes from one covered block to more than a window, with a strategy of each.
const SIZES: [(u32, u32, u8); 6] = [(1, 1, 0), (1, 2, 6), (2, 2, 4), (4, 2, 10), (4, 4, 5), (8, 4, 19)];

fn seeded() -> impl Iterator<Item = Given> {
    (0..120).map(|seed| {
        let (cx, cy, strategy) = SIZES[seed as usize % SIZES.len()];
        Given::seeded(seed, cx, cy, strategy, (seed / 6 % 3) as u8)
    })
}

#[test]
fn by_hand() {
    // no level: the count's token alone
    assert_eq!(Given::zero().told(), Ok((0.5, 0)));
    // a 1 at its ideal: the tokens of the count and of the level
    let mut given = Given::zero();
    (given.levels[1], given.source[1]) = (1, 0.9);
    assert_eq!(given.told(), Ok((1.0, 1)));
    // the first scan position is the DC's, and costs nothing
    given.levels[0] = i32::MAX;
    assert_eq!(given.told(), Ok((1.0, 1)));
    // two zeros before it: two tokens more, and nothing behind it
    given.levels.swap(1, 3);
    given.source.swap(1, 3);
    assert_eq!(given.told(), Ok((2.0, 1)));
    // half a step off: a quarter, at weight 1
    given.source[5] = 0.5;
    assert_eq!(given.told(), Ok((2.25, 1)));
    // no level is restored, so no penalty is paid
    given.settings.penalty = 64.0;
    assert_eq!(given.told(), Ok((2.25, 1)));
    // a half-width is not asked for
    given.settings.half_width = 0;
    assert_eq!(given.told(), Ok((2.25, 1)));
}

#[test]
fn no_word_costs_infinity() {
    let mut given = Given::zero();
    given.book = book(f32::INFINITY);
    assert_eq!(given.told(), Ok((f32::INFINITY, 0)));
    given.levels[9] = -3;
    assert_eq!(given.told(), Ok((f32::INFINITY, 1)));
}

#[test]
fn the_sum_of_the_leaves() {
    for (number, given) in seeded().enumerate() {
        assert_eq!(given.told(), Ok(given.summed()), "{number}");
    }
}

#[test]
fn a_search_never_costs_more_than_its_input() {
    let mut saved = 0;
    for (number, mut given) in seeded().enumerate() {
        for half_width in [1, 6, 12] {
            given.settings.half_width = half_width;
            let (_, cost, _) = given.searched(Search::Trellis);
            let before = given.cost().unwrap().cost;
            assert!(cost <= before, "{number}: {cost}, {before}");
            saved += u32::from(cost < before);
        }
    }
    assert!(saved > 300);
}

#[test]
fn what_a_search_wrote_costs_what_it_answered() {
    let (mut same, mut restored) = (0, 0);
    for (number, mut given) in seeded().enumerate() {
        for (search, penalty) in [(Search::Beam, 1.0), (Search::Trellis, 1.0), (Search::Beam, 1.5), (Search::Trellis, 1.5)] {
            given.settings.penalty = penalty;
            let (after, cost, count) = given.searched(search);
            let now = after.cost().unwrap();
            assert_eq!(now.count, count, "{number} {search:?}");
            if penalty == 1.0 || !after.restores(&given) {
                assert_eq!(now.cost, cost, "{number} {search:?}");
                same += 1;
            } else {
                // the restored levels are no longer charged at lambda * penalty
                assert!(now.cost <= cost, "{number} {search:?}");
                restored += 1;
            }
        }
    }
    assert!(same > 240 && restored > 0, "{same}, {restored}");
}

#[test]
fn refusals_in_their_order() {
    fn but(change: impl FnOnce(&mut Given)) -> Result<(f32, u32), Refusal> {
        let mut given = Given::seeded(3, 1, 1, 0, 1);
        change(&mut given);
        given.told()
    }
    assert_eq!(but(|g| g.book = Book::from_parts(1, vec![0; 3], vec![4, 2, 0], vec![], vec![])), Err(Refusal::MapLength));
    assert_eq!(but(|g| (g.shape.cx, g.levels) = (3, vec![])), Err(Refusal::BlockSide));
    assert_eq!(but(|g| (g.shape.channel, g.levels) = (3, vec![])), Err(Refusal::BlockLength));
    assert_eq!(but(|g| (g.shape.channel, g.shape.strategy) = (3, 4)), Err(Refusal::Strategy));
    assert_eq!(but(|g| (g.shape.strategy, g.settings.lambda) = (4, 0.0)), Err(Refusal::Sides));
    assert_eq!(but(|g| (g.settings.lambda, g.scan[5]) = (0.0, 64)), Err(Refusal::Settings));
    assert_eq!(but(|g| (g.scan[5], g.levels[7]) = (64, 32_768)), Err(Refusal::Scan));
    assert_eq!(but(|g| (g.levels, g.source) = (vec![-32_768; 64], vec![f32::NAN; 64])), Err(Refusal::Level));
    assert_eq!(but(|g| g.source = vec![f32::NAN; 64]), Err(Refusal::Ideal));
}
