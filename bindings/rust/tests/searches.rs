//! The searches, on blocks whose answers are worked out by hand, and on blocks that are to be refused.
use rdoq::{
    rdoq_block, Answer, Bias, Block, Book, BookBuilder, Refusal, Room, Search, Settings, Shape, CONTEXTS, READY, STACK_BYTES,
    SYMBOLS,
};
use std::thread;

const SEARCHES: [Search; 4] = [Search::Greedy, Search::Beam, Search::Trellis, Search::Unfactored];
const LAMBDA: f32 = 0.5;

fn book(price: f32) -> Book {
    BookBuilder::new(vec![0; CONTEXTS], &[[4, 2, 0]]).symbol_prices(vec![price; SYMBOLS]).fill().unwrap()
}

/// What a test changes of a good block, one thing at a time.
#[derive(Clone)]
struct Given {
    book: Book,
    shape: Shape,
    settings: Settings,
    bias: Bias,
    scale: f32,
    scan: Vec<u32>,
    source: Vec<f32>,
    inv_qm: Vec<f32>,
    levels: Vec<i32>,
}

impl Given {
    /// One covered block, all zero, every symbol at one bit.
    fn zero() -> Given {
        Given {
            book: book(1.0),
            shape: Shape { cx: 1, cy: 1, strategy: 0, channel: 1, qf_hi: false, predicted: 0 },
            settings: Settings { lambda: LAMBDA, ..Settings::default() },
            bias: Bias::new(0.9),
            scale: 1.0,
            scan: (0..64).collect(),
            source: vec![0.0; 64],
            inv_qm: vec![1.0; 64],
            levels: vec![0; 64],
        }
    }

    /// A block with some levels to pick from, the same for the same seed.
    fn seeded(seed: u32) -> Given {
        let mut state = seed.wrapping_mul(2_654_435_761).wrapping_add(12_345);
        let mut next = || {
            state = state.wrapping_mul(1_664_525).wrapping_add(1_013_904_223);
            (state >> 8) as f32 / (1u32 << 24) as f32
        };
        let mut given = Given::zero();
        given.source = (0..64).map(|i| (next() - 0.5) * 24.0 / (1.0 + i as f32 * 0.25)).collect();
        given.levels = given.source.iter().map(|x| x.round() as i32).collect();
        let prices = (0..SYMBOLS).map(|s| 0.5 + s as f32 * 0.25 + next()).collect();
        given.book = BookBuilder::new(vec![0; CONTEXTS], &[[4, 2, 0]]).symbol_prices(prices).fill().unwrap();
        given.settings.lambda = 0.05 + next();
        given
    }

    /// The reply, and the levels afterwards.
    fn run(&self, search: Search, room: &mut Room) -> (Result<Answer, Refusal>, Vec<i32>) {
        let block = Block {
            shape: self.shape,
            settings: self.settings,
            bias: self.bias,
            scale: self.scale,
            scan: &self.scan,
            source: &self.source,
            inv_qm: &self.inv_qm,
        };
        let mut levels = self.levels.clone();
        let reply = rdoq_block(search, &self.book, &block, &mut levels, room);
        (reply, levels)
    }

    /// All three searches give this refusal and change neither a level nor the room.
    fn refused(&self, refusal: Refusal) {
        for search in SEARCHES {
            let mut room = used_room();
            let (reply, levels) = self.run(search, &mut room);
            assert_eq!(reply, Err(refusal), "{search:?}");
            assert_eq!(levels, self.levels, "{search:?}");
            assert_eq!(room, used_room(), "{search:?}");
        }
    }
}

/// Room with something in it, and more of it than is needed.
fn used_room() -> Room {
    Room::from_parts(vec![7; 28 * 63 + 5], vec![3.5; 30], vec![-4.5; 29])
}

/// What an answer says.
fn told(answer: Answer) -> (Option<f32>, u32) {
    (answer.cost, answer.count)
}

fn is_cleared(room: &Room) -> bool {
    let (row_a, row_b) = room.rows();
    room.choices().iter().all(|&b| b == 255) && row_a.iter().chain(row_b).all(|&x| x == f32::INFINITY)
}

#[test]
fn a_block_of_zeros_costs_lambda() {
    for search in SEARCHES {
        let given = Given::zero();
        let (reply, levels) = given.run(search, &mut Room::new());
        let cost = if search == Search::Greedy { None } else { Some(LAMBDA) };
        assert_eq!(reply.map(told), Ok((cost, 0)), "{search:?}");
        assert_eq!(levels, given.levels);
    }
}

#[test]
fn infinite_prices() {
    let mut given = Given::zero();
    given.book = book(f32::INFINITY);
    let mut room = used_room();
    assert_eq!(given.run(Search::Greedy, &mut room).0.map(told), Ok((None, 0)));
    assert_eq!(room, used_room());
    let refusals = [
        (Search::Beam, Refusal::PathsInfinite),
        (Search::Trellis, Refusal::BandInfinite),
        (Search::Unfactored, Refusal::BandInfinite),
    ];
    for (search, refusal) in refusals {
        given.levels[5] = 3;
        given.source[5] = 3.0;
        let mut room = used_room();
        let (reply, levels) = given.run(search, &mut room);
        assert_eq!(reply, Err(refusal));
        assert_eq!(levels, given.levels, "a refused block keeps every level");
        assert!(is_cleared(&room), "{search:?}");
    }
}

#[test]
fn a_level_that_is_not_worth_its_bits_goes() {
    // a 1 at scan position 1 with an ideal of 0.5: keeping it takes two tokens at 100 each, dropping it one and a distortion of 0.25
    let mut given = Given::zero();
    given.settings.lambda = 100.0;
    given.source[1] = 0.5;
    given.levels[1] = 1;
    for search in SEARCHES {
        let (reply, levels) = given.run(search, &mut Room::new());
        let cost = if search == Search::Greedy { None } else { Some(100.25) };
        assert_eq!(reply.map(told), Ok((cost, 0)), "{search:?}");
        assert_eq!(levels, vec![0; 64], "{search:?}");
    }
}

#[test]
fn a_level_that_is_worth_its_bits_stays() {
    // a 1 with an ideal of 0.9, the bias's own: no distortion, and the tokens of the count and of the level at 2^-4 each
    let mut given = Given::zero();
    given.settings.lambda = 0.0625;
    given.source[1] = 0.9;
    given.levels[1] = 1;
    for search in SEARCHES {
        let (reply, levels) = given.run(search, &mut Room::new());
        let cost = if search == Search::Greedy { None } else { Some(0.125) };
        assert_eq!(reply.map(told), Ok((cost, 1)), "{search:?}");
        assert_eq!(levels, given.levels, "{search:?}");
    }
}

#[test]
fn levels_outside_the_window_stay() {
    // the first scan position is the DC's: no search looks at it
    let mut given = Given::zero();
    given.settings.lambda = 100.0;
    given.source[1] = 0.5;
    given.levels[1] = 1;
    given.levels[0] = i32::MAX;
    for search in SEARCHES {
        let (reply, levels) = given.run(search, &mut Room::new());
        assert_eq!(reply.unwrap().count, 0);
        assert_eq!((levels[0], levels[1]), (i32::MAX, 0), "{search:?}");
    }
}

#[test]
fn an_answer_clears_the_room() {
    for search in [Search::Beam, Search::Trellis, Search::Unfactored] {
        let mut room = used_room();
        assert!(Given::seeded(1).run(search, &mut room).0.is_ok());
        assert!(is_cleared(&room), "{search:?}");
        assert_eq!((room.choices().len(), room.rows().0.len(), room.rows().1.len()), (28 * 63 + 5, 30, 29));
    }
    let mut room = used_room();
    assert!(Given::seeded(1).run(Search::Greedy, &mut room).0.is_ok());
    assert_eq!(room, used_room());
}

#[test]
fn non_numbers_are_refused_and_keep_every_level() {
    let mut given = Given::seeded(2);
    given.source[1] = f32::NAN;
    given.refused(Refusal::Ideal);
    let mut given = Given::seeded(2);
    given.scale = f32::INFINITY;
    given.refused(Refusal::Ideal);
}

#[test]
fn wrong_books_are_refused() {
    let good = Given::seeded(3);
    let with = |clusters: u32, map: Vec<u8>, configs: Vec<u8>, symbols: Vec<f32>, ready: Vec<f32>| Given {
        book: Book::from_parts(clusters, map, configs, symbols, ready),
        ..good.clone()
    };
    let (map, configs, symbols, ready) =
        (good.book.map().to_vec(), good.book.configs().to_vec(), good.book.symbols().to_vec(), good.book.ready().to_vec());
    with(1, vec![0; CONTEXTS - 1], configs.clone(), symbols.clone(), ready.clone()).refused(Refusal::MapLength);
    with(0, map.clone(), configs.clone(), symbols.clone(), ready.clone()).refused(Refusal::MapLength);
    with(257, map.clone(), configs.clone(), symbols.clone(), ready.clone()).refused(Refusal::MapLength);
    with(1, map.clone(), configs.clone(), symbols.clone(), vec![0.0; READY + 1]).refused(Refusal::BookLength);
    with(1, map.clone(), vec![4, 2], symbols.clone(), ready.clone()).refused(Refusal::BookLength);
    let mut wrong = map.clone();
    wrong[CONTEXTS - 1] = 1;
    with(1, wrong, configs.clone(), symbols.clone(), ready.clone()).refused(Refusal::MapEntry);
    with(1, map.clone(), vec![5, 3, 3], symbols.clone(), ready.clone()).refused(Refusal::Configuration);
    let mut wrong = symbols.clone();
    wrong[127] = -1.0;
    with(1, map.clone(), configs.clone(), wrong, ready.clone()).refused(Refusal::SymbolPrice);
    let mut wrong = ready.clone();
    wrong[255] += 1.0;
    with(1, map, configs, symbols, wrong).refused(Refusal::ReadyPrice);
}

#[test]
fn wrong_blocks_are_refused() {
    fn but(change: impl FnOnce(&mut Given)) -> Given {
        let mut given = Given::seeded(4);
        change(&mut given);
        given
    }
    but(|g| g.shape.cx = 3).refused(Refusal::BlockSide);
    but(|g| g.shape.cy = 64).refused(Refusal::BlockSide);
    but(|g| g.levels.push(0)).refused(Refusal::BlockLength);
    but(|g| g.source.truncate(63)).refused(Refusal::BlockLength);
    but(|g| g.inv_qm.clear()).refused(Refusal::BlockLength);
    but(|g| g.scan.push(64)).refused(Refusal::BlockLength);
    but(|g| g.shape.cx = 2).refused(Refusal::BlockLength);
    but(|g| g.shape.strategy = 27).refused(Refusal::Strategy);
    but(|g| g.shape.channel = 3).refused(Refusal::Strategy);
    but(|g| g.shape.strategy = 4).refused(Refusal::Sides);
    but(|g| g.shape.strategy = 26).refused(Refusal::Sides);
    // 18 comes straight after 9 and before 10.
    but(|g| (g.shape.strategy, g.shape.channel) = (4, 3)).refused(Refusal::Strategy);
    but(|g| (g.shape.strategy, g.settings.lambda) = (4, 0.0)).refused(Refusal::Sides);
    but(|g| g.settings.lambda = 0.0).refused(Refusal::Settings);
    but(|g| g.settings.lambda = f32::NAN).refused(Refusal::Settings);
    but(|g| g.settings.penalty = 2_000.0).refused(Refusal::Settings);
    but(|g| g.settings.channel_weight = f32::INFINITY).refused(Refusal::Settings);
    but(|g| g.settings.distance = 25.5).refused(Refusal::Settings);
    but(|g| g.bias.one = -0.5).refused(Refusal::Settings);
    but(|g| g.bias.numerator = 0.15).refused(Refusal::Settings);
    for half_width in [0, 13, 262, u32::MAX] {
        but(|g| g.settings.half_width = half_width).refused(Refusal::HalfWidth);
        // 26 comes straight after 10 and before 11.
        but(|g| (g.settings.half_width, g.settings.lambda) = (half_width, 0.0)).refused(Refusal::Settings);
        but(|g| (g.settings.half_width, g.bias.one) = (half_width, 3.0)).refused(Refusal::Settings);
        but(|g| (g.settings.half_width, g.scan[3]) = (half_width, 4)).refused(Refusal::HalfWidth);
    }
    but(|g| g.scan[3] = 4).refused(Refusal::Scan);
    but(|g| g.scan[3] = u32::MAX).refused(Refusal::Scan);
    but(|g| g.levels[63] = 32_768).refused(Refusal::Level);
    but(|g| g.levels[1] = i32::MIN).refused(Refusal::Level);
}

#[test]
fn the_room_that_each_search_needs() {
    let mut given = Given::seeded(5);
    for (half_width, bytes, row) in [(1, 4, 8), (2, 6, 12), (3, 8, 16), (6, 14, 28), (9, 20, 40), (12, 26, 52)] {
        given.settings.half_width = half_width;
        let run = |search, choices, a, b| given.run(search, &mut Room::from_parts(vec![9; choices], vec![1.0; a], vec![1.0; b])).0;
        assert!(run(Search::Greedy, 0, 0, 0).is_ok());
        assert!(run(Search::Beam, 6 * 63, 0, 0).is_ok());
        assert_eq!(run(Search::Beam, 6 * 63 - 1, 52, 52), Err(Refusal::Room));
        for search in [Search::Trellis, Search::Unfactored] {
            // two choices in a byte; with twice the room the answer is the same
            let answer = run(search, bytes * 63, row, row);
            assert!(answer.is_ok());
            assert_eq!(run(search, 2 * bytes * 63, row, row), answer);
            assert_eq!(run(search, bytes * 63 - 1, row, row), Err(Refusal::Room));
            assert_eq!(run(search, bytes * 63, row - 1, row), Err(Refusal::Room));
            assert_eq!(run(search, bytes * 63, row, row - 1), Err(Refusal::Room));
        }
    }
    given.settings.half_width = 6;
    let mut small = Room::from_parts(vec![9; 100], vec![1.0; 28], vec![1.0; 28]);
    let (_, levels) = given.run(Search::Trellis, &mut small);
    assert_eq!(levels, given.levels);
    assert_eq!(small, Room::from_parts(vec![9; 100], vec![1.0; 28], vec![1.0; 28]));
}

#[test]
fn a_room_by_covered_blocks_serves_a_large_block() {
    // 4 by 8 units: 32 covered blocks, a window of 1,024
    let mut given = Given::zero();
    given.shape = Shape { cx: 4, cy: 8, strategy: 19, ..given.shape };
    given.scan = (0..2_048).rev().collect();
    given.source = vec![0.0; 2_048];
    given.inv_qm = vec![1.0; 2_048];
    given.levels = vec![0; 2_048];
    for search in SEARCHES {
        let mut room = Room::for_covered(32).unwrap();
        assert_eq!(room.choices().len(), 26_624);
        assert_eq!(given.run(search, &mut room).0.unwrap().count, 0);
        assert!(is_cleared(&room));
    }
    assert_eq!(Room::for_covered(3), Err(Refusal::Domain));
    assert_eq!(Room::default(), Room::for_covered(1_024).unwrap());
}

#[test]
fn count_is_that_of_the_levels_written() {
    for seed in 0..20 {
        let given = Given::seeded(seed);
        for search in SEARCHES {
            let (reply, levels) = given.run(search, &mut Room::new());
            let nonzero = levels[1..].iter().filter(|&&q| q != 0).count();
            assert_eq!(reply.unwrap().count as usize, nonzero, "seed {seed}, {search:?}");
        }
    }
}

/// Whether levels lie in the trellis's band: after each position, the nonzero levels differ from the input's by at most 6.
fn in_band(input: &[i32], levels: &[i32]) -> bool {
    let nonzero = |levels: &[i32]| levels.iter().filter(|&&q| q != 0).count();
    (2..64).all(|k| nonzero(&input[k..]).abs_diff(nonzero(&levels[k..])) <= 6)
}

#[test]
fn the_trellis_costs_no_more_than_the_beam() {
    let mut compared = 0;
    for seed in 0..40 {
        let given = Given::seeded(seed);
        let (beam, levels) = given.run(Search::Beam, &mut Room::new());
        let (trellis, _) = given.run(Search::Trellis, &mut Room::new());
        if in_band(&given.levels, &levels) {
            assert!(trellis.unwrap().cost <= beam.unwrap().cost, "seed {seed}: {trellis:?}, {beam:?}");
            compared += 1;
        }
    }
    assert!(compared > 10, "{compared}");
}

/// Tokens that cost nothing, so that ties abound, and then a seed's own prices.
#[test]
fn the_two_walks_answer_the_same() {
    let mut room = Room::new();
    let mut both = |given: &Given| {
        let trellis = given.run(Search::Trellis, &mut room);
        assert_eq!(given.run(Search::Unfactored, &mut room), trellis);
        trellis.0.is_ok()
    };
    for seed in 0..40 {
        let mut given = Given::seeded(seed);
        for half_width in 1..=12 {
            given.settings.half_width = half_width;
            assert!(both(&given));
        }
        given.book = book(0.0);
        assert!(both(&given));
        given.book = book(f32::INFINITY);
        assert!(!both(&given));
    }
}

#[test]
fn a_wider_band_never_costs_more() {
    let (mut room, mut fell) = (Room::new(), 0);
    for seed in 0..40 {
        let mut given = Given::seeded(seed);
        // dear enough that many levels go
        given.settings.lambda *= 4.0;
        let mut cost_with = |half_width| {
            given.settings.half_width = half_width;
            given.run(Search::Trellis, &mut room).0.unwrap().cost.unwrap()
        };
        let costs: Vec<f32> = (1..=12).map(&mut cost_with).collect();
        assert!(costs.windows(2).all(|two| two[1] <= two[0]), "seed {seed}: {costs:?}");
        fell += usize::from(costs[11] < costs[5] && costs[5] < costs[0]);
    }
    assert!(fell > 10, "{fell}");
}

#[test]
fn greedy_and_beam_have_no_band() {
    let mut room = Room::new();
    for seed in 0..40 {
        let mut given = Given::seeded(seed);
        for search in [Search::Greedy, Search::Beam] {
            let first = given.run(search, &mut room);
            for half_width in 1..=12 {
                given.settings.half_width = half_width;
                assert_eq!(given.run(search, &mut room), first, "{search:?}, half-width {half_width}");
            }
        }
    }
}

#[test]
fn each_half_width_lets_one_more_level_go() {
    // Thirty ones at ideals of 0.5. Every token costs 100, those of zeros too, and none is due once nothing remains: so the last ones
    // should go, and as many go as the band lets.
    let mut given = Given::zero();
    given.settings.lambda = 100.0;
    given.source[1..31].fill(0.5);
    given.levels[1..31].fill(1);
    for half_width in 1..=12 {
        given.settings.half_width = half_width;
        let (reply, levels) = given.run(Search::Trellis, &mut Room::new());
        let kept = 30 - half_width as usize;
        assert_eq!(reply.unwrap().count as usize, kept);
        let due: Vec<i32> = (0..64).map(|at| i32::from((1..=kept).contains(&at))).collect();
        assert_eq!(levels, due);
    }
}

#[test]
fn calls_at_once_answer_the_same() {
    let given: Vec<Given> = (0..16).map(Given::seeded).collect();
    let one_by_one =
        |room: &mut Room| -> Vec<_> { given.iter().flat_map(|g| SEARCHES.map(|search| g.run(search, room))).collect::<Vec<_>>() };
    let alone = one_by_one(&mut Room::new());
    assert!(
        alone.iter().zip(given.iter().flat_map(|g| [g; SEARCHES.len()])).any(|((_, after), g)| *after != g.levels),
        "some search moves a level"
    );
    thread::scope(|scope| {
        let threads: Vec<_> = (0..8)
            .map(|_| {
                scope.spawn(|| {
                    let mut room = Room::new();
                    (0..10).map(|_| one_by_one(&mut room)).collect::<Vec<_>>()
                })
            })
            .collect();
        for thread in threads {
            for answers in thread.join().unwrap() {
                assert_eq!(answers, alone);
            }
        }
    });
}

#[test]
fn a_room_of_any_size_gives_the_same_answer_and_ends_cleared() {
    for seed in 0..20 {
        let given = Given::seeded(seed);
        for search in SEARCHES {
            let fitting = given.run(search, &mut Room::for_covered(1).unwrap());
            let mut large = Room::new();
            let mut stale = Room::from_parts(vec![7; 28_672], vec![3.5; 40], vec![f32::NAN; 50]);
            for _ in 0..2 {
                assert_eq!(given.run(search, &mut large), fitting);
                assert_eq!(given.run(search, &mut stale), fitting);
                assert!(is_cleared(&large));
                assert_eq!(is_cleared(&stale), search != Search::Greedy, "{search:?}");
            }
        }
    }
}

#[test]
fn a_refused_search_leaves_the_rest_of_the_room_to_the_next() {
    // first a refusal, then greedy, which touch no room: the trellis after them clears all of it
    let mut room = used_room();
    let mut wrong = Given::seeded(6);
    wrong.scale = f32::NAN;
    assert_eq!(wrong.run(Search::Trellis, &mut room).0, Err(Refusal::Ideal));
    assert!(Given::seeded(6).run(Search::Greedy, &mut room).0.is_ok());
    assert_eq!(room, used_room());
    assert!(Given::seeded(6).run(Search::Trellis, &mut room).0.is_ok());
    assert!(is_cleared(&room));
}

#[test]
fn the_defaults_pass_every_check() {
    let mut given = Given::seeded(7);
    given.settings = Settings::default();
    for bias in Bias::DEFAULT {
        given.bias = bias;
        for search in SEARCHES {
            assert!(given.run(search, &mut Room::new()).0.is_ok());
        }
    }
    assert_eq!(Settings::new(1.0, 1.0), Settings::default());
    assert_eq!(Bias::default(), Bias::DEFAULT[1]);
}

#[test]
#[allow(clippy::excessive_precision)]
fn the_biases_are_those_of_the_rust() {
    // its text: 1.0 less each of these as f32
    let less: [f32; 3] = [0.05465007330715401, 0.07005449891748593, 0.049935103337343655];
    assert_eq!(Bias::DEFAULT.map(|bias| bias.one), less.map(|x| 1.0 - x));
    assert!(Bias::DEFAULT.iter().all(|bias| bias.numerator == 0.145));
}

/// What a call may take, and a margin for the start of a thread and for the test itself.
const SMALL_STACK: usize = STACK_BYTES + 32 * 1_024;

#[test]
fn a_small_stack_serves_the_builders() {
    let build = || {
        let builder = BookBuilder::new(vec![0; CONTEXTS], &[[4, 2, 0]]);
        let ans = builder.clone().ans_code(&[32; SYMBOLS])?.fill()?;
        let prefix = builder.prefix_code(&[7; SYMBOLS], &[0], rdoq::Pricing::Strict)?.fill()?;
        ans.check()?;
        // 128 words of 7 bits, or of 32 parts in 4,096
        Ok::<bool, Refusal>(ans == prefix)
    };
    let thread = thread::Builder::new().stack_size(SMALL_STACK).spawn(build).unwrap();
    assert_eq!(thread.join().unwrap(), Ok(true));
}

#[test]
fn a_small_stack_serves_every_size() {
    for (side, strategy) in [(1, 0), (32, 24)] {
        let size = 64 * (side * side) as usize;
        let mut given = Given::seeded(8);
        given.shape = Shape { cx: side, cy: side, strategy, ..given.shape };
        given.scan = (0..size as u32).collect();
        given.source = given.source.iter().copied().cycle().take(size).collect();
        given.inv_qm = vec![1.0; size];
        given.levels = given.levels.iter().copied().cycle().take(size).collect();
        let answers = move || SEARCHES.map(|search| given.run(search, &mut Room::new()).0.is_ok());
        let thread = thread::Builder::new().stack_size(SMALL_STACK).spawn(answers).unwrap();
        assert_eq!(thread.join().unwrap(), [true; SEARCHES.len()], "{side}");
    }
}

#[test]
fn debug_says_how_many_and_not_each() {
    let given = Given::zero();
    assert_eq!(format!("{:?}", given.book), "Book { clusters: 1, map: [14850], configs: [3], symbols: [128], ready: [256] }");
    assert_eq!(format!("{:?}", Room::new()), "Room { choices: [26624], row_a: [52], row_b: [52] }");
    let builder = BookBuilder::new(vec![0; CONTEXTS], &[[4, 2, 0]]);
    assert_eq!(format!("{builder:?}"), "BookBuilder { clusters: 1, map: [14850], configs: [3], symbols: [0] }");
    let Given { shape, settings, bias, scale, scan, source, inv_qm, .. } = given;
    let block = Block { shape, settings, bias, scale, scan: &scan, source: &source, inv_qm: &inv_qm };
    assert!(format!("{block:?}").ends_with("scale: 1.0, scan: [64], source: [64], inv_qm: [64] }"), "{block:?}");
}
