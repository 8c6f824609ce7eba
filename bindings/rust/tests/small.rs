//! The small product: its window, its room, its refusals, worked out by hand, and beside the searches for all blocks.
use rdoq::{rdoq_block, small, Answer, Bias, Block, Book, BookBuilder, Refusal, Room, Search, Settings, Shape, CONTEXTS, SYMBOLS};

const SEARCHES: [Search; 4] = [Search::Greedy, Search::Beam, Search::Trellis, Search::Unfactored];

/// What a test changes of a good block, one thing at a time.
#[derive(Clone)]
struct Given {
    book: Book,
    shape: Shape,
    settings: small::Settings,
    scan: Vec<u32>,
    source: Vec<f32>,
    levels: Vec<i32>,
}

type Reply = (Result<Answer, Refusal>, Vec<i32>);

impl Given {
    /// All zero, every symbol at one bit; as many covered blocks.
    fn zero(covered: usize) -> Given {
        let (cy, strategy) = if covered == 1 { (1, 0) } else { (2, 6) };
        Given {
            book: BookBuilder::new(vec![0; CONTEXTS], &[[4, 2, 0]]).symbol_prices(vec![1.0; SYMBOLS]).fill().unwrap(),
            shape: Shape { cx: 1, cy, strategy, channel: 1, qf_hi: false, predicted: 0 },
            settings: small::Settings { lambda: 0.5, ..small::Settings::default() },
            scan: (0..64 * covered as u32).collect(),
            source: vec![0.0; 64 * covered],
            levels: vec![0; 64 * covered],
        }
    }

    /// Levels to pick from, the same for the same seed.
    fn seeded(covered: usize, seed: u32) -> Given {
        let mut state = seed.wrapping_mul(2_654_435_761).wrapping_add(12_345);
        let mut next = || {
            state = state.wrapping_mul(1_664_525).wrapping_add(1_013_904_223);
            (state >> 8) as f32 / (1u32 << 24) as f32
        };
        let mut given = Given::zero(covered);
        given.source = (0..64 * covered).map(|i| (next() - 0.5) * 24.0 / (1.0 + i as f32 * 0.25)).collect();
        given.levels = given.source.iter().map(|x| x.round() as i32).collect();
        let prices = (0..SYMBOLS).map(|s| 0.5 + s as f32 * 0.25 + next()).collect();
        given.book = BookBuilder::new(vec![0; CONTEXTS], &[[4, 2, 0]]).symbol_prices(prices).fill().unwrap();
        given.settings.lambda = 0.05 + next();
        given
    }

    fn run(&self, search: Search, room: &mut Room) -> Reply {
        let inv_qm = vec![1.0; self.source.len()];
        let block = small::Block {
            shape: self.shape,
            settings: self.settings,
            bias: Bias::new(0.9),
            scale: 1.0,
            scan: &self.scan,
            source: &self.source,
            inv_qm: &inv_qm,
        };
        let mut levels = self.levels.clone();
        let reply = small::rdoq_small_block(search, &self.book, &block, &mut levels, room);
        (reply, levels)
    }

    /// The same block by the search for all blocks.
    fn run_whole(&self, search: Search, room: &mut Room) -> Reply {
        let inv_qm = vec![1.0; self.source.len()];
        let small::Settings { channel_weight, lambda, penalty, distance } = self.settings;
        let block = Block {
            shape: self.shape,
            settings: Settings { channel_weight, lambda, penalty, distance, half_width: 6 },
            bias: Bias::new(0.9),
            scale: 1.0,
            scan: &self.scan,
            source: &self.source,
            inv_qm: &inv_qm,
        };
        let mut levels = self.levels.clone();
        let reply = rdoq_block(search, &self.book, &block, &mut levels, room);
        (reply, levels)
    }

    /// Every search gives this refusal and changes neither a level nor the room.
    fn refused(&self, refusal: Refusal) {
        for search in SEARCHES {
            let mut room = used_room();
            assert_eq!(self.run(search, &mut room), (Err(refusal), self.levels.clone()), "{search:?}");
            assert_eq!(room, used_room(), "{search:?}");
        }
    }
}

fn used_room() -> Room {
    Room::from_parts(vec![7; 450], vec![3.5; 30], vec![-4.5; 29])
}

fn is_cleared(room: &Room) -> bool {
    let (row_a, row_b) = room.rows();
    room.choices().iter().all(|&b| b == 255) && row_a.iter().chain(row_b).all(|&x| x == f32::INFINITY)
}

#[test]
fn more_than_two_covered_blocks_are_refused_before_everything() {
    let sides = [(3, 1), (1, 3), (2, 2), (1, 4), (32, 32), (3, 7), (65_536, 65_536), (u32::MAX, u32::MAX), (1 << 31, 2)];
    for (cx, cy) in sides {
        let mut given = Given::seeded(1, 1);
        (given.shape.cx, given.shape.cy) = (cx, cy);
        given.refused(Refusal::NotSmall);
        // whatever else is wrong: of the book, of the block
        given.book = Book::from_parts(0, vec![], vec![], vec![], vec![]);
        given.refused(Refusal::NotSmall);
        given.levels.clear();
        given.shape.strategy = 255;
        given.settings.lambda = f32::NAN;
        given.refused(Refusal::NotSmall);
    }
}

#[test]
fn a_side_of_nothing_is_refused_in_its_place() {
    for (cx, cy) in [(0, 5), (5, 0), (0, 0), (u32::MAX, 0)] {
        let mut given = Given::seeded(1, 2);
        (given.shape.cx, given.shape.cy) = (cx, cy);
        given.refused(Refusal::BlockSide);
        given.book = Book::from_parts(0, vec![], vec![], vec![], vec![]);
        given.refused(Refusal::MapLength);
    }
}

#[test]
fn one_and_two_covered_blocks_are_served() {
    for search in SEARCHES {
        assert_eq!(Given::zero(1).run(search, &mut small::room()).0.unwrap().count, 0);
        for (cx, cy) in [(1, 2), (2, 1)] {
            let mut given = Given::zero(2);
            (given.shape.cx, given.shape.cy) = (cx, cy);
            assert_eq!(given.run(search, &mut small::room()).0.unwrap().count, 0);
        }
    }
}

#[test]
fn the_other_checks_are_made_and_none_of_a_half_width() {
    fn but(change: impl FnOnce(&mut Given)) -> Given {
        let mut given = Given::seeded(1, 3);
        change(&mut given);
        given
    }
    but(|g| g.levels.push(0)).refused(Refusal::BlockLength);
    but(|g| g.shape.cx = 2).refused(Refusal::BlockLength);
    but(|g| g.shape.strategy = 27).refused(Refusal::Strategy);
    but(|g| g.shape.strategy = 6).refused(Refusal::Sides);
    but(|g| g.settings.lambda = 0.0).refused(Refusal::Settings);
    but(|g| g.scan[3] = 4).refused(Refusal::Scan);
    // every level from scan position c on, past the window too
    but(|g| g.levels[63] = 32_768).refused(Refusal::Level);
}

#[test]
fn a_nan_past_the_window_is_accepted_and_one_in_it_is_not() {
    for covered in [1, 2] {
        // scan positions covered .. covered + 32 are the window
        for (at, refused) in [(covered, true), (covered + 31, true), (covered + 32, false), (64 * covered - 1, false)] {
            for wrong in [f32::NAN, f32::INFINITY, 32_768.0] {
                let mut given = Given::seeded(covered, 4);
                given.source[at] = wrong;
                if refused {
                    given.refused(Refusal::Ideal);
                } else {
                    let clean = Given::seeded(covered, 4);
                    for search in SEARCHES {
                        assert_eq!(given.run(search, &mut small::room()), clean.run(search, &mut small::room()), "{search:?}");
                    }
                }
            }
        }
    }
}

#[test]
fn levels_past_the_window_stay() {
    // ones at ideals of 0, each token at 100: all that may go, goes
    for covered in [1, 2] {
        let mut given = Given::zero(covered);
        given.settings.lambda = 100.0;
        let (last, first) = (covered + 31, covered + 32);
        given.levels[last] = 1;
        for search in SEARCHES {
            assert_eq!(given.run(search, &mut small::room()).1, vec![0; 64 * covered], "{search:?}");
        }
        given.levels[last] = 0;
        given.levels[first] = 1;
        for search in SEARCHES {
            assert_eq!(given.run(search, &mut small::room()).1, given.levels, "{search:?}");
            assert_eq!(given.run_whole(search, &mut Room::new()).1, vec![0; 64 * covered], "{search:?}");
        }
    }
}

#[test]
fn so_many_positions_may_be_restored() {
    // A zero at an ideal of the bias's own 1, bits as good as free: a restored position becomes 1. The last level of the block is a 1
    // and stays, so that greedy, too, looks at the zeros before it.
    for (covered, restoring) in [(1, 20), (2, 32)] {
        let last = 64 * covered - 1;
        for i in 0..last - covered {
            let mut given = Given::zero(covered);
            given.settings.lambda = f32::powi(2.0, -20);
            given.source[covered + i] = 0.9;
            given.levels[last] = 1;
            for search in SEARCHES {
                let (reply, levels) = given.run(search, &mut small::room());
                assert_eq!(reply.unwrap().count, 1 + u32::from(i < restoring), "{search:?}, position {i}");
                assert_eq!(levels[covered + i], i32::from(i < restoring), "{search:?}, position {i}");
            }
        }
    }
}

#[test]
fn the_room_that_each_search_needs() {
    for covered in [1, 2] {
        let given = Given::seeded(covered, 5);
        let run = |search, choices, a, b| given.run(search, &mut Room::from_parts(vec![9; choices], vec![1.0; a], vec![1.0; b])).0;
        assert!(run(Search::Greedy, 0, 0, 0).is_ok());
        assert!(run(Search::Beam, 192, 0, 0).is_ok());
        assert_eq!(run(Search::Beam, 191, 52, 52), Err(Refusal::Room));
        for search in [Search::Trellis, Search::Unfactored] {
            let answer = run(search, 448, 28, 28);
            assert!(answer.is_ok());
            assert_eq!(run(search, 2_000, 60, 60), answer);
            assert_eq!(run(search, 447, 28, 28), Err(Refusal::Room));
            assert_eq!(run(search, 448, 27, 28), Err(Refusal::Room));
            assert_eq!(run(search, 448, 28, 27), Err(Refusal::Room));
        }
    }
    assert_eq!(small::room().choices().len(), 448);
    assert_eq!((small::room().rows().0.len(), small::room().rows().1.len()), (28, 28));
}

#[test]
fn a_room_of_any_size_ends_cleared() {
    for search in [Search::Beam, Search::Trellis, Search::Unfactored] {
        for mut room in [small::room(), used_room(), Room::new()] {
            assert!(Given::seeded(1, 6).run(search, &mut room).0.is_ok());
            assert!(is_cleared(&room), "{search:?}");
            // and serves the next, as its size lets it
            assert!(Given::seeded(2, 6).run(search, &mut room).0.is_ok());
            assert!(is_cleared(&room), "{search:?}");
        }
    }
    let mut room = used_room();
    assert!(Given::seeded(1, 6).run(Search::Greedy, &mut room).0.is_ok());
    assert_eq!(room, used_room());
}

#[test]
fn infinite_prices() {
    let mut given = Given::zero(1);
    given.book = BookBuilder::new(vec![0; CONTEXTS], &[[4, 2, 0]]).symbol_prices(vec![f32::INFINITY; SYMBOLS]).fill().unwrap();
    let refusals = [
        (Search::Beam, Refusal::PathsInfinite),
        (Search::Trellis, Refusal::BandInfinite),
        (Search::Unfactored, Refusal::BandInfinite),
    ];
    for (search, refusal) in refusals {
        let mut room = used_room();
        assert_eq!(given.run(search, &mut room), (Err(refusal), given.levels.clone()));
        assert!(is_cleared(&room), "{search:?}");
    }
}

#[test]
fn the_two_walks_answer_the_same() {
    for seed in 0..40 {
        for covered in [1, 2] {
            let given = Given::seeded(covered, seed);
            assert_eq!(given.run(Search::Trellis, &mut small::room()), given.run(Search::Unfactored, &mut small::room()));
        }
    }
}

/// Where all past the window is 0 at ideals of 0, a longer window has nothing to pick there: the same levels at the same cost.
#[test]
fn a_block_that_ends_in_the_window_is_searched_alike() {
    for seed in 0..40 {
        let mut given = Given::seeded(1, seed);
        given.source[33..].fill(0.0);
        given.levels[33..].fill(0);
        for search in SEARCHES {
            let (small, whole) = (given.run(search, &mut small::room()), given.run_whole(search, &mut Room::new()));
            assert_eq!(small, whole, "{search:?}, seed {seed}");
        }
    }
}

#[test]
fn debug_says_how_many_and_not_each() {
    let given = Given::zero(1);
    let inv_qm = [1.0; 64];
    let block = small::Block {
        shape: given.shape,
        settings: given.settings,
        bias: Bias::default(),
        scale: 1.0,
        scan: &given.scan,
        source: &given.source,
        inv_qm: &inv_qm,
    };
    assert!(format!("{block:?}").ends_with("scale: 1.0, scan: [64], source: [64], inv_qm: [64] }"), "{block:?}");
}
