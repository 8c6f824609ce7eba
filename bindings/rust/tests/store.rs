//! The store of token runs: long runs of calls against a plain map, and records that are no store's.
use rdoq::{Refusal, TokenStore, STORE_RECORD, STORE_RUNS};
use std::collections::BTreeMap;

/// Numbers that look random (splitmix64).
struct Draw(u64);

impl Draw {
    fn next(&mut self) -> u64 {
        self.0 = self.0.wrapping_add(0x9e37_79b9_7f4a_7c15);
        let mut z = self.0;
        z = (z ^ (z >> 30)).wrapping_mul(0xbf58_476d_1ce4_e5b9);
        z = (z ^ (z >> 27)).wrapping_mul(0x94d0_49bb_1331_11eb);
        z ^ (z >> 31)
    }

    fn below(&mut self, n: u64) -> u64 {
        self.next() % n
    }
}

/// The plain map: what the store has to answer.
struct Plain {
    size: usize,
    runs: BTreeMap<u32, Vec<u64>>,
}

impl Plain {
    fn put(&mut self, block: u32, tokens: &[u64]) -> Result<(), Refusal> {
        if block >= 1_024 {
            return Err(Refusal::BlockNumber);
        }
        let others: usize = self.runs.iter().filter(|(&k, _)| k != block).map(|(_, run)| run.len()).sum();
        if others + tokens.len() > self.size {
            return Err(Refusal::StoreFull);
        }
        self.runs.insert(block, tokens.to_vec());
        Ok(())
    }

    fn drop(&mut self, block: u32) -> Result<(), Refusal> {
        if block >= 1_024 {
            return Err(Refusal::BlockNumber);
        }
        self.runs.remove(&block).map(|_| ()).ok_or(Refusal::NotHeld)
    }

    fn read(&self, block: u32, tokens: &mut [u64]) -> Result<usize, Refusal> {
        if block >= 1_024 {
            return Err(Refusal::BlockNumber);
        }
        let run = self.runs.get(&block).ok_or(Refusal::NotHeld)?;
        if run.len() > tokens.len() {
            return Err(Refusal::BufferShort);
        }
        tokens[..run.len()].copy_from_slice(run);
        Ok(run.len())
    }
}

/// `calls` calls on a room of `size` tokens, with block numbers below `blocks` (some past the last) and runs of at most `longest`.
fn against_a_map(seed: u64, calls: usize, size: usize, blocks: u64, longest: u64) -> [usize; 6] {
    let mut draw = Draw(seed);
    let mut store = TokenStore::new(size);
    let mut plain = Plain { size, runs: BTreeMap::new() };
    let mut met = [0; 6];
    for call in 0..calls {
        let block = if draw.below(50) == 0 { 1_024 + draw.below(3) as u32 } else { draw.below(blocks) as u32 };
        let before = store.clone();
        let answer = match draw.below(5) {
            0..=2 => {
                let tokens: Vec<u64> = (0..draw.below(longest + 1)).map(|_| draw.next()).collect();
                let answer = store.put(block, &tokens);
                assert_eq!(answer, plain.put(block, &tokens), "call {call}: put {block}, {} tokens", tokens.len());
                answer.map(|_| 0)
            }
            3 => {
                let answer = store.drop(block);
                assert_eq!(answer, plain.drop(block), "call {call}: drop {block}");
                answer.map(|_| 0)
            }
            _ => {
                let filled: Vec<u64> = (0..draw.below(longest + 2)).map(|_| draw.next()).collect();
                let (mut ours, mut theirs) = (filled.clone(), filled);
                let answer = store.read(block, &mut ours);
                assert_eq!(answer, plain.read(block, &mut theirs), "call {call}: read {block}");
                assert_eq!(ours, theirs, "call {call}: what was read of {block}, and what stands past it");
                assert_eq!(store, before, "call {call}: a read changes nothing");
                answer
            }
        };
        match answer {
            Ok(_) => met[0] += 1,
            Err(refusal) => {
                met[usize::from(refusal.number()) - 32] += 1;
                assert_eq!(store, before, "call {call}: {refusal} changes nothing");
            }
        }
        if call % 97 == 0 {
            whole(&store, &plain);
        }
    }
    whole(&store, &plain);
    met
}

/// Every number answers alike.
fn whole(store: &TokenStore, plain: &Plain) {
    let mut blocks = store.blocks();
    blocks.sort_unstable();
    assert_eq!(blocks, plain.runs.keys().copied().collect::<Vec<_>>());
    for (&block, run) in &plain.runs {
        assert_eq!(&store.get(block).unwrap(), run);
    }
}

#[test]
fn a_hundred_thousand_calls_as_a_map() {
    // small rooms with few numbers, where runs are replaced and moved all the time
    let small = against_a_map(1, 100_000, 40, 9, 12);
    assert!(small[0] > 50_000 && small[1..5].iter().all(|&n| n > 500), "{small:?}");
    for size in 0..12 {
        against_a_map(100 + size as u64, 3_000, size, 4, 5);
    }
    // all numbers, runs of about 30, a room that is nearly full
    let large = against_a_map(2, 12_000, 16_000, 1_024, 60);
    assert!(large[2] > 50, "{large:?}");
}

#[test]
fn exact_fits_and_empty_runs() {
    let mut store = TokenStore::new(6);
    store.put(0, &[1, 2]).unwrap();
    store.put(1, &[3, 4]).unwrap();
    store.put(2, &[5, 6]).unwrap();
    // full: an empty run is still held, a token more is not
    store.put(1_023, &[]).unwrap();
    assert_eq!(store.get(1_023), Ok(vec![]));
    assert_eq!(store.put(3, &[7]), Err(Refusal::StoreFull));
    // 34 is judged without the run that is replaced
    store.put(1, &[8, 9]).unwrap();
    assert_eq!(store.put(1, &[8, 9, 10]), Err(Refusal::StoreFull));
    assert_eq!(store.get(1), Ok(vec![8, 9]));
    // room of a dropped run in the middle is used again, with the others moved together
    store.drop(2).unwrap();
    store.put(3, &[11, 12]).unwrap();
    assert_eq!([store.get(0), store.get(1), store.get(3)], [Ok(vec![1, 2]), Ok(vec![8, 9]), Ok(vec![11, 12])]);
    assert_eq!(store.drop(1_023), Ok(()));
    assert_eq!(store.drop(1_023), Err(Refusal::NotHeld));
    // a store with no room
    let mut none = TokenStore::new(0);
    none.put(5, &[]).unwrap();
    assert_eq!(none.put(6, &[1]), Err(Refusal::StoreFull));
    assert_eq!(none.get(5), Ok(vec![]));
}

#[test]
fn a_thousand_and_twenty_four_runs() {
    let mut store = TokenStore::new(1_024);
    for block in 0..STORE_RUNS as u32 {
        store.put(block, &[u64::from(block) << 40]).unwrap();
    }
    assert_eq!(store.put(1_024, &[]), Err(Refusal::BlockNumber));
    assert_eq!(store.put(0, &[1, 2]), Err(Refusal::StoreFull));
    store.put(0, &[u64::MAX]).unwrap();
    for block in 1..STORE_RUNS as u32 {
        assert_eq!(store.get(block), Ok(vec![u64::from(block) << 40]));
    }
    assert_eq!(store.get(0), Ok(vec![u64::MAX]));
}

#[test]
fn a_read_changes_nothing_past_the_run() {
    let mut store = TokenStore::new(8);
    store.put(4, &[10, 20, 30]).unwrap();
    let mut buffer = [7; 5];
    assert_eq!(store.read(4, &mut buffer), Ok(3));
    assert_eq!(buffer, [10, 20, 30, 7, 7]);
    let mut short = [7; 2];
    assert_eq!(store.read(4, &mut short), Err(Refusal::BufferShort));
    assert_eq!(short, [7, 7]);
}

/// A record of runs (number, start, length), with a count of its own.
fn record(count: u64, runs: &[[u64; 3]]) -> Vec<u64> {
    let mut record = vec![0; STORE_RECORD];
    record[0] = count;
    for (i, run) in runs.iter().enumerate() {
        record[3 * i + 1..3 * i + 4].copy_from_slice(run);
    }
    record
}

/// Every call on a store that fails check 37 gets 37, whatever else is wrong, and changes nothing.
fn refused(room: usize, record: Vec<u64>, why: &str) {
    let mut store = TokenStore::from_parts(vec![5; room], record);
    let before = store.clone();
    let wrong = Refusal::StoreRecord;
    for block in [0, 1, 2_000] {
        assert_eq!(store.put(block, &[1]), Err(wrong), "{why}");
        assert_eq!(store.drop(block), Err(wrong), "{why}");
        let mut buffer = [3; 4];
        assert_eq!(store.read(block, &mut buffer), Err(wrong), "{why}");
        assert_eq!(buffer, [3; 4], "{why}");
    }
    assert_eq!(store, before, "{why}");
}

fn taken(room: usize, record: Vec<u64>, why: &str) {
    let store = TokenStore::from_parts(vec![5; room], record);
    assert_ne!(store.get(1_023), Err(Refusal::StoreRecord), "{why}");
}

#[test]
fn damaged_records_get_37() {
    refused(10, vec![], "no record");
    refused(10, vec![0; STORE_RECORD - 1], "a number too few");
    refused(10, vec![0; STORE_RECORD + 1], "a number too many");
    refused(10, record(1_025, &[]), "more than 1,024 runs");
    refused(10, record(u64::MAX, &[]), "as many runs as there are numbers");
    refused(10, record(2, &[[3, 0, 4], [4, 3, 2]]), "two runs overlap by one");
    refused(10, record(2, &[[3, 4, 2], [4, 0, 2]]), "apart, but out of order");
    refused(10, record(1, &[[3, 9, 2]]), "a run ends one past the room");
    refused(10, record(1, &[[3, 11, 0]]), "an empty run past the room");
    refused(10, record(1, &[[3, u64::MAX, 2]]), "an end that wraps to 1");
    refused(10, record(2, &[[3, 2, u64::MAX - 1], [4, 5, 1]]), "a length that wraps");
    refused(10, record(1, &[[1_024, 0, 1]]), "a number that is not below 1,024");
    refused(10, record(1, &[[1 << 40, 0, 1]]), "a number far above");
    refused(10, record(2, &[[3, 0, 1], [3, 1, 1]]), "a number twice");
    refused(10, record(3, &[[3, 0, 1], [4, 1, 1], [3, 2, 0]]), "a number twice, once empty");
    refused(0, record(1, &[[0, 0, 1]]), "a run in no room");

    taken(10, record(2, &[[3, 0, 4], [4, 4, 6]]), "runs that touch, to the end of the room");
    taken(10, record(3, &[[3, 4, 0], [4, 4, 0], [5, 4, 6]]), "empty runs at one place");
    taken(10, record(1, &[[3, 10, 0]]), "an empty run at the end of the room");
    // what stands past the runs is not read
    taken(10, record(1, &[[3, 0, 1], [3, 0, 1], [u64::MAX; 3]]), "rubbish past the runs");
    taken(0, vec![0; STORE_RECORD], "an empty store with no room");
}

#[test]
fn all_1024_runs_and_a_full_record() {
    let runs: Vec<[u64; 3]> = (0..1_024).map(|i| [1_023 - i, i, 1]).collect();
    taken(1_024, record(1_024, &runs), "every number once");
    let mut twice = runs;
    twice[1_023][0] = 1_023;
    refused(1_024, record(1_024, &twice), "the last run has the first one's number");
}

#[test]
fn debug_says_how_many_and_not_each() {
    let mut store = TokenStore::new(5_000);
    store.put(7, &[1, 2, 3]).unwrap();
    assert_eq!(format!("{store:?}"), "TokenStore { runs: 1, room: [5000], record: [3073] }");
}
