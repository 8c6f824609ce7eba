//! Judges the port by the Rust: makes blocks by seed, runs the Rust's searches and the port's on them, and compares.
//! See README.md beside this crate.

mod blocks;
mod books;
mod checks;
mod damage;
mod data;
mod exact;
mod files;
mod input;
mod judge;
mod plain;
mod port;
mod power;
mod random;
mod report;
mod scans;
#[allow(dead_code)]
mod stand_ins;
mod widths;

use data::{Block, BlockFile, Book, Reply, Search, HALF_WIDTH, SEARCHES};
use judge::{due, width_asked, Due, Original, Source};
use random::Random;
use report::{Inputs, Tally};
use stand_ins::*;
use std::sync::atomic::{AtomicU64, Ordering};

include!(concat!(env!("OUT_DIR"), "/original.rs"));

/// The size classes: the numbers of covered blocks, and 0 for damaged inputs.
const CLASSES: [usize; 12] = [1, 2, 4, 8, 16, 32, 64, 128, 256, 512, 1024, 0];

pub struct Options {
    pub blocks: u64,
    pub seed: u64,
    pub classes: Vec<usize>,
    pub only: Option<u64>,
    pub port: Option<String>,
    pub without: Vec<Search>,
    pub threads: usize,
    pub power: bool,
    pub save: Option<String>,
    pub list: Option<String>,
    pub sample: Option<String>,
    pub files: u64,
    pub widths: bool,
    pub heavy: bool,
}

const USAGE: &str = "compare [BLOCKS] [--seed S] [--classes C,C,..] [--only INDEX] [--port PROGRAM] [--without SEARCH] [--threads T] [--files F] [--power] [--widths] [--heavy] [--save FILE] [--list FOLDER] [--sample FOLDER]";

fn options() -> Result<Options, String> {
    let mut options = Options {
        blocks: 1000,
        seed: 1,
        classes: CLASSES.to_vec(),
        only: None,
        port: None,
        without: Vec::new(),
        threads: std::thread::available_parallelism().map_or(1, |n| n.get()),
        power: false,
        save: None,
        list: None,
        sample: None,
        files: 200,
        widths: false,
        heavy: false,
    };
    let mut words = std::env::args().skip(1);
    while let Some(word) = words.next() {
        let mut value = || words.next().ok_or(format!("{word}: a value is missing"));
        let number = |text: String| text.parse::<u64>().map_err(|fault| format!("{text}: {fault}"));
        match word.as_str() {
            "--seed" => options.seed = number(value()?)?,
            "--only" => options.only = Some(number(value()?)?),
            "--threads" => options.threads = number(value()?)? as usize,
            "--port" => options.port = Some(value()?),
            "--list" => options.list = Some(value()?),
            "--sample" => options.sample = Some(value()?),
            "--files" => options.files = number(value()?)?,
            "--save" => options.save = Some(value()?),
            "--power" => options.power = true,
            "--widths" => options.widths = true,
            "--heavy" => options.heavy = true,
            "--classes" => {
                let list = value()?;
                options.classes = list.split(',').map(|c| number(c.into()).map(|c| c as usize)).collect::<Result<_, _>>()?;
            }
            "--without" => {
                let name = value()?;
                let search = SEARCHES.iter().find(|s| format!("{s:?}").eq_ignore_ascii_case(&name));
                options.without.push(*search.ok_or(format!("{name}: no search"))?);
            }
            _ if word.starts_with('-') => return Err(format!("{word}: no such option")),
            _ => options.blocks = number(word)?,
        }
    }
    if let Some(class) = options.classes.iter().find(|class| !CLASSES.contains(class)) {
        return Err(format!("{class}: no size class"));
    }
    Ok(options)
}

/// Blocks that share a book.
pub fn per_book(class: usize) -> u64 {
    match class {
        0 => 1,
        1..=4 => 40,
        _ => 10,
    }
}

/// Blocks in one run of the port.
fn per_batch(class: usize) -> u64 {
    match class {
        0 => 200,
        _ => (4000 / class as u64).max(20).next_multiple_of(per_book(class)),
    }
}

/// The block of this number in its class, with the book it uses. Both follow from the seed.
pub fn made(seed: u64, class: usize, index: u64) -> (Book, Block) {
    let mut of_book = Random::of(&[seed, class as u64, index / per_book(class), 1]);
    let mut random = Random::of(&[seed, class as u64, index, 2]);
    let mut book = books::random_book(&mut of_book);
    let c = match class {
        0 => random.pick(&[1, 1, 1, 2, 2, 4, 8, 16, 64]),
        c => c,
    };
    let half_width = blocks::random_width(&mut Random::of(&[seed, class as u64, index, 3]));
    let mut block = blocks::random_block(&mut random, c, half_width);
    if class == 0 {
        damage::damage(&mut random, &mut book, &mut block);
    }
    (book, block)
}

/// Tells a block of a batch: what was made and what is due.
struct Made {
    index: u64,
    book: u64,
    block: Block,
    due: Vec<Due>,
}

/// Judges the blocks from `from` to `to` of a class.
fn batch(options: &Options, class: usize, from: u64, to: u64, said: &AtomicU64) -> Tally {
    let mut tally = Tally::default();
    let mut file = BlockFile::new();
    let mut all: Vec<Made> = Vec::new();
    let mut original = Original::new();
    let mut latest: Option<(u64, Book, rdoq::Book)> = None;
    for index in from..to {
        let (book, mut block) = made(options.seed, class, index);
        if options.heavy {
            blocks::weigh_down(&mut Random::of(&[options.seed, class as u64, index, 4]), &mut block);
        }
        let name = index / per_book(class);
        if latest.as_ref().is_none_or(|(at, ..)| *at != name) {
            file.book(&book);
            original.take(&book);
            let lent = input::lent(&book);
            latest = Some((name, book, lent));
        }
        let (_, book, lent) = latest.as_ref().unwrap();
        file.block(&block);
        if let Some(fault) = input::hold(&mut tally.inputs, book, lent, &block) {
            println!("DIFFERENCE: seed {}, class {class}, block {index}\n  {fault}", options.seed);
        }
        let due = SEARCHES.map(|search| due(&mut original, search, book, &block)).into();
        all.push(Made { index, book: name, block, due });
    }
    if let Some(path) = &options.save {
        std::fs::write(path, &file.bytes).expect("the file is written");
    }
    let printed = match &options.port {
        Some(program) => Some(port::run(program, file.bytes)),
        None => None,
    };
    let mut lines = match &printed {
        Some(Ok(text)) => Some(text.lines()),
        Some(Err(fault)) => {
            // Nothing that is due was printed.
            println!("{fault}");
            Some("".lines())
        }
        None => None,
    };
    for (number, made) in all.iter().enumerate() {
        tally.blocks += 1;
        for (search, due) in SEARCHES.iter().zip(&made.due) {
            let line = lines.as_mut().map(|lines| lines.next().unwrap_or(""));
            let counts = tally.of(*search);
            judge_one(options, class, made, *search, due, line, number, counts, said);
        }
    }
    if let Some(rest) = lines.and_then(|mut lines| lines.next()) {
        println!("class {class}, blocks {from} to {to}: the port printed more than is due: {rest}");
        tally.of(Search::Greedy).differences += 1;
    }
    tally
}

#[allow(clippy::too_many_arguments)]
fn judge_one(
    options: &Options,
    class: usize,
    made: &Made,
    search: Search,
    due: &Due,
    line: Option<&str>,
    number: usize,
    counts: &mut report::Counts,
    said: &AtomicU64,
) {
    let refused = match due.outcome.reply {
        Reply::Refused(number) => Some(number),
        _ => None,
    };
    counts.due(due.source, refused);
    let mut faults: Vec<String> = due.fault.iter().cloned().collect();
    if let Some(line) = line.filter(|_| !options.without.contains(&search)) {
        let right = format!("{number} {search:?} {}{}", due.outcome.reply, report::changes(&made.block, &due.outcome.levels));
        if line != right {
            let form = port::parse(line, number, search).err().map_or(String::new(), |fault| format!(" ({fault})"));
            faults.push(format!("the port printed{form}\n    {line}\n  due is\n    {right}"));
        }
    }
    if due.source == Source::Rust {
        counts.compared += 1;
        counts.equal += u64::from(faults.is_empty());
        counts.replaced += u64::from(width_asked(search, &made.block) != HALF_WIDTH);
        counts.ties += u64::from(due.tie);
        counts.rounded += u64::from(due.rounded);
        counts.changed += u64::from(due.outcome.levels != made.block.levels);
        counts.halves += u64::from(power::has_half(&made.block));
    }
    for fault in faults {
        counts.differences += 1;
        if said.fetch_add(1, Ordering::Relaxed) < 10 {
            println!(
                "DIFFERENCE in {search:?}: seed {}, class {class}, block {} (book {}): --seed {} --classes {class} --only {}\n  {fault}",
                options.seed, made.index, made.book, options.seed, made.index
            );
        }
    }
}

/// Judges a class, its batches shared among threads.
fn judge_class(options: &Options, class: usize, said: &AtomicU64) -> Tally {
    if let Some(index) = options.only {
        return batch(options, class, index, index + 1, said);
    }
    let step = per_batch(class);
    let next = AtomicU64::new(0);
    std::thread::scope(|scope| {
        let work = || {
            let mut tally = Tally::default();
            loop {
                let from = next.fetch_add(step, Ordering::Relaxed);
                if from >= options.blocks {
                    return tally;
                }
                tally.add(&batch(options, class, from, (from + step).min(options.blocks), said));
            }
        };
        let threads: Vec<_> = (0..options.threads.max(1)).map(|_| scope.spawn(work)).collect();
        let mut whole = Tally::default();
        for thread in threads {
            whole.add(&thread.join().expect("a thread ended well"));
        }
        whole
    })
}

fn main() -> std::process::ExitCode {
    let options = match options() {
        Ok(options) => options,
        Err(fault) => {
            eprintln!("{fault}\n{USAGE}");
            return 2.into();
        }
    };
    judge::quiet_panics();
    exact::self_check();
    if let Some(folder) = &options.list {
        files::write_list(folder, options.seed);
        return 0.into();
    }
    if let Some(folder) = &options.sample {
        files::write_sample(folder);
        return 0.into();
    }
    if options.power {
        power::print(&options);
        return 0.into();
    }
    if options.widths {
        let Some(program) = &options.port else {
            eprintln!("--widths is about the port: name it\n{USAGE}");
            return 2.into();
        };
        return u8::from(!widths::hold(&options, program)).into();
    }
    let start = std::time::Instant::now();
    let said = AtomicU64::new(0);
    let mut sound = scans::agree_with_the_rust();
    println!("natural scans equal to the Rust's five: {}", if sound { "yes" } else { "NO" });
    match &options.port {
        Some(program) => println!("the port: {program}; seed {}", options.seed),
        None => println!("the port: not run; the Rust and the plain definitions alone are compared; seed {}", options.seed),
    }
    println!("{}", report::HEADER);
    let (mut differences, mut inputs) = (0, Inputs::default());
    for &class in &options.classes {
        let tally = judge_class(&options, class, &said);
        let name = if class == 0 { "damaged".to_string() } else { class.to_string() };
        print!("{}", report::row(&name, &tally, &options.without));
        differences += tally.searches.iter().map(|counts| counts.differences).sum::<u64>() + tally.inputs.differences;
        inputs.add(&tally.inputs);
    }
    if let (Some(program), None) = (&options.port, options.only) {
        differences += files::compare_unreadable(program, options.seed, options.files);
    }
    sound &= differences == 0;
    println!("{}", report::LEGEND);
    println!("input_cost: {} blocks as they stand, {} of finite cost, {} differ", inputs.asked, inputs.finite, inputs.differences);
    println!("{differences} differences; {:.1} s", start.elapsed().as_secs_f32());
    u8::from(!sound).into()
}
