//! A coupon from end to end. `coupon [FOLDER [PICTURE.ppm]]` writes pictures into a folder and prints what was measured.
use coupon::coded::Coded;
use coupon::layout::Tiling;
use coupon::picture::Picture;
use coupon::runs::{self, Row};
use coupon::{paint, strip};
use rdoq::Search;
use std::error::Error;
use std::fs::{self, File};
use std::path::{Path, PathBuf};
use std::time::Duration;

/// Rounds of each search, of which the quickest counts.
const ROUNDS: usize = 5;

fn main() -> Result<(), Box<dyn Error>> {
    let mut args = std::env::args_os().skip(1);
    let folder = PathBuf::from(args.next().unwrap_or_else(|| "target/coupon".into()));
    let picture = match args.next() {
        Some(path) => Picture::read_ppm(File::open(path)?)?,
        None => paint::scanned(),
    };
    fs::create_dir_all(&folder)?;
    save(&folder, "scanned", &picture)?;
    println!("{} x {} pixels, quantised at scale {}, lambda {}\n", picture.width, picture.height, runs::SCALE, runs::WEIGHING.lambda);
    for tiling in [Tiling::Mixed, Tiling::Eights] {
        print_table(&picture, tiling)?;
    }
    second_run(&folder, &picture)?;
    failed_strip(&folder, &picture)
}

fn save(folder: &Path, name: &str, picture: &Picture) -> Result<(), Box<dyn Error>> {
    Ok(fs::write(folder.join(name).with_extension("png"), picture.png())?)
}

fn print_table(picture: &Picture, tiling: Tiling) -> Result<(), Box<dyn Error>> {
    println!("{}", match tiling {
        Tiling::Mixed => "Blocks of 8 x 8 up to 32 x 32:",
        Tiling::Eights => "Blocks of 8 x 8 alone:",
    });
    println!("| Search | Bits, prefix code | Bits, ANS code | PSNR, dB | Against plain quantisation of that PSNR | Time, ms |");
    println!("|---|---|---|---|---|---|");
    for Row { name, prefix_bits, ans_bits, psnr, time } in runs::table(picture, tiling, ROUNDS)? {
        let plain = runs::plain_bits_at(psnr, picture, tiling)?;
        let against = if time.is_some() { format!("{:+.1} %", 100.0 * (ans_bits / plain - 1.0)) } else { String::new() };
        println!("| {name} | {prefix_bits:.0} | {ans_bits:.0} | {psnr:.2} | {against} | {} |", in_ms(time));
    }
    println!();
    Ok(())
}

fn in_ms(time: Option<Duration>) -> String {
    time.map_or_else(String::new, |time| format!("{:.1}", time.as_secs_f64() * 1e3))
}

/// Two runs, with tokens replaced in between.
fn second_run(folder: &Path, picture: &Picture) -> Result<(), Box<dyn Error>> {
    let coded = Coded::of(picture, Tiling::Mixed, runs::SCALE);
    let (figures, levels, _) = runs::two_runs(&coded)?;
    save(folder, "restored", &coded.restored(&levels)?)?;
    let [first, second] = figures.bits;
    println!("Two runs of the trellis, {} blocks: {} tokens with a static book, then {} with the codes that these ask for;", figures.blocks, figures.tokens[0], figures.tokens[1]);
    println!("{} blocks' tokens replaced in store and tally. By the second run's ANS code {first:.0} bits, then {second:.0}.\n", figures.replaced);
    Ok(())
}

/// A group with coefficients that are not numbers.
fn failed_strip(folder: &Path, picture: &Picture) -> Result<(), Box<dyn Error>> {
    let mut coded = Coded::of(picture, Tiling::Mixed, runs::SCALE);
    let book = runs::trained_book(&coded)?;
    strip::spoil(&mut coded);
    let mut levels = runs::plain(&coded);
    let found = strip::search(&coded, &book, Search::Trellis);
    match found.list {
        Ok(settled) => println!("The failed strip runs through none of the {settled} blocks of the first group."),
        Err(stopped) => {
            println!("The failed strip: the list of the first group's {} blocks is stopped after {}:", coded.groups[0].parts.len(), stopped.settled);
            println!("    {}", stopped.refusal);
            println!("Block by block, {} are refused and keep every level; all others are searched.", found.refused.len());
        }
    }
    levels[0] = found.levels;
    save(folder, "strip", &coded.restored(&levels)?.cropped(strip::SHOWN, strip::SHOWN))
}
