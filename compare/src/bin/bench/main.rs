//! The benchmark: ratios from one run on one machine, with their spread, the
//! stack of the worst calls, and sizes. It prints tables and judges nothing.

mod openssl;
mod stack;
mod timing;
mod work;

use compare::boundary::Library;
use compare::entry::{EntryPoints, SecondProgram};
use openssl::{Openssl, LEVELS};
use timing::{nanoseconds_each, Spread};
use work::{Block, FreeRun, ShortRuns, Ticks, Work};

const ROUNDS: usize = 5;

/// The works, by name, each made afresh for the side that does it.
fn works(side: &'static dyn EntryPoints) -> Vec<(&'static str, Box<dyn Work>)> {
    vec![
        ("free run, L 11, pattern 86, random bits", Box::new(FreeRun::random(side))),
        ("free run, L 1, pattern 00, zero line bits", Box::new(FreeRun::densest(side))),
        ("ticks, L 10, D 1, random bits", Box::new(Ticks::new(side, 1))),
        ("ticks, L 10, D 64, random bits", Box::new(Ticks::new(side, 64))),
        ("ticks, L 10, D 116, random bits", Box::new(Ticks::new(side, 116))),
        ("free runs of 116 bits, L 10, random bits", Box::new(ShortRuns::new(side, 116))),
        ("one AES block", Box::new(Block::new(side))),
    ]
}

/// A table of lines with a name and three numbers.
struct Table;

impl Table {
    fn start(title: &str, unit: &str) -> Table {
        println!("\n{title}\n");
        println!("| {unit} | least | median | greatest |");
        println!("|---|---|---|---|");
        Table
    }

    fn line(&self, name: &str, spread: &Spread) {
        let [least, median, greatest] =
            [spread.least, spread.median, spread.greatest].map(three_digits);
        println!("| {name} | {least} | {median} | {greatest} |");
    }
}

/// The number with three digits that count.
fn three_digits(number: f64) -> String {
    let before_the_point = number.log10().floor() as i32 + 1;
    format!("{number:.*}", (3 - before_the_point).max(0) as usize)
}

fn main() {
    let mut library = works(&Library);
    let mut second = works(&SecondProgram);
    let openssl = Openssl::find();

    // Everything is timed once in each round, and a ratio is taken within its
    // round, so that a slow moment of the machine falls on both sides of it.
    let mut ours = vec![Vec::new(); library.len()];
    let mut theirs = vec![Vec::new(); library.len()];
    let mut levels = vec![Vec::new(); LEVELS.len()];
    for round in 1..=ROUNDS {
        eprintln!("round {round} of {ROUNDS}");
        for i in 0..library.len() {
            ours[i].push(nanoseconds_each(library[i].1.as_mut()));
            theirs[i].push(nanoseconds_each(second[i].1.as_mut()));
        }
        for (level, times) in LEVELS.iter().zip(&mut levels) {
            times.extend(openssl.as_ref().and_then(|openssl| openssl.nanoseconds_a_bit(level)));
        }
    }

    let table = Table::start(
        "The library's speed as a multiple of another's, the two timed in turn.",
        "against",
    );
    for (i, (name, _)) in library.iter().enumerate() {
        table.line(&format!("second program: {name}"), &Spread::of_ratios(&theirs[i], &ours[i]));
    }
    for (level, times) in LEVELS.iter().zip(&levels) {
        if times.len() == ROUNDS {
            let name = format!("OpenSSL AES-128-CTR, {}: {}", level.name, library[0].0);
            table.line(&name, &Spread::of_ratios(times, &ours[0]));
        } else {
            println!("| OpenSSL AES-128-CTR, {}: not measured | | | |", level.name);
        }
    }

    let table = Table::start("The library's processor time.", "nanoseconds");
    for (i, (name, work)) in library.iter().enumerate() {
        table.line(&format!("{name}, for each {}", work.unit()), &Spread::of(&ours[i]));
    }

    println!("\nStack that the library's calls write to, in bytes.\n");
    println!("| call | bytes |\n|---|---|");
    for (name, work) in &mut library {
        println!("| {name} | {} |", stack::bytes_used(&mut || work.once()));
    }

    println!("\nSizes, in bytes.\n");
    println!("| what | bytes |\n|---|---|");
    println!("| free record | {} |", Library.free_record_bytes());
    println!("| paced record | {} |", Library.paced_record_bytes());
    let archive = std::fs::metadata(env!("TISARQLUK_ARCHIVE")).map(|archive| archive.len());
    println!("| libtisarqluk.a | {} |", archive.expect("the archive that is linked"));
}
