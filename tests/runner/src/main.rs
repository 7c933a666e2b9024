//! The runner: seeded streams to the product and to the oracle, and a comparison of all that comes back. See ../../README.md.

mod across;
mod across_rings;
mod compare;
mod distance;
mod families;
mod faults;
mod positions;
mod prng;
mod product;
mod reach;
mod reach_across;
mod reach_asking;
mod reach_marks;
mod reach_positions;
mod reached;
mod repeats;
mod script;
#[cfg(not(product))]
mod served;
mod solids;

use families::{family_of, stream, FAMILIES};
use prng::Dice;
use product::Subject;
use std::io::Write;
use std::os::unix::fs::FileExt;

/// What the command line asks for.
struct Asked {
    subject: Subject,
    count: u64,
    seed: u64,
    one: Option<u64>,
    at: Option<std::fs::File>,
}

fn usage(why: &str) -> ! {
    eprintln!("{why}\nusage: runner [--self-check] [--at FILE] [--one INDEX] [COUNT [SEED]]");
    std::process::exit(2)
}

fn asked() -> Asked {
    let mut asked = Asked { subject: Subject::Product, count: 20_000, seed: 1, one: None, at: None };
    let mut plain = Vec::new();
    let mut words = std::env::args().skip(1);
    let number =
        |word: Option<String>| -> u64 { word.and_then(|word| word.parse().ok()).unwrap_or_else(|| usage("a number is missing")) };
    while let Some(word) = words.next() {
        match word.as_str() {
            "--self-check" => asked.subject = Subject::Oracle,
            "--one" => asked.one = Some(number(words.next())),
            "--at" => {
                let name = words.next().unwrap_or_else(|| usage("a file name is missing"));
                asked.at = Some(std::fs::File::create(&name).unwrap_or_else(|why| usage(&format!("{name}: {why}"))));
            }
            _ => plain.push(number(Some(word))),
        }
    }
    asked.count = plain.first().copied().unwrap_or(asked.count);
    asked.seed = plain.get(1).copied().unwrap_or(asked.seed);
    if asked.subject == Subject::Product && !product::is_here() {
        usage("built without the product's archive: run `tests/archive` first, or ask for --self-check");
    }
    asked
}

/// The numbers for rooms and patterns, apart from those that write the stream.
fn judging(seed: u64, index: u64) -> Dice {
    Dice::new(seed ^ 0x5EED, index)
}

/// Tells of a stream on which the product and the oracle differ, with the fewest lines that still show it.
fn tell_failure(asked: &Asked, index: u64, stream: &[u8], why: &str) {
    println!("seed {} stream {index} ({}): {why}", asked.seed, FAMILIES[family_of(index)].name);
    let fails = |fewer: &[u8]| compare::judge(asked.subject, fewer, &mut judging(asked.seed, index)).is_err();
    let shrunk = compare::shrink(stream, fails);
    if let Err(why) = compare::judge(asked.subject, &shrunk, &mut judging(asked.seed, index)) {
        println!("with fewer lines: {why}");
    }
    println!("-- stream of {} bytes, {} lines:", shrunk.len(), oracle::stream::lines(&shrunk).len());
    for line in oracle::stream::lines(&shrunk).iter().take(60) {
        println!("{}", compare::readable(line));
    }
    println!("-- all of it: tests/run --one {index} {} {}", asked.count, asked.seed);
}

/// One stream, shown with the oracle's answers.
fn show_one(asked: &Asked, index: u64) {
    let stream = stream(asked.seed, index);
    let answers =
        if oracle::stream::whole_stream_refusal(&stream, usize::MAX).is_none() { oracle::stream::answers(&stream) } else { vec![] };
    println!("seed {} stream {index} ({}), {} bytes", asked.seed, FAMILIES[family_of(index)].name, stream.len());
    for (at, line) in oracle::stream::lines(&stream).iter().enumerate() {
        println!("{:>5} {}\n      -> {}", at + 1, compare::readable(line), answers.get(at).map_or("", String::as_str));
    }
    match compare::judge(asked.subject, &stream, &mut judging(asked.seed, index)) {
        Ok(()) => println!("1 passed, 0 failed"),
        Err(why) => {
            tell_failure(asked, index, &stream, &why);
            println!("0 passed, 1 failed");
            std::process::exit(1);
        }
    }
}

fn main() {
    let asked = asked();
    if let Some(index) = asked.one {
        return show_one(&asked, index);
    }
    let mut reach = reach::Reach::default();
    let mut run = vec![0u64; FAMILIES.len()];
    let mut failed = vec![0u64; FAMILIES.len()];
    let nulls = asked.subject.answer_nulls();
    if nulls != 0 {
        println!("null pointers of length 0: returned {nulls}, expected 0");
    }
    for index in 0..asked.count {
        if let Some(at) = &asked.at {
            at.write_all_at(format!("{index:>12}\n").as_bytes(), 0).expect("the file can be written");
        }
        let stream = stream(asked.seed, index);
        let family = family_of(index);
        reach.stream(&stream);
        run[family] += 1;
        if let Err(why) = compare::judge(asked.subject, &stream, &mut judging(asked.seed, index)) {
            failed[family] += 1;
            if failed.iter().sum::<u64>() <= 5 {
                tell_failure(&asked, index, &stream, &why);
            }
        }
    }
    let missed = reach.tell();
    println!("streams by family:");
    for (number, family) in FAMILIES.iter().enumerate() {
        println!("  {:>9}  {}, {} failed", run[number], family.name, failed[number]);
    }
    missed.iter().for_each(|name| println!("not reached: {name}"));
    let families = failed.iter().filter(|&&count| count == 0).count();
    let wrong = FAMILIES.len() - families + usize::from(nulls != 0) + missed.len();
    let right = families + usize::from(nulls == 0) + reach::Reach::required_count() - missed.len();
    println!(
        "{} streams of seed {} compared with {}",
        asked.count,
        asked.seed,
        if asked.subject == Subject::Product { "the product" } else { "the oracle itself (self-check: the product was NOT run)" }
    );
    std::io::stdout().flush().expect("standard output can be written");
    println!("{right} passed, {wrong} failed");
    std::process::exit(i32::from(wrong != 0));
}
