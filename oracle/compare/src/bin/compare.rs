//! The comparison. `compare [--seed N]` runs all of it; `--replay FILE` writes the sample for other programs,
//! `--check-replay FILE` replays such a file on the library.

use std::env;
use std::path::Path;
use std::process::exit;
use std::time::Instant;

use compare::judge::Judge;
use compare::random::Random;
use compare::{boots, checks, hashes, lives, power, refusals, replay, sheet, updaters};

const USAGE: &str = "usage: compare [--seed N] | compare --replay FILE | compare --check-replay FILE";

type Section = fn(&mut Judge, &mut Random);

/// The whole comparison, part by part; the long parts stand at the end, so that most faults show early.
const SECTIONS: [(&str, Section); 26] = [
    ("State::from", updaters::state_from),
    ("check_and_mark_updated, all lengths", checks::all_lengths),
    ("check_and_mark_updated, bits and bursts", checks::bursts),
    ("check_and_mark_updated, compiled geometries", checks::compiled_rows),
    ("hash, all lengths, chunks and outputs", hashes::all_lengths),
    ("hash, compiled geometries", hashes::compiled_rows),
    ("smallest state areas, marks", updaters::exhaustive_marks),
    ("compiled geometries, plain calls", updaters::plain_calls),
    ("write_firmware, all offsets and lengths", updaters::exhaustive_writes),
    ("write_firmware, compiled geometries", updaters::random_writes),
    ("calls in a row on one updater", updaters::rows_of_calls),
    ("read_dfu", updaters::reads),
    ("geometries at run time, other calls", updaters::runtime_shapes),
    ("refusals, one and two at a time", refusals::small),
    ("refusals, several at once", refusals::random),
    ("lives of a device", lives::lives),
    ("images don't matter", power::images_do_not_matter),
    ("a step's cost less one", power::no_step_gained),
    ("the power's tables after any cuts", power::tables),
    ("smallest geometries, all state areas, boot", boots::exhaustive),
    ("check_and_mark_updated, long areas", checks::long),
    ("hash, long areas", hashes::long),
    ("refusals, long areas", refusals::large),
    ("geometries at run time, boot", boots::runtime_shapes),
    ("real cut runs", boots::cut_runs),
    ("compiled geometries, boot", boots::shapes),
];

fn main() {
    let arguments: Vec<String> = env::args().skip(1).collect();
    let arguments: Vec<&str> = arguments.iter().map(String::as_str).collect();
    match arguments[..] {
        [] => compare_all(seed_of_the_clock()),
        ["--seed", seed] => compare_all(seed.parse().unwrap_or_else(|_| usage())),
        ["--replay", file] => write_replay(Path::new(file)),
        ["--check-replay", file] => check_replay(Path::new(file)),
        _ => usage(),
    }
}

fn usage() -> ! {
    eprintln!("{USAGE}");
    exit(2);
}

fn seed_of_the_clock() -> u64 {
    let since = std::time::SystemTime::now().duration_since(std::time::UNIX_EPOCH);
    since.map_or(1, |time| time.as_nanos() as u64)
}

fn compare_all(seed: u64) {
    println!("seed {seed}, source {}", original::SOURCE);
    let mut judge = Judge::default();
    let mut random = Random::new(seed);
    let sheet_holds = sheet::check(&mut judge);
    println!("{:>9} calls  the bench sheet, also turned over for 0", judge.total());
    for (name, section) in SECTIONS {
        let (before, start) = (judge.total(), Instant::now());
        section(&mut judge, &mut random);
        let seconds = start.elapsed().as_secs_f32();
        println!("{:>9} calls  {seconds:>6.2} s  {name}", judge.total() - before);
    }
    let same = judge.verdict();
    exit(if same && sheet_holds { 0 } else { 1 });
}

fn write_replay(file: &Path) {
    match replay::write(file) {
        Ok((records, bytes)) => println!("{records} records, {bytes} bytes"),
        Err(error) => {
            eprintln!("{}: {error}", file.display());
            exit(1);
        }
    }
}

fn check_replay(file: &Path) {
    match replay::check(file) {
        Ok((records, 0)) => println!("{records} records replayed, no difference"),
        Ok((records, wrong)) => {
            println!("{records} records replayed, {wrong} differ");
            exit(1);
        }
        Err(error) => {
            eprintln!("{}: {error}", file.display());
            exit(1);
        }
    }
}
