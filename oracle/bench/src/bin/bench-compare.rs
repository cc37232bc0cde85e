//! The bench program beside the reading, byte for byte: first the examples, then inputs made from a seed.
//! `bench-compare [--seed N] [--program FILE] [--examples FOLDER]`; without `--program` BENCH_PROGRAM is asked.

use std::env;
use std::fs;
use std::path::{Path, PathBuf};
use std::process::exit;
use std::time::Instant;

use bench::inputs::SECTIONS;
use bench::program::Program;
use bench::reading::Reading;
use call::random::Random;

const USAGE: &str = "usage: bench-compare [--seed N] [--program FILE] [--examples FOLDER]";
const MOST_DIFFERENCES: usize = 3;
/// So many inputs are asked at a time, and then looked at one by one.
const BATCH: usize = 64;
/// One input in so many is sent in pieces.
const SLOWLY: usize = 32;
/// Of an input or output this much is shown.
const SHOWN: usize = 600;

struct Wanted {
    seed: u64,
    program: PathBuf,
    examples: PathBuf,
}

fn main() {
    let wanted = wanted();
    if !wanted.program.is_file() {
        let program = wanted.program.display();
        eprintln!(
            "{program} isn't there: run `./build` in the repository's root, or name another by --program"
        );
        exit(2);
    }
    println!("seed {}, program {}", wanted.seed, wanted.program.display());
    let mut judge = Judge { program: Program(wanted.program), ..Judge::default() };
    let examples = judge.examples(&wanted.examples);
    println!("{examples:>6} inputs  the examples");
    let mut random = Random::new(wanted.seed);
    for (name, section) in SECTIONS {
        let start = Instant::now();
        let inputs = section(&mut random);
        for batch in inputs.chunks(BATCH) {
            judge.compare_all(name, batch);
        }
        println!("{:>6} inputs  {:>6.2} s  {name}", inputs.len(), start.elapsed().as_secs_f32());
    }
    exit(if judge.verdict() { 0 } else { 1 });
}

fn wanted() -> Wanted {
    let program = env::var_os("BENCH_PROGRAM").unwrap_or("../target/bin/bench".into());
    let mut wanted =
        Wanted { seed: seed_of_the_clock(), program: program.into(), examples: "../examples".into() };
    let arguments: Vec<String> = env::args().skip(1).collect();
    for pair in arguments.chunks(2) {
        match pair {
            [name, value] if name == "--seed" => wanted.seed = value.parse().unwrap_or_else(|_| usage()),
            [name, value] if name == "--program" => wanted.program = value.into(),
            [name, value] if name == "--examples" => wanted.examples = value.into(),
            _ => usage(),
        }
    }
    wanted
}

fn usage() -> ! {
    eprintln!("{USAGE}");
    exit(2);
}

fn seed_of_the_clock() -> u64 {
    let since = std::time::SystemTime::now().duration_since(std::time::UNIX_EPOCH);
    since.map_or(1, |time| time.as_nanos() as u64)
}

struct Judge {
    program: Program,
    inputs: usize,
    bad: usize,
    refused: usize,
    differences: usize,
}

impl Default for Judge {
    fn default() -> Judge {
        Judge { program: Program(PathBuf::new()), inputs: 0, bad: 0, refused: 0, differences: 0 }
    }
}

impl Judge {
    /// Each FOLDER/NAME.in has its output beside it as NAME.out; both sides are held to it.
    fn examples(&mut self, folder: &Path) -> usize {
        let read = |path: &Path| fs::read(path).unwrap_or_else(|error| stop(path, &error.to_string()));
        let entries = fs::read_dir(folder).unwrap_or_else(|error| stop(folder, &error.to_string()));
        let mut inputs: Vec<PathBuf> = entries.flatten().map(|entry| entry.path()).collect();
        inputs.retain(|path| path.extension().is_some_and(|end| end == "in"));
        inputs.sort();
        if inputs.is_empty() {
            stop(folder, "no example is there");
        }
        for path in &inputs {
            let (input, output) = (read(path), read(&path.with_extension("out")));
            if Reading::RIGHT.output(&input) != output {
                stop(path, "its output beside it isn't what the reading gives");
            }
            let found = self.program.output(&input, 1);
            self.compare(&path.display().to_string(), &input, &output, found);
        }
        inputs.len()
    }

    fn compare_all(&mut self, section: &str, inputs: &[Vec<u8>]) {
        let pieces = |at: usize| if at.is_multiple_of(SLOWLY) { 3 } else { 1 };
        let asked: Vec<(&[u8], usize)> =
            inputs.iter().enumerate().map(|(at, input)| (&input[..], pieces(at))).collect();
        for (input, found) in inputs.iter().zip(self.program.outputs(&asked)) {
            self.compare(section, input, &Reading::RIGHT.output(input), found);
        }
    }

    fn compare(&mut self, section: &str, input: &[u8], expected: &[u8], found: Result<Vec<u8>, String>) {
        self.inputs += 1;
        self.bad += usize::from(has_line(expected, |line| line.starts_with(b"bad line")));
        self.refused += usize::from(has_line(expected, shows_refusal));
        if found.as_deref() == Ok(expected) {
            return;
        }
        self.differences += 1;
        println!("difference {}: the program writes something else, {section}", self.differences);
        println!("  input    {}", shown(input));
        println!("  expected {}", shown(expected));
        match found {
            Ok(found) => {
                println!("  found    {}", shown(&found));
                let at = expected.iter().zip(&found).take_while(|(one, other)| one == other).count();
                println!("  first at byte {at}");
            }
            Err(why) => println!("  found    none: {why}"),
        }
        if self.differences >= MOST_DIFFERENCES {
            println!("{} differences; stopped", self.differences);
            exit(1);
        }
    }

    /// Says how many inputs were compared; the last line is the verdict. True if there was no difference.
    fn verdict(&self) -> bool {
        let end = match self.differences {
            0 => "no difference".to_string(),
            n => format!("{n} differences"),
        };
        let (bad, refused) = (self.bad, self.refused);
        println!("{} inputs compared ({bad} with a bad line, {refused} with a refusal): {end}", self.inputs);
        self.differences == 0
    }
}

fn stop(path: &Path, why: &str) -> ! {
    println!("{}: {why}", path.display());
    exit(1);
}

fn has_line(text: &[u8], is: impl Fn(&[u8]) -> bool) -> bool {
    text.split(|byte| *byte == b'\n').any(is)
}

/// A command's line with an answer from 1 to 6.
fn shows_refusal(line: &[u8]) -> bool {
    let mut words = line.split(|byte| *byte == b' ').skip(1);
    matches!(words.next(), Some([b'1'..=b'6'])) && words.next() == Some(b"-")
}

/// The text in one line, escaped, and not too long.
fn shown(text: &[u8]) -> String {
    let more = if text.len() > SHOWN { format!(".. ({} bytes)", text.len()) } else { String::new() };
    format!("\"{}\"{more}", text[..text.len().min(SHOWN)].escape_ascii())
}
