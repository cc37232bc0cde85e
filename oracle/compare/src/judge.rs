//! Asks two sides for the same call on equal benches and compares all that comes back.

use std::panic::{AssertUnwindSafe, catch_unwind};
use std::process::exit;

use call::{
    Answers, BAD_STATE, Bench, CHECKSUM, CUT, Call, Family, Hex, Kind, NO_STATE, Original, Word, ZEROS,
    number_of, operations_of, pack,
};
use library::GuardedLibrary;
use model::Model;
use model::table::{self, Lengths};

const MOST_DIFFERENCES: usize = 10;

/// Up to this many operations `sweep` tries every budget; above, the end and some before.
const SWEEP_ALL: u32 = 600;

/// The calls at the erase value 0, and those of them that the original decided.
#[derive(Default)]
struct Share {
    calls: u64,
    by_original: u64,
}

#[derive(Default)]
pub struct Judge {
    counts: [u64; Kind::ALL.len()],
    by_original: u64,
    at_zero: Share,
    refused: u64,
    cut: u64,
    differences: usize,
    library: GuardedLibrary,
    expected: Bench,
    second: Bench,
    found: Bench,
}

impl Judge {
    /// Compares one call; `before` is what it is lent. The right result is handed back and its areas stay
    /// in `expected()`.
    ///
    /// Where `side` is given and document 01 admits the call, the original decides and the model is checked
    /// beside it. Everywhere else the model decides: refusals, the boots of request No. 5, and digests whose last chunk ends past DFU.
    pub fn call(&mut self, side: Option<&dyn Original>, call: &Call, before: &Bench) -> u64 {
        self.expected.clone_from(before);
        let refusal = refusal_of(call, before);
        // what the Rust doesn't know, or does otherwise, is left to the definition
        let lent = self.expected.lend();
        let known = !Model::finishes_confirmation(call, &lent) && !Model::hashes_past_the_end(call, &lent);
        let word = match side.filter(|_| known && matches!(refusal, 0 | BAD_STATE | CHECKSUM)) {
            Some(side) => {
                self.count_original(call);
                let word = self.ask_original(side, call, before);
                self.check_model(call, before, word);
                word
            }
            None => Model::RIGHT.answer(call, self.expected.lend()),
        };
        if refusal != 0 {
            self.check_refusal(call, before, word, refusal);
        }
        self.compare(call, before, word);
        word
    }

    /// Compares the library with a result already in `expected`.
    fn compare(&mut self, call: &Call, before: &Bench, word: u64) {
        self.found.clone_from(before);
        let found = self.ask_library(call, before);
        self.count(call);
        self.cut += u64::from(number_of(word) == u64::from(CUT) && call.kind != Kind::StateFrom);
        if found != word || self.found != self.expected {
            self.report("library", call, before, word, found, None);
        }
    }

    fn count(&mut self, call: &Call) {
        self.counts[call.kind as usize] += 1;
        self.at_zero.calls += u64::from(erases_to_zero(call));
    }

    fn count_original(&mut self, call: &Call) {
        self.by_original += 1;
        self.at_zero.by_original += u64::from(erases_to_zero(call));
    }

    fn ask_library(&mut self, call: &Call, before: &Bench) -> u64 {
        let (library, lent) = (&self.library, self.found.lend());
        match catch_unwind(AssertUnwindSafe(|| library.answer(call, lent))) {
            Ok(word) => word,
            Err(_) => {
                println!("the library broke its boundary:");
                print_call(call, before);
                exit(1);
            }
        }
    }

    fn ask_original(&mut self, side: &dyn Original, call: &Call, before: &Bench) -> u64 {
        let takes_it = call.kind.family() != Family::Bytes;
        assert!(
            !takes_it || side.erase_value() == call.geometry.ev,
            "the text for another erase value is asked"
        );
        let lent = self.expected.lend();
        match catch_unwind(AssertUnwindSafe(|| side.answer(call, lent))) {
            Ok(word) => word,
            Err(_) => {
                println!("the original panicked on an admitted input:");
                print_call(call, before);
                exit(1);
            }
        }
    }

    fn check_model(&mut self, call: &Call, before: &Bench, word: u64) {
        self.second.clone_from(before);
        let second = Model::RIGHT.answer(call, self.second.lend());
        if second != word || self.second != self.expected {
            std::mem::swap(&mut self.second, &mut self.found);
            self.report("model", call, before, word, second, None);
        }
    }

    /// A refusal is the table's number, no operation and no change.
    fn check_refusal(&mut self, call: &Call, before: &Bench, word: u64, refusal: u8) {
        self.refused += 1;
        if word != pack(refusal, NO_STATE, 0) || self.expected != *before {
            self.found.clone_from(&self.expected);
            self.expected.clone_from(before);
            self.report("reference", call, before, pack(refusal, NO_STATE, 0), word, None);
        }
    }

    /// Updater calls in a row on one updater of the original; the library is asked call by call.
    pub fn chain(&mut self, side: &dyn Original, calls: &[Call], before: &Bench) {
        self.expected.clone_from(before);
        let words = side.chain(calls, self.expected.lend());
        self.found.clone_from(before);
        for (i, (call, word)) in calls.iter().zip(&words).enumerate() {
            let found = self.ask_library(call, before);
            self.count(call);
            self.count_original(call);
            if found != *word {
                self.report("library", call, before, *word, found, Some(i));
                return;
            }
        }
        if self.found != self.expected {
            let last = calls.len() - 1;
            self.report("library", &calls[last], before, words[last], words[last], Some(last));
        }
    }

    /// Every budget from 0 to one past the end, and the largest; of very long runs only a part. The bench
    /// after the whole run stays in `expected()`; the number of its operations is handed back.
    pub fn sweep(&mut self, side: Option<&dyn Original>, call: &Call, before: &Bench) -> u32 {
        self.sweep_up_to(SWEEP_ALL, side, call, before)
    }

    /// Every budget, however long the run.
    pub fn sweep_every(&mut self, side: Option<&dyn Original>, call: &Call, before: &Bench) -> u32 {
        self.sweep_up_to(u32::MAX, side, call, before)
    }

    fn sweep_up_to(&mut self, most: u32, side: Option<&dyn Original>, call: &Call, before: &Bench) -> u32 {
        let whole = self.call(side, &Call { budget: u32::MAX, ..*call }, before);
        if !call.kind.has_budget() {
            return 0;
        }
        let end = operations_of(whole);
        let step = 1 + end / most;
        let budgets = (0..end.saturating_sub(8)).step_by(step as usize).chain(end.saturating_sub(8)..end + 2);
        for budget in budgets {
            self.call(side, &Call { budget, ..*call }, before);
        }
        // the last budget was enough, so the bench is that of the whole run
        end
    }

    /// What the areas are after the last call.
    pub fn expected(&self) -> &Bench {
        &self.expected
    }

    fn report(
        &mut self,
        who: &str,
        call: &Call,
        before: &Bench,
        word: u64,
        found: u64,
        in_a_row: Option<usize>,
    ) {
        self.differences += 1;
        println!("difference {}: the {who} answers otherwise", self.differences);
        print_call(call, before);
        if let Some(i) = in_a_row {
            println!("  the areas are those before the first of several calls in a row; this is number {i}");
        }
        println!("  expected {}", Word(word));
        println!("  found    {}", Word(found));
        let rows = [
            ("active", &self.expected.active, &self.found.active),
            ("dfu", &self.expected.dfu, &self.found.dfu),
            ("state", &self.expected.state, &self.found.state),
            ("output", &self.expected.out, &self.found.out),
        ];
        for (name, expected, found) in rows {
            if expected != found {
                println!("  {name} expected {}", Hex(expected));
                println!("  {name} found    {}", Hex(found));
            }
        }
        if self.expected.last != self.found.last {
            println!("  last expected {} found {}", self.expected.last, self.found.last);
        }
        if self.differences >= MOST_DIFFERENCES {
            println!("{} differences; stopped", self.differences);
            exit(1);
        }
    }

    pub fn total(&self) -> u64 {
        self.counts.iter().sum()
    }

    /// Says how many calls were compared; the last line is the verdict. True if there was no difference.
    pub fn verdict(&self) -> bool {
        let kinds: Vec<String> = Kind::ALL
            .iter()
            .map(|kind| format!("{} {}", kind.name().trim_start_matches("eb_"), self.counts[*kind as usize]))
            .collect();
        println!(
            "{} decided by the original, {} cut, {} refused; the rest by the model",
            self.by_original, self.cut, self.refused
        );
        println!(
            "{} with the erase value 0, {} of them decided by the original",
            self.at_zero.calls, self.at_zero.by_original
        );
        let end = match self.differences {
            0 => "no difference".to_string(),
            n => format!("{n} differences"),
        };
        println!("{} calls compared ({}): {end}", self.total(), kinds.join(", "));
        self.differences == 0
    }
}

/// Whether the call reads an erase value, and it is 0.
fn erases_to_zero(call: &Call) -> bool {
    call.kind.family() != Family::Bytes && call.geometry.ev == ZEROS
}

/// The table's number for this call.
pub fn refusal_of(call: &Call, before: &Bench) -> u8 {
    let lengths = Lengths {
        active: before.active.len(),
        dfu: before.dfu.len(),
        state: before.state.len(),
        out: before.out.len(),
    };
    let word = call.geometry.ws as usize;
    match table::refusal(call, &lengths, || before.state[..word].iter().all(|byte| *byte == 0xF0)) {
        0 if table::wrong_sum(call, &before.dfu) => CHECKSUM,
        lower => lower,
    }
}

fn print_call(call: &Call, before: &Bench) {
    let g = &call.geometry;
    println!("  {}", call.kind.name());
    print!("  geometry Ea {} Wa {} Ed {} Wd {} Es {} Ws {} b {}", g.ea, g.wa, g.ed, g.wd, g.es, g.ws, g.b);
    println!(" erase value {}", g.ev);
    println!("  lengths La {} Ld {} Ls {}", before.active.len(), before.dfu.len(), before.state.len());
    println!("  budget {} offset {} last {}", call.budget, call.offset, before.last);
    println!("  length {} sum {:08x} chunk {}", call.length, call.crc, call.chunk);
    println!("  data   {}", Hex(call.data));
    if call.kind.family() == Family::Boot {
        println!("  active {}", Hex(&before.active));
    }
    println!("  dfu    {}", Hex(&before.dfu));
    println!("  state  {}", Hex(&before.state));
    println!("  output {}", Hex(&before.out));
}
