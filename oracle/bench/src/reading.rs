//! What the bench program writes for an input, from request No. 4's text and document 01 alone. The calls are
//! those of `model`; the lines, the areas' start and the output are read here.

use std::io::Write;

use call::{
    Answers, Bench, CUT, Call, Geometry, Kind, NO_SECTOR, NO_STATE, ONES, ZEROS, number_of, operations_of,
    pack,
};
use model::Model;

use crate::slips::Slip;

const LONGEST_LINE: usize = 80;
const LONGEST_AREA: u32 = 16_384;

/// The reading, right or with one slip.
#[derive(Clone, Copy)]
pub struct Reading {
    pub slip: Slip,
}

/// A command: its name and call, and its budget.
type Command = (&'static str, Kind, u32);

const COMMANDS: [(&str, Kind); 3] =
    [("update", Kind::StateMarkUpdated), ("booted", Kind::StateMarkBooted), ("boot", Kind::PrepareBoot)];

/// The number of a line that the input hasn't in the right form.
struct BadLine(usize);

impl Reading {
    pub const RIGHT: Reading = Reading { slip: Slip::Nothing };

    /// All that the program writes.
    pub fn output(&self, input: &[u8]) -> Vec<u8> {
        let mut out = Vec::new();
        let input = if self.errs(Slip::FourKilobytes) { &input[..input.len().min(4096)] } else { input };
        if self.errs(Slip::EmptyInputIsSilent) && input.is_empty() {
            return out;
        }
        if let Err(BadLine(line)) = self.run(input, &mut out) {
            let line = match self.slip {
                Slip::LineCountedFrom0 => line - 1,
                Slip::CommandCounted if line > 2 => line - 2,
                Slip::MissingLineIsTheLast if line == 2 && self.lines(input).len() == 1 => 1,
                Slip::InputReadFirst => {
                    out.clear();
                    line
                }
                _ => line,
            };
            put(&mut out, format_args!("bad line {line}\n"));
        }
        out
    }

    fn errs(&self, slip: Slip) -> bool {
        self.slip == slip
    }

    fn run(&self, input: &[u8], out: &mut Vec<u8>) -> Result<(), BadLine> {
        let lines = self.lines(input);
        let geometry = lines.first().and_then(|line| self.first_line(line)).ok_or(BadLine(1))?;
        let lengths = lines.get(1).and_then(|line| self.second_line(line)).ok_or(BadLine(2))?;
        let mut device = Device::new(*self, geometry, lengths);
        for (at, line) in lines.iter().enumerate().skip(2) {
            if self.errs(Slip::ThousandCommands) && at == 1002 {
                break;
            }
            let Some(command) = self.command(line) else {
                if self.errs(Slip::AreasAfterBadLine) {
                    device.show(out);
                }
                return Err(BadLine(at + 1));
            };
            device.perform(command, out);
        }
        device.show(out);
        Ok(())
    }

    /// A line ends with a line feed or the input's end; after a last line feed there is no further line.
    fn lines<'a>(&self, input: &'a [u8]) -> Vec<&'a [u8]> {
        let mut lines: Vec<&[u8]> = input.split(|byte| *byte == b'\n').collect();
        let past_the_end = lines.last().is_some_and(|line| line.is_empty());
        if (past_the_end && !self.errs(Slip::LineAfterLastLineFeed)) || self.errs(Slip::LastLineNeedsLineFeed)
        {
            lines.pop();
        }
        if self.errs(Slip::EmptyLineSkipped) {
            lines.retain(|line| !line.is_empty());
        }
        lines
    }

    /// Ea Wa Ed Wd Es Ws b; the erase value is 255 (request No. 11)
    fn first_line(&self, line: &[u8]) -> Option<Geometry> {
        let mut numbers = self.numbers(line)?;
        if self.errs(Slip::EighthNumberIgnored) {
            numbers.truncate(7);
        }
        if self.errs(Slip::FirstLineHeldTo16384) && numbers.iter().any(|n| *n > LONGEST_AREA) {
            return None;
        }
        let [ea, wa, ed, wd, es, ws, b] = numbers[..] else { return None };
        let ev = if self.errs(Slip::EraseValueZero) { ZEROS } else { ONES };
        Some(Geometry { ea, wa, ed, wd, es, ws, b, ev })
    }

    /// La Ld Ls
    fn second_line(&self, line: &[u8]) -> Option<[usize; 3]> {
        let longest = match self.slip {
            Slip::Length16384Refused => LONGEST_AREA - 1,
            Slip::Length16385Accepted => LONGEST_AREA + 1,
            Slip::SecondLineHeldTo65536 => 65_536,
            _ => LONGEST_AREA,
        };
        let numbers = self.numbers(line)?;
        let [la, ld, ls] = numbers[..] else { return None };
        numbers.iter().all(|length| *length <= longest).then_some([la, ld, ls].map(|length| length as usize))
    }

    fn command(&self, line: &[u8]) -> Option<Command> {
        let words = self.words(line)?;
        let (name, number) = match words[..] {
            [name, number] => (name, number),
            [name] if self.errs(Slip::NumberMayLack) => (name, &b"0"[..]),
            _ => return None,
        };
        let is = |known: &str| match self.slip {
            Slip::AnyCase => name.eq_ignore_ascii_case(known.as_bytes()),
            _ => name == known.as_bytes(),
        };
        let begins = |known: &str| {
            self.errs(Slip::NamePrefixAccepted) && !name.is_empty() && known.as_bytes().starts_with(name)
        };
        let exact = COMMANDS.into_iter().find(|(known, _)| is(known));
        let (name, kind) = exact.or_else(|| COMMANDS.into_iter().find(|(known, _)| begins(known)))?;
        Some((name, kind, self.number(number)?))
    }

    fn numbers(&self, line: &[u8]) -> Option<Vec<u32>> {
        self.words(line)?.into_iter().map(|word| self.number(word)).collect()
    }

    /// What stands between single spaces, of a line that isn't too long. Two spaces in a row, or one at an end,
    /// have an empty word beside them, and that is neither a name nor a number.
    fn words<'a>(&self, line: &'a [u8]) -> Option<Vec<&'a [u8]>> {
        let line = match self.slip {
            Slip::CarriageReturnIgnored => line.strip_suffix(b"\r").unwrap_or(line),
            Slip::LeadingSpaceAccepted => line.strip_prefix(b" ").unwrap_or(line),
            Slip::TrailingSpaceAccepted => line.strip_suffix(b" ").unwrap_or(line),
            _ => line,
        };
        let longest = match self.slip {
            Slip::LineOf81Accepted => LONGEST_LINE + 1,
            Slip::LineOf80Refused => LONGEST_LINE - 1,
            _ => LONGEST_LINE,
        };
        let tab = self.errs(Slip::TabIsASpace);
        let words = line.split(|byte| *byte == b' ' || (tab && *byte == b'\t'));
        let inner = |word: &&[u8]| !(self.errs(Slip::SpacesMerged) && word.is_empty());
        (line.len() <= longest).then(|| words.filter(inner).collect())
    }

    /// Decimal digits without sign, at most 4,294,967,295; leading zeros are allowed.
    fn number(&self, word: &[u8]) -> Option<u32> {
        let word = match self.slip {
            Slip::PlusAccepted => word.strip_prefix(b"+").unwrap_or(word),
            Slip::MinusZeroAccepted if word == b"-0" => b"0",
            _ => word,
        };
        if word.is_empty() || !word.iter().all(u8::is_ascii_digit) {
            return None;
        }
        if self.errs(Slip::LeadingZerosRefused) && word.len() > 1 && word[0] == b'0' {
            return None;
        }
        let digits = word.iter().map(|byte| u128::from(byte - b'0'));
        let value = digits.fold(0, |value: u128, digit| value.saturating_mul(10).saturating_add(digit));
        match self.slip {
            Slip::NumberWraps => Some(value as u32),
            Slip::NumberStopsAtLargest => Some(value.min(u128::from(u32::MAX)) as u32),
            Slip::LargestNumberRefused if value == u128::from(u32::MAX) => None,
            _ => u32::try_from(value).ok(),
        }
    }

    fn model(&self) -> Model {
        match self.slip {
            Slip::Call(wrong) => Model { wrong },
            _ => Model::RIGHT,
        }
    }
}

/// The three areas between two commands.
struct Device {
    reading: Reading,
    geometry: Geometry,
    /// the number with which a boot is refused, 0 where it isn't
    refusal: u8,
    areas: Bench,
    /// only for a slip: operations done so far
    spent: u32,
}

impl Device {
    fn new(reading: Reading, geometry: Geometry, [la, ld, ls]: [usize; 3]) -> Device {
        let mut areas = Bench {
            active: vec![0xFF; la],
            dfu: vec![0xFF; ld],
            state: vec![0xFF; ls],
            out: Vec::new(),
            last: NO_SECTOR,
        };
        // an erased state area reads Boot, so a boot that isn't refused does nothing here
        let boot = Call::of(Kind::PrepareBoot, geometry);
        let refusal = number_of(reading.model().answer(&boot, areas.lend())) as u8;
        if refusal == 0 || (reading.errs(Slip::RefusedImagesFilled) && geometry.page() > 0) {
            reading.fill(&geometry, &mut areas);
        }
        Device { reading, geometry, refusal, areas, spent: 0 }
    }

    /// Writes the command's line: name, answer, state or `-`, operations.
    fn perform(&mut self, (name, kind, budget): Command, out: &mut Vec<u8>) {
        let word = self.answer(kind, budget);
        let (number, state, operations) = (number_of(word), (word >> 32) as u8, operations_of(word));
        let state = match self.reading.slip {
            Slip::StateShownAfterMark if number == 0 && state == NO_STATE => 0,
            Slip::StateHiddenAfterBoot => NO_STATE,
            Slip::CutShowsState if number == u64::from(CUT) => 1,
            _ => state,
        };
        let state = if state == NO_STATE { "-".to_string() } else { state.to_string() };
        put(out, format_args!("{name} {number} {state} {operations}\n"));
    }

    fn answer(&mut self, kind: Kind, budget: u32) -> u64 {
        let slip = self.reading.slip;
        let refused = self.refusal != 0 && !(slip == Slip::StateMarksNotRefused && kind != Kind::PrepareBoot);
        if refused {
            let counted = if slip == Slip::BudgetCountedWhenRefused { budget } else { 0 };
            return pack(self.refusal, NO_STATE, counted);
        }
        let kind = match kind {
            Kind::StateMarkUpdated if slip == Slip::UpdaterMarks => Kind::UpdaterMarkUpdated,
            Kind::StateMarkBooted if slip == Slip::UpdaterMarks => Kind::UpdaterMarkBooted,
            kind => kind,
        };
        let budget = if slip == Slip::BudgetsAddUp { budget.saturating_sub(self.spent) } else { budget };
        let call = Call { budget, ..Call::of(kind, self.geometry) };
        let word = self.reading.model().answer(&call, self.areas.lend());
        self.spent = self.spent.saturating_add(operations_of(word));
        word
    }

    /// Writes the areas; an empty one is its name and a space.
    fn show(&self, out: &mut Vec<u8>) {
        let areas = &self.areas;
        for (name, area) in [("active", &areas.active), ("dfu", &areas.dfu), ("state", &areas.state)] {
            let space =
                if area.is_empty() && self.reading.errs(Slip::EmptyAreaWithoutSpace) { "" } else { " " };
            put(out, format_args!("{name}{space}"));
            for byte in area {
                match self.reading.slip {
                    Slip::CapitalDigits => put(out, format_args!("{byte:02X}")),
                    _ => put(out, format_args!("{byte:02x}")),
                }
            }
            out.push(b'\n');
        }
    }
}

impl Reading {
    /// Active page i is filled with i + 1, DFU page j with N + j + 1, both modulo 256.
    fn fill(&self, geometry: &Geometry, areas: &mut Bench) {
        let unit =
            |erase: u32| if self.errs(Slip::PagesByEraseUnit) { erase as usize } else { geometry.page() };
        let pages = areas.active.len() / geometry.page();
        let first = if self.errs(Slip::PagesFromZero) { 0 } else { 1 };
        let first_dfu = if self.errs(Slip::DfuPagesFromOne) { 1 } else { pages + first };
        for (area, erase, first) in
            [(&mut areas.active, geometry.ea, first), (&mut areas.dfu, geometry.ed, first_dfu)]
        {
            for (at, page) in area.chunks_mut(unit(erase).max(1)).enumerate() {
                let number = first + at;
                page.fill(if self.errs(Slip::PagesStopAt255) { number.min(255) } else { number } as u8);
            }
        }
        if self.errs(Slip::StateStartsMarked) && !areas.state.is_empty() {
            areas.state[0] = 0xD0;
        }
    }
}

fn put(out: &mut Vec<u8>, text: std::fmt::Arguments) {
    out.write_fmt(text).expect("a vector takes every byte");
}

#[cfg(test)]
mod tests {
    use super::*;

    fn output(input: &str) -> String {
        String::from_utf8(Reading::RIGHT.output(input.as_bytes())).expect("text")
    }

    #[test]
    fn the_request_s_example() {
        let input = "4 2 4 2 16 1 2\n12 16 16\nupdate 3\nboot 23\nboot 24\n";
        let lines = [
            "update 0 - 3",
            "boot 7 - 23",
            "boot 0 1 4",
            "active 040404040505050506060606",
            "dfu 04040404010101010202020203030303",
            "state f0ff000000000000ffffffffffffffff",
        ];
        let expected: String = lines.iter().map(|line| format!("{line}\n")).collect();
        assert_eq!(output(input), expected);
        assert_eq!(output(input.trim_end()), expected);
    }

    #[test]
    fn bad_lines() {
        assert_eq!(output(""), "bad line 1\n");
        assert_eq!(output("\n"), "bad line 1\n");
        assert_eq!(output("4 2 4 2 16 1 2"), "bad line 2\n");
        assert_eq!(output("4 2 4 2 16 1 2\n12 16 16385\n"), "bad line 2\n");
        assert_eq!(output("4 2 4 2 16 1 2\n12 16 16\nupdate 3\n\n"), "update 0 - 3\nbad line 4\n");
        assert_eq!(output("4 2 4 2 16 1 2\n12 16 16\nboot 4294967296"), "bad line 3\n");
        assert_eq!(output("4 2 4 2 16 1 2\n12 16 16\nboot 1\r\n"), "bad line 3\n");
    }

    #[test]
    fn a_refused_boot() {
        let input = "4 2 4 2 16 1 3\n4 8 0\nupdate 3\nbooted 9\nboot 4294967295\n";
        let end = "active ffffffff\ndfu ffffffffffffffff\nstate \n";
        assert_eq!(output(input), format!("update 2 - 0\nbooted 2 - 0\nboot 2 - 0\n{end}"));
    }
}
