//! Document 01's definitions as they stand: a call is the list of operations of its run without a budget. A
//! budget K keeps the first K; the call is cut exactly if there are more.
//!
//! The model can be told to err in one named way (`Wrong`): that is how the comparison itself is tested.

use call::{
    Answers, CHECKSUM, CUT, Call, DONE, Geometry, Kind, Lent, NO_SECTOR, NO_STATE, ONES, ZEROS, pack,
};

use crate::table::{self, Lengths};

/// One way to get document 01 wrong.
#[derive(Clone, Copy, PartialEq, Eq, Debug)]
pub enum Wrong {
    Nothing,
    LowPagesFirst,
    RevertHighPagesFirst,
    CountOneMore,
    CutCountOneLess,
    ProgressMinus4,
    MarkDoneByAnyByte,
    ProgressReadOnce,
    MemoryForgottenAfterCut,
    MemorySetBeforeErase,
    MemoryClearedByNoErase,
    EmptyDataRangeChecked,
    InvalidateAlways,
    RevertAnswered,
    SwapNotRefused,
    WriteReplaces,
    StateEraseFirstUnit,
    ReadStateAnyByte,
    BudgetOneMore,
    DfuMayEqualActive,
    OffsetTruncated,
    HigherRefusalFirst,
    AreaLimitOneLess,
    OneStateWordEnough,
    EmptyBytesReadBoot,
    RangeBeforeState,
    ReadDfuRefusesSwap,
    ShortStateAdmitted,
    ExactBudgetIsACut,
    MarkDoneOnlyAsWritten,
    InvalidOnlyAsWritten,
    ErasedSectorNotErased,
    PageWrittenAtOnce,
    EraseIsOneOperation,
    UnitsFalling,
    UnitsOfTheOtherImage,
    ConfirmationReverted,
    ConfirmsAboveTwoN,
    ConfirmsAtFourN,
    ConfirmedAsRevert,
    PageIsTheLarger,
    PageIsTheProduct,
    PageLimitLess,
    PageLimitMore,
    CopiesBeforeMarks,
    EraseValueIgnored,
    EraseValueLowByte,
    ReadersSkipEraseValue,
    EraseValueJudgedLast,
    EraseValue0Refused,
    EraseValue254Admitted,
    AndAtZero,
    OrAtOnes,
    ErasedToOnes,
    MarksOfZero,
    InvalidationOfZero,
    ValidityOfOnes,
    MarkOpenByOnes,
    SumUnchecked,
    SumHalfCompared,
    SumOneByteLess,
    SumOneByteMore,
    SumOfWholeArea,
    SumNotReflected,
    SumNotInverted,
    SumFromZero,
    NoBytesUnchecked,
    SumBeforeRange,
    SumBeforeState,
    CheckSkipsState,
    CheckLengthTruncated,
    WholeAreaRefused,
    MarksBeforeSum,
    WrongSumErasesState,
    HashLastChunkFull,
    HashChunk0Admitted,
    HashLongChunkRefused,
    HashShortOutputAdmitted,
    HashLongOutputAdmitted,
    HashOfWholeArea,
    HashOneByteLess,
    HashOneByteMore,
    HashOfLastPiece,
    HashWholeAreaRefused,
    HashLengthTruncated,
    HashChunkTruncated,
    HashAsksState,
    HashWordsTurned,
    HashBlockEdgeWrong,
    HashOfNoBytesZero,
    HashRefusalClearsOutput,
}

impl Wrong {
    pub const ALL: [(&'static str, Wrong); 90] = [
        ("low-pages-first", Wrong::LowPagesFirst),
        ("revert-high-pages-first", Wrong::RevertHighPagesFirst),
        ("count-one-more", Wrong::CountOneMore),
        ("cut-count-one-less", Wrong::CutCountOneLess),
        ("progress-minus-4", Wrong::ProgressMinus4),
        ("mark-done-by-any-byte", Wrong::MarkDoneByAnyByte),
        ("progress-read-once", Wrong::ProgressReadOnce),
        ("memory-forgotten-after-cut", Wrong::MemoryForgottenAfterCut),
        ("memory-set-before-erase", Wrong::MemorySetBeforeErase),
        ("memory-cleared-by-no-erase", Wrong::MemoryClearedByNoErase),
        ("empty-data-range-checked", Wrong::EmptyDataRangeChecked),
        ("invalidate-always", Wrong::InvalidateAlways),
        ("revert-answered", Wrong::RevertAnswered),
        ("swap-not-refused", Wrong::SwapNotRefused),
        ("write-replaces", Wrong::WriteReplaces),
        ("state-erase-first-unit", Wrong::StateEraseFirstUnit),
        ("read-state-any-byte", Wrong::ReadStateAnyByte),
        ("budget-one-more", Wrong::BudgetOneMore),
        ("dfu-may-equal-active", Wrong::DfuMayEqualActive),
        ("offset-truncated", Wrong::OffsetTruncated),
        ("higher-refusal-first", Wrong::HigherRefusalFirst),
        ("area-limit-one-less", Wrong::AreaLimitOneLess),
        ("one-state-word-enough", Wrong::OneStateWordEnough),
        ("empty-bytes-read-boot", Wrong::EmptyBytesReadBoot),
        ("range-before-state", Wrong::RangeBeforeState),
        ("read-dfu-refuses-swap", Wrong::ReadDfuRefusesSwap),
        ("short-state-admitted", Wrong::ShortStateAdmitted),
        ("exact-budget-is-a-cut", Wrong::ExactBudgetIsACut),
        ("mark-done-only-as-written", Wrong::MarkDoneOnlyAsWritten),
        ("invalid-only-as-written", Wrong::InvalidOnlyAsWritten),
        ("erased-sector-not-erased", Wrong::ErasedSectorNotErased),
        ("page-written-at-once", Wrong::PageWrittenAtOnce),
        ("erase-is-one-operation", Wrong::EraseIsOneOperation),
        ("units-falling", Wrong::UnitsFalling),
        ("units-of-the-other-image", Wrong::UnitsOfTheOtherImage),
        ("confirmation-reverted", Wrong::ConfirmationReverted),
        ("confirms-above-two-n", Wrong::ConfirmsAboveTwoN),
        ("confirms-at-four-n", Wrong::ConfirmsAtFourN),
        ("confirmed-as-revert", Wrong::ConfirmedAsRevert),
        ("page-is-the-larger", Wrong::PageIsTheLarger),
        ("page-is-the-product", Wrong::PageIsTheProduct),
        ("page-limit-less", Wrong::PageLimitLess),
        ("page-limit-more", Wrong::PageLimitMore),
        ("copies-before-marks", Wrong::CopiesBeforeMarks),
        // request No. 11: what the erase value may be, and what follows it
        ("erase-value-ignored", Wrong::EraseValueIgnored),
        ("erase-value-low-byte", Wrong::EraseValueLowByte),
        ("readers-skip-erase-value", Wrong::ReadersSkipEraseValue),
        ("erase-value-judged-last", Wrong::EraseValueJudgedLast),
        ("erase-value-0-refused", Wrong::EraseValue0Refused),
        ("erase-value-254-admitted", Wrong::EraseValue254Admitted),
        ("and-at-zero", Wrong::AndAtZero),
        ("or-at-ones", Wrong::OrAtOnes),
        ("erased-to-ones", Wrong::ErasedToOnes),
        ("marks-of-zero", Wrong::MarksOfZero),
        ("invalidation-of-zero", Wrong::InvalidationOfZero),
        ("validity-of-ones", Wrong::ValidityOfOnes),
        ("mark-open-by-ones", Wrong::MarkOpenByOnes),
        // request No. 7: which bytes are summed, how, and when it is asked
        ("sum-unchecked", Wrong::SumUnchecked),
        ("sum-half-compared", Wrong::SumHalfCompared),
        ("sum-one-byte-less", Wrong::SumOneByteLess),
        ("sum-one-byte-more", Wrong::SumOneByteMore),
        ("sum-of-whole-area", Wrong::SumOfWholeArea),
        ("sum-not-reflected", Wrong::SumNotReflected),
        ("sum-not-inverted", Wrong::SumNotInverted),
        ("sum-from-zero", Wrong::SumFromZero),
        ("no-bytes-unchecked", Wrong::NoBytesUnchecked),
        ("sum-before-range", Wrong::SumBeforeRange),
        ("sum-before-state", Wrong::SumBeforeState),
        ("check-skips-state", Wrong::CheckSkipsState),
        ("check-length-truncated", Wrong::CheckLengthTruncated),
        ("whole-area-refused", Wrong::WholeAreaRefused),
        ("marks-before-sum", Wrong::MarksBeforeSum),
        ("wrong-sum-erases-state", Wrong::WrongSumErasesState),
        // request No. 8: which bytes are hashed, into what, and what is asked before
        ("hash-last-chunk-full", Wrong::HashLastChunkFull),
        ("hash-chunk-0-admitted", Wrong::HashChunk0Admitted),
        ("hash-long-chunk-refused", Wrong::HashLongChunkRefused),
        ("hash-short-output-admitted", Wrong::HashShortOutputAdmitted),
        ("hash-long-output-admitted", Wrong::HashLongOutputAdmitted),
        ("hash-of-whole-area", Wrong::HashOfWholeArea),
        ("hash-one-byte-less", Wrong::HashOneByteLess),
        ("hash-one-byte-more", Wrong::HashOneByteMore),
        ("hash-of-last-piece", Wrong::HashOfLastPiece),
        ("hash-whole-area-refused", Wrong::HashWholeAreaRefused),
        ("hash-length-truncated", Wrong::HashLengthTruncated),
        ("hash-chunk-truncated", Wrong::HashChunkTruncated),
        ("hash-asks-state", Wrong::HashAsksState),
        ("hash-words-turned", Wrong::HashWordsTurned),
        ("hash-block-edge-wrong", Wrong::HashBlockEdgeWrong),
        ("hash-of-no-bytes-zero", Wrong::HashOfNoBytesZero),
        ("hash-refusal-clears-output", Wrong::HashRefusalClearsOutput),
    ];

    pub fn named(name: &str) -> Option<Wrong> {
        Wrong::ALL.iter().find(|(given, _)| *given == name).map(|(_, wrong)| *wrong)
    }
}

const BOOT: u8 = 0;
const SWAP: u8 = 1;
const REVERT: u8 = 2;
const DFU_DETACH: u8 = 3;

/// The magic byte of each state, by the state's number.
const MAGICS: [u8; 4] = [0xD0, 0xF0, 0xC0, 0xE0];

#[derive(Clone, Copy, PartialEq, Eq)]
enum Area {
    Active,
    Dfu,
    State,
}

enum Operation {
    Erase {
        area: Area,
        from: usize,
        length: usize,
    },
    Write {
        area: Area,
        at: usize,
        bytes: Vec<u8>,
    },
    /// no operation: from here on the updater remembers this sector
    Remember(u32),
}

/// One page copy of the tables.
struct Copy {
    to: Area,
    source: usize,
    target: usize,
    step: usize,
}

/// The three areas, and the operations done to them so far.
struct Run {
    wrong: Wrong,
    active: Vec<u8>,
    dfu: Vec<u8>,
    state: Vec<u8>,
    geometry: Geometry,
    word: usize,
    operations: Vec<Operation>,
}

pub struct Model {
    pub wrong: Wrong,
}

impl Model {
    pub const RIGHT: Model = Model { wrong: Wrong::Nothing };
}

impl Answers for Model {
    fn answer(&self, call: &Call, lent: Lent) -> u64 {
        if call.kind == Kind::StateFrom {
            return u64::from(self.state_of(call.data));
        }
        let call = &self.taken(call);
        let refused = self.refusal(call, &lent);
        if refused != 0 {
            self.spoil_refused(refused, call, lent);
            return pack(refused, NO_STATE, 0);
        }
        match call.kind {
            Kind::PrepareBoot => self.with_budget(call, lent, |run| run.boot(call)),
            Kind::ReadState | Kind::StateGetState | Kind::UpdaterGetState => {
                pack(DONE, self.state_of(&lent.state[..call.geometry.ws as usize]), 0)
            }
            Kind::StateMarkUpdated | Kind::UpdaterMarkUpdated | Kind::CheckAndMarkUpdated => {
                self.with_budget(call, lent, |run| run.mark(call, SWAP))
            }
            Kind::StateMarkDfu | Kind::UpdaterMarkDfu => {
                self.with_budget(call, lent, |run| run.mark(call, DFU_DETACH))
            }
            Kind::StateMarkBooted | Kind::UpdaterMarkBooted => {
                self.with_budget(call, lent, |run| run.mark(call, BOOT))
            }
            Kind::ReadDfu => {
                let at = call.offset as usize;
                lent.out.copy_from_slice(&lent.dfu[at..at + lent.out.len()]);
                pack(DONE, NO_STATE, 0)
            }
            Kind::WriteFirmware => {
                let last = *lent.last;
                self.with_budget(call, lent, |run| run.write_firmware(call, last))
            }
            Kind::PrepareUpdate => self.with_budget(call, lent, |run| {
                run.erase(Area::Dfu, 0, run.dfu.len());
                NO_STATE
            }),
            Kind::Hash => {
                let digest = self.digest(call, lent.dfu);
                // 64 bytes both, or the model is told to err
                let length = lent.out.len().min(digest.len());
                lent.out[..length].copy_from_slice(&digest[..length]);
                pack(DONE, NO_STATE, 0)
            }
            Kind::StateFrom => unreachable!("answered above"),
        }
    }
}

impl Model {
    /// Whether this call is a boot that finishes a confirmation: request No. 5, which the Rust doesn't know.
    pub fn finishes_confirmation(call: &Call, lent: &Lent) -> bool {
        if call.kind != Kind::PrepareBoot || Model::RIGHT.refusal(call, lent) != 0 {
            return false;
        }
        let run = Run::new(Wrong::Nothing, call, lent);
        Model::RIGHT.state_of(run.word(0)) == SWAP && run.confirming(lent.active.len() / call.geometry.page())
    }

    /// Whether this call hashes bytes whose last chunk ends past DFU: request No. 8, where the Rust reads it full. With nothing to
    /// hash the Rust reads nothing.
    pub fn hashes_past_the_end(call: &Call, lent: &Lent) -> bool {
        let (length, chunk) = (u128::from(call.length), u128::from(call.chunk.max(1)));
        call.kind == Kind::Hash && length.div_ceil(chunk) * chunk > lent.dfu.len() as u128
    }

    /// The call as it came, but for a number that is wrongly taken for another.
    fn taken<'a>(&self, call: &Call<'a>) -> Call<'a> {
        let ev = match (self.wrong, call.geometry.ev) {
            (Wrong::EraseValueIgnored, ZEROS) => ONES,
            (Wrong::EraseValueLowByte, ev) => ev & 0xFF,
            (Wrong::ReadersSkipEraseValue, _) if !call.kind.has_budget() => ONES,
            (Wrong::EraseValue254Admitted, 254) => ONES,
            (_, ev) => ev,
        };
        let length = match (self.wrong, call.kind) {
            (Wrong::CheckLengthTruncated, Kind::CheckAndMarkUpdated)
            | (Wrong::HashLengthTruncated, Kind::Hash) => call.length & 0xFFFF_FFFF,
            _ => call.length,
        };
        let chunk = match self.wrong {
            Wrong::HashChunkTruncated => call.chunk & 0xFFFF_FFFF,
            _ => call.chunk,
        };
        Call { length, chunk, ..with_erase_value(call, ev) }
    }

    fn refusal(&self, call: &Call, lent: &Lent) -> u8 {
        let lengths = Lengths {
            active: lent.active.len(),
            dfu: lent.dfu.len(),
            state: lent.state.len(),
            out: lent.out.len(),
        };
        let word = call.geometry.ws as usize;
        let right = match table::refusal(call, &lengths, || self.state_of(&lent.state[..word]) == SWAP) {
            0 if self.wrong_sum(call, lent.dfu) => CHECKSUM,
            lower => lower,
        };
        match self.wrong {
            Wrong::Nothing => right,
            _ => self.spoilt_refusal(right, call, lent, lengths),
        }
    }

    /// Row 8, spoilt where the model is told to err there.
    fn wrong_sum(&self, call: &Call, dfu: &[u8]) -> bool {
        if call.kind != Kind::CheckAndMarkUpdated || self.wrong == Wrong::Nothing {
            return table::wrong_sum(call, dfu);
        }
        let length = call.length as usize;
        let bytes = match self.wrong {
            Wrong::SumOneByteLess => &dfu[..length.saturating_sub(1)],
            Wrong::SumOneByteMore => &dfu[..dfu.len().min(length + 1)],
            Wrong::SumOfWholeArea => dfu,
            _ => &dfu[..length],
        };
        let sum = sums::crc32(bytes);
        let sum = match self.wrong {
            Wrong::SumNotInverted => !sum,
            // bits of a byte highest first, in the bytes and in the sum
            Wrong::SumNotReflected => {
                let turned: Vec<u8> = bytes.iter().map(|byte| byte.reverse_bits()).collect();
                sums::crc32(&turned).reverse_bits()
            }
            // what beginning with ones adds is what it makes of zeros
            Wrong::SumFromZero => !(sum ^ sums::crc32(&vec![0; bytes.len()])),
            _ => sum,
        };
        match self.wrong {
            Wrong::SumUnchecked => false,
            Wrong::NoBytesUnchecked if length == 0 => false,
            Wrong::SumHalfCompared => sum as u16 != call.crc as u16,
            _ => sum != call.crc,
        }
    }

    /// The digest of the bytes asked for, spoilt where the model is told to err there.
    fn digest(&self, call: &Call, dfu: &[u8]) -> [u8; 64] {
        let length = call.length as usize;
        let pieces = call.length.div_ceil(call.chunk.max(1));
        let bytes = match self.wrong {
            Wrong::HashLastChunkFull => {
                let full = u128::from(pieces) * u128::from(call.chunk);
                &dfu[..full.min(dfu.len() as u128) as usize]
            }
            Wrong::HashOfWholeArea => dfu,
            Wrong::HashOneByteLess => &dfu[..length.saturating_sub(1)],
            Wrong::HashOneByteMore => &dfu[..dfu.len().min(length + 1)],
            Wrong::HashOfLastPiece => &dfu[(pieces.saturating_sub(1) * call.chunk) as usize..length],
            _ => &dfu[..length],
        };
        let mut digest = sums::sha512(bytes);
        match self.wrong {
            Wrong::HashWordsTurned => digest.chunks_mut(8).for_each(|word| word.reverse()),
            // the shortest message whose length no longer fits in its last block
            Wrong::HashBlockEdgeWrong if length % 128 == 112 => digest[0] ^= 1,
            Wrong::HashOfNoBytesZero if length == 0 => digest = [0; 64],
            _ => {}
        }
        digest
    }

    /// What a refusal changes, where the model is told to err there.
    fn spoil_refused(&self, refused: u8, call: &Call, lent: Lent) {
        match self.wrong {
            Wrong::MarksBeforeSum if refused == CHECKSUM => {
                self.with_budget(call, lent, |run| run.mark(call, SWAP));
            }
            Wrong::WrongSumErasesState if refused == CHECKSUM => lent.state.fill(call.geometry.erased()),
            Wrong::HashRefusalClearsOutput if refused == 6 && call.kind == Kind::Hash => lent.out.fill(0),
            _ => {}
        }
    }

    /// The table's answer, spoilt where the model is told to err there.
    fn spoilt_refusal(&self, right: u8, call: &Call, lent: &Lent, lengths: Lengths) -> u8 {
        let word = call.geometry.ws as usize;
        let page = call.geometry.page();
        let truncated = Call { offset: call.offset & 0xFFFF_FFFF, ..*call };
        match self.wrong {
            Wrong::EmptyDataRangeChecked
                if right == 0 && call.kind == Kind::WriteFirmware && call.offset > lengths.dfu as u64 =>
            {
                6
            }
            Wrong::EraseValueJudgedLast if right == 1 => {
                let swap = || self.state_of(&lent.state[..word]) == SWAP;
                match table::refusal(&with_erase_value(call, ONES), &lengths, swap) {
                    0 => right,
                    later => later,
                }
            }
            Wrong::EraseValue0Refused if call.geometry.ev == ZEROS => 1,
            Wrong::SwapNotRefused if right == 5 => table::refusal(call, &lengths, || false),
            Wrong::DfuMayEqualActive if right == 3 && call.kind == Kind::PrepareBoot => {
                // says nothing about the short DFU; a later row may still speak
                let longer = Lengths { dfu: lengths.active + page, ..lengths };
                let later = table::refusal(call, &longer, || false);
                if later == 0 && lent.dfu.len() >= lent.active.len() { 7 } else { right }
            }
            Wrong::OffsetTruncated if right == 6 && call.kind == Kind::WriteFirmware => {
                table::refusal(&truncated, &lengths, || false)
            }
            Wrong::HigherRefusalFirst if right == 3 => {
                let good = Lengths { active: 0, dfu: page.max(1), ..lengths };
                match table::refusal(call, &good, || false) {
                    4 => 4,
                    _ => right,
                }
            }
            // where neither size divides the other the larger is no page: the Rust would not build
            Wrong::PageIsTheLarger
                if right == 0
                    && call.kind == Kind::PrepareBoot
                    && page > call.geometry.ea.max(call.geometry.ed) as usize =>
            {
                2
            }
            // the rows for areas, read with the product
            Wrong::PageIsTheProduct if right == 0 && call.kind == Kind::PrepareBoot => {
                let product = call.geometry.ea as usize * call.geometry.ed as usize;
                let whole = lengths.active.is_multiple_of(product) && lengths.dfu.is_multiple_of(product);
                if whole && lengths.dfu >= lengths.active + product { right } else { 3 }
            }
            // 1,023 times 1,025, and 17 times 61,681: the pages on either side of the limit
            Wrong::PageLimitLess if right == 0 && call.kind == Kind::PrepareBoot && page == 1_048_575 => 2,
            Wrong::PageLimitMore if right == 2 && call.kind == Kind::PrepareBoot && page == 1_048_577 => 0,
            Wrong::AreaLimitOneLess if right != 1 && lengths.state == 16_777_216 => 1,
            Wrong::OneStateWordEnough if right == 4 && call.kind == Kind::StateGetState => {
                let words = Lengths { state: 2 * lengths.state, ..lengths };
                table::refusal(call, &words, || false)
            }
            Wrong::SumBeforeRange if right == 6 && call.kind == Kind::CheckAndMarkUpdated => {
                // of the bytes that there are
                if sums::crc32(lent.dfu) != call.crc { CHECKSUM } else { right }
            }
            Wrong::SumBeforeState | Wrong::CheckSkipsState
                if right == 5 && call.kind == Kind::CheckAndMarkUpdated =>
            {
                match table::refusal(call, &lengths, || false) {
                    0 if self.wrong_sum(call, lent.dfu) => CHECKSUM,
                    later if self.wrong == Wrong::CheckSkipsState => later,
                    _ => right,
                }
            }
            Wrong::WholeAreaRefused
                if matches!(right, 0 | CHECKSUM)
                    && call.kind == Kind::CheckAndMarkUpdated
                    && call.length == lengths.dfu as u64 =>
            {
                6
            }
            Wrong::RangeBeforeState if right == 5 => match table::refusal(call, &lengths, || false) {
                6 => 6,
                _ => 5,
            },
            Wrong::ReadDfuRefusesSwap
                if right == 0 && call.kind == Kind::ReadDfu && self.state_of(&lent.state[..word]) == SWAP =>
            {
                5
            }
            // 4N + 2 words, as document 01 had it before request No. 3
            Wrong::ShortStateAdmitted
                if right == 4
                    && call.kind == Kind::PrepareBoot
                    && call.geometry.es.is_multiple_of(call.geometry.ws)
                    && lengths.state.is_multiple_of(call.geometry.es as usize)
                    && lengths.state / word == 4 * (lengths.active / page) + 2
                    && lengths.active > 0 =>
            {
                0
            }
            _ if call.kind == Kind::Hash => self.spoilt_refusal_of_hash(right, call, lent, lengths),
            _ => right,
        }
    }

    fn spoilt_refusal_of_hash(&self, right: u8, call: &Call, lent: &Lent, lengths: Lengths) -> u8 {
        let word = call.geometry.ws as usize;
        match self.wrong {
            Wrong::HashChunk0Admitted if right == 6 && call.chunk == 0 => {
                table::refusal(&Call { chunk: 1, ..*call }, &lengths, || false)
            }
            Wrong::HashShortOutputAdmitted if right == 6 && lengths.out == 63 => {
                table::refusal(call, &Lengths { out: 64, ..lengths }, || false)
            }
            Wrong::HashLongOutputAdmitted if right == 6 && lengths.out == 65 => {
                table::refusal(call, &Lengths { out: 64, ..lengths }, || false)
            }
            Wrong::HashLongChunkRefused if right == 0 && call.chunk > lengths.dfu as u64 => 6,
            Wrong::HashWholeAreaRefused if right == 0 && call.length == lengths.dfu as u64 => 6,
            Wrong::HashAsksState if right == 0 && self.state_of(&lent.state[..word]) == SWAP => 5,
            _ => right,
        }
    }

    /// Word byte to state: the word must hold the byte throughout.
    fn state_of(&self, word: &[u8]) -> u8 {
        if self.wrong == Wrong::EmptyBytesReadBoot && word.is_empty() {
            return BOOT;
        }
        let holds = |state: u8| match self.wrong {
            Wrong::ReadStateAnyByte => word.first() == Some(&MAGICS[state as usize]) || word.is_empty(),
            _ => word.iter().all(|byte| *byte == MAGICS[state as usize]),
        };
        [SWAP, REVERT, DFU_DETACH].into_iter().find(|state| holds(*state)).unwrap_or(BOOT)
    }

    /// Lets the call run without a budget on a copy, then does the first K operations to the areas.
    fn with_budget(&self, call: &Call, lent: Lent, body: impl FnOnce(&mut Run) -> u8) -> u64 {
        let mut run = Run::new(self.wrong, call, &lent);
        let state = body(&mut run);
        let budget = match self.wrong {
            Wrong::BudgetOneMore => u64::from(call.budget) + 1,
            _ => u64::from(call.budget),
        };
        let wanted = run.operations.iter().filter(|op| op.counts()).count() as u64;
        let mut left = budget.min(wanted);
        let entry = *lent.last;
        for operation in &run.operations {
            match operation {
                Operation::Remember(sector) => *lent.last = *sector,
                _ if left == 0 => break,
                Operation::Erase { area, .. } | Operation::Write { area, .. } => {
                    let bytes = match area {
                        Area::Active => &mut *lent.active,
                        Area::Dfu => &mut *lent.dfu,
                        Area::State => &mut *lent.state,
                    };
                    operation.apply(bytes, self.wrong, call.geometry.erased());
                    left -= 1;
                }
            }
        }
        let done = budget.min(wanted) as u32;
        if budget < wanted || (self.wrong == Wrong::ExactBudgetIsACut && budget == wanted && wanted > 0) {
            if self.wrong == Wrong::MemoryForgottenAfterCut {
                *lent.last = entry;
            }
            let counted = if self.wrong == Wrong::CutCountOneLess { done.saturating_sub(1) } else { done };
            return pack(CUT, NO_STATE, counted);
        }
        let counted = if self.wrong == Wrong::CountOneMore && done > 3 { done + 1 } else { done };
        pack(DONE, state, counted)
    }
}

impl Operation {
    fn counts(&self) -> bool {
        !matches!(self, Operation::Remember(_))
    }

    fn apply(&self, area: &mut [u8], wrong: Wrong, erased: u8) {
        match self {
            Operation::Erase { from, length, .. } => {
                area[*from..from + length].fill(if wrong == Wrong::ErasedToOnes { 0xFF } else { erased })
            }
            Operation::Write { at, bytes, .. } => {
                for (old, new) in area[*at..].iter_mut().zip(bytes) {
                    *old = written(wrong, erased, *old, *new);
                }
            }
            Operation::Remember(_) => {}
        }
    }
}

/// Bits only go away from the erase value: they fall where it is FF and rise where it is 00.
fn written(wrong: Wrong, erased: u8, old: u8, new: u8) -> u8 {
    match (wrong, erased) {
        (Wrong::WriteReplaces, _) => new,
        (Wrong::AndAtZero, _) => old & new,
        (Wrong::OrAtOnes, _) | (_, 0x00) => old | new,
        _ => old & new,
    }
}

fn with_erase_value<'a>(call: &Call<'a>, ev: u32) -> Call<'a> {
    Call { geometry: Geometry { ev, ..call.geometry }, ..*call }
}

impl Run {
    /// A copy of the areas, with nothing done yet.
    fn new(wrong: Wrong, call: &Call, lent: &Lent) -> Run {
        Run {
            wrong,
            active: lent.active.to_vec(),
            dfu: lent.dfu.to_vec(),
            state: lent.state.to_vec(),
            geometry: call.geometry,
            word: call.geometry.ws as usize,
            operations: Vec::new(),
        }
    }

    fn perform(&mut self, operation: Operation) {
        match operation {
            Operation::Erase { area, .. } | Operation::Write { area, .. } => {
                let (wrong, erased) = (self.wrong, self.geometry.erased());
                operation.apply(self.area_mut(area), wrong, erased)
            }
            Operation::Remember(_) => {}
        }
        self.operations.push(operation);
    }

    /// Each erase unit of the stretch is an operation, in rising order.
    fn erase(&mut self, area: Area, from: usize, length: usize) {
        let unit = self.unit(area, length);
        for i in 0..length / unit {
            let place = if self.wrong == Wrong::UnitsFalling { length / unit - 1 - i } else { i };
            self.perform(Operation::Erase { area, from: from + place * unit, length: unit });
        }
    }

    fn unit(&self, area: Area, length: usize) -> usize {
        let g = &self.geometry;
        let unit = match (area, self.wrong) {
            (_, Wrong::EraseIsOneOperation) => length.max(1) as u32,
            (Area::Active, Wrong::UnitsOfTheOtherImage) | (Area::Dfu, _) => g.ed,
            (Area::Active, _) => g.ea,
            (Area::State, _) => g.es,
        };
        unit as usize
    }

    fn write(&mut self, area: Area, at: usize, bytes: Vec<u8>) {
        self.perform(Operation::Write { area, at, bytes });
    }

    fn write_word(&mut self, word: usize, byte: u8) {
        self.write(Area::State, word * self.word, vec![byte; self.word]);
    }

    fn write_mark(&mut self, step: usize) {
        let byte = if self.wrong == Wrong::MarksOfZero { 0x00 } else { self.geometry.marked() };
        self.write_word(2 + step, byte);
    }

    fn invalidate(&mut self) {
        let byte = if self.wrong == Wrong::InvalidationOfZero { 0x00 } else { self.geometry.marked() };
        self.write_word(1, byte);
    }

    fn area(&self, area: Area) -> &[u8] {
        match area {
            Area::Active => &self.active,
            Area::Dfu => &self.dfu,
            Area::State => &self.state,
        }
    }

    fn area_mut(&mut self, area: Area) -> &mut [u8] {
        match area {
            Area::Active => &mut self.active,
            Area::Dfu => &mut self.dfu,
            Area::State => &mut self.state,
        }
    }

    fn word(&self, index: usize) -> &[u8] {
        &self.state[index * self.word..(index + 1) * self.word]
    }

    fn valid(&self) -> bool {
        let (erased, marked) = (self.geometry.erased(), self.geometry.marked());
        match self.wrong {
            Wrong::InvalidOnlyAsWritten => self.word(1).iter().any(|byte| *byte != marked),
            Wrong::ValidityOfOnes => self.word(1).iter().all(|byte| *byte == 0xFF),
            _ => self.word(1).iter().all(|byte| *byte == erased),
        }
    }

    /// A mark is done when no byte of it is erased.
    fn done(&self, step: usize) -> bool {
        let word = self.word(2 + step);
        let (erased, marked) = (self.geometry.erased(), self.geometry.marked());
        match self.wrong {
            Wrong::MarkDoneByAnyByte => word.iter().any(|byte| *byte != erased),
            Wrong::MarkDoneOnlyAsWritten => word.iter().all(|byte| *byte == marked),
            Wrong::MarkOpenByOnes => word.iter().all(|byte| *byte != 0xFF),
            _ => word.iter().all(|byte| *byte != erased),
        }
    }

    fn progress(&self) -> usize {
        let words = self.state.len() / self.word;
        let most = match self.wrong {
            Wrong::ProgressMinus4 => words.saturating_sub(4),
            _ => words - 3,
        };
        if self.valid() { self.leading(most) } else { most }
    }

    /// The leading done marks, whether they count or not.
    fn leading(&self, most: usize) -> usize {
        (0..most).find(|step| !self.done(*step)).unwrap_or(most)
    }

    /// A confirmation was cut (request No. 5): the progress doesn't count, and the marks are those of a finished
    /// swap and of a revert that isn't finished.
    fn confirming(&self, pages: usize) -> bool {
        let done = self.leading(self.state.len() / self.word - 3);
        !self.valid()
            && match self.wrong {
                Wrong::ConfirmationReverted => false,
                Wrong::ConfirmsAboveTwoN => 2 * pages < done && done < 4 * pages,
                Wrong::ConfirmsAtFourN => 2 * pages <= done && done <= 4 * pages,
                _ => 2 * pages <= done && done < 4 * pages,
            }
    }

    fn boot(&mut self, call: &Call) -> u8 {
        let entry = Model { wrong: self.wrong }.state_of(self.word(0));
        if entry != SWAP {
            return entry;
        }
        let page = call.geometry.page();
        let chunk = call.geometry.b as usize;
        let pages = self.active.len() / page;
        if self.confirming(pages) {
            self.erase_state(call);
            let label = if self.wrong == Wrong::ConfirmedAsRevert { REVERT } else { BOOT };
            self.write_word(0, MAGICS[label as usize]);
            return SWAP;
        }
        if self.progress() < 2 * pages {
            let order: Vec<usize> = match self.wrong {
                Wrong::LowPagesFirst => (0..pages).collect(),
                _ => (0..pages).rev().collect(),
            };
            self.copies(swap_copies(&order), page, chunk);
            return SWAP;
        }
        let order: Vec<usize> = match self.wrong {
            Wrong::RevertHighPagesFirst => (0..pages).rev().collect(),
            _ => (0..pages).collect(),
        };
        self.copies(revert_copies(pages, &order), page, chunk);
        self.invalidate();
        self.erase_state(call);
        self.write_word(0, MAGICS[REVERT as usize]);
        if self.wrong == Wrong::RevertAnswered { REVERT } else { SWAP }
    }

    /// Runs a list of copies, reading progress afresh before each.
    fn copies(&mut self, list: Vec<Copy>, page: usize, chunk: usize) {
        let at_entry = self.progress();
        let mut unmarked = Vec::new();
        for copy in list {
            let progress = match self.wrong {
                Wrong::ProgressReadOnce => at_entry,
                _ => self.progress(),
            };
            if progress > copy.step {
                continue;
            }
            let from = if copy.to == Area::Dfu { Area::Active } else { Area::Dfu };
            self.erase(copy.to, copy.target * page, page);
            let chunk = if self.wrong == Wrong::PageWrittenAtOnce { page } else { chunk };
            for piece in 0..page / chunk {
                let at = copy.source * page + piece * chunk;
                let bytes = self.area(from)[at..at + chunk].to_vec();
                self.write(copy.to, copy.target * page + piece * chunk, bytes);
            }
            match self.wrong {
                Wrong::CopiesBeforeMarks => unmarked.push(copy.step),
                _ => self.write_mark(copy.step),
            }
        }
        // the end's bytes and the count are right: only what a cut leaves tells
        for step in unmarked {
            self.write_mark(step);
        }
    }

    fn erase_state(&mut self, call: &Call) {
        let length = match self.wrong {
            Wrong::StateEraseFirstUnit => call.geometry.es as usize,
            _ => self.state.len(),
        };
        self.erase(Area::State, 0, length);
    }

    fn mark(&mut self, call: &Call, state: u8) -> u8 {
        let magic = MAGICS[state as usize];
        if self.word(0).iter().all(|byte| *byte == magic) {
            return NO_STATE;
        }
        if self.valid() || self.wrong == Wrong::InvalidateAlways {
            self.invalidate();
        }
        self.erase_state(call);
        self.write_word(0, magic);
        NO_STATE
    }

    fn write_firmware(&mut self, call: &Call, last: u32) -> u8 {
        let sector_size = call.geometry.ed as usize;
        // a refusal was given for every larger offset, but for empty data, where it isn't used
        let mut at = if call.data.is_empty() { 0 } else { call.offset as u32 as usize };
        let mut memory = last;
        let mut data = call.data;
        while !data.is_empty() {
            let sector = at / sector_size;
            let piece = data.len().min((sector + 1) * sector_size - at);
            let erased = self.geometry.erased();
            let blank =
                self.dfu[sector * sector_size..(sector + 1) * sector_size].iter().all(|x| *x == erased);
            if self.wrong == Wrong::ErasedSectorNotErased && blank {
                memory = sector as u32;
            }
            if memory == NO_SECTOR || memory as usize != sector {
                if self.wrong == Wrong::MemorySetBeforeErase {
                    self.perform(Operation::Remember(sector as u32));
                }
                self.erase(Area::Dfu, sector * sector_size, sector_size);
                self.perform(Operation::Remember(sector as u32));
                memory = sector as u32;
            } else if self.wrong == Wrong::MemoryClearedByNoErase {
                self.perform(Operation::Remember(NO_SECTOR));
            }
            self.write(Area::Dfu, at, data[..piece].to_vec());
            data = &data[piece..];
            at += piece;
        }
        NO_STATE
    }
}

/// Page k of the swap: DFU page k + 1 from active page k, then active page k from DFU page k. The marks rise
/// with the copies, so in the right order, k falling, these are the steps 2(N - 1 - k) and the next.
fn swap_copies(order: &[usize]) -> Vec<Copy> {
    let both = |(i, k): (usize, &usize)| {
        [
            Copy { to: Area::Dfu, source: *k, target: k + 1, step: 2 * i },
            Copy { to: Area::Active, source: *k, target: *k, step: 2 * i + 1 },
        ]
    };
    order.iter().enumerate().flat_map(both).collect()
}

/// Page k of the revert: DFU page k from active page k, then active page k from DFU page k + 1.
fn revert_copies(pages: usize, order: &[usize]) -> Vec<Copy> {
    let both = |(i, k): (usize, &usize)| {
        [
            Copy { to: Area::Dfu, source: *k, target: *k, step: 2 * pages + 2 * i },
            Copy { to: Area::Active, source: k + 1, target: *k, step: 2 * pages + 2 * i + 1 },
        ]
    };
    order.iter().enumerate().flat_map(both).collect()
}

#[cfg(test)]
mod tests {
    use super::*;
    use call::{Bench, operations_of};

    /// Two pages of one byte, steps 0, 2 and 3 marked and step 1 not: done marks beyond a gap.
    fn beyond_a_gap(wrong: Wrong) -> (u32, Bench) {
        let geometry = Geometry { ea: 1, wa: 1, ed: 1, wd: 1, es: 1, ws: 1, b: 1, ev: ONES };
        let call = Call { budget: 100, ..Call::of(Kind::PrepareBoot, geometry) };
        let mut state = vec![0xFF; 11];
        state[..6].copy_from_slice(&[0xF0, 0xFF, 0x00, 0xFF, 0x00, 0x00]);
        let mut bench = Bench { active: vec![20, 11], dfu: vec![20, 10, 11], state, ..Bench::default() };
        let answer = Model { wrong }.answer(&call, bench.lend());
        (operations_of(answer), bench)
    }

    #[test]
    fn marks_beyond_a_gap_count_once_it_closes() {
        let (operations, left) = beyond_a_gap(Wrong::Nothing);
        assert_eq!(operations, 3);
        assert_eq!((left.active, left.dfu), (vec![20, 10], vec![20, 10, 11]));
    }

    /// The same state area at both values, FF and 00 exchanged at 0: the same operations and images.
    #[test]
    fn the_erase_value_turns_the_state_area_over() {
        let boot = |ev: u32, budget| {
            let geometry = Geometry { ea: 1, wa: 1, ed: 1, wd: 1, es: 7, ws: 1, b: 1, ev };
            let call = Call { budget, ..Call::of(Kind::PrepareBoot, geometry) };
            let e = ev as u8;
            let mut bench = Bench { active: vec![1], dfu: vec![2, 3], state: vec![e; 7], ..Bench::default() };
            bench.state[0] = 0xF0;
            let answer = Model::RIGHT.answer(&call, bench.lend());
            (answer, bench)
        };
        for budget in 0..8 {
            let (word, ones) = boot(ONES, budget);
            let (other, zeros) = boot(ZEROS, budget);
            let turned = |byte: &u8| if matches!(byte, 0x00 | 0xFF) { !byte } else { *byte };
            assert_eq!(word, other);
            for (one, zero) in [(ones.active, zeros.active), (ones.dfu, zeros.dfu), (ones.state, zeros.state)]
            {
                assert_eq!(one.iter().map(turned).collect::<Vec<u8>>(), zero);
            }
        }
    }

    /// A counter goes on with steps 2 and 3, and the page that DFU kept is lost.
    #[test]
    fn a_counter_copies_over_what_is_done() {
        let (operations, left) = beyond_a_gap(Wrong::ProgressReadOnce);
        assert_eq!(operations, 9);
        assert_eq!((left.active, left.dfu), (vec![20, 10], vec![20, 20, 11]));
    }
}
