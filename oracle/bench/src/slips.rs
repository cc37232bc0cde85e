//! Ways in which the reading can be told to err: that is how the comparison itself is tested.

use model::Wrong;

/// One way to get request No. 4 wrong.
#[derive(Clone, Copy, PartialEq, Eq, Debug)]
pub enum Slip {
    Nothing,
    /// the calls underneath err, as the model can be told to
    Call(Wrong),
    LineOf81Accepted,
    LineOf80Refused,
    LastLineNeedsLineFeed,
    LineAfterLastLineFeed,
    EmptyLineSkipped,
    CarriageReturnIgnored,
    PlusAccepted,
    MinusZeroAccepted,
    LeadingZerosRefused,
    SpacesMerged,
    LeadingSpaceAccepted,
    TrailingSpaceAccepted,
    TabIsASpace,
    NumberWraps,
    NumberStopsAtLargest,
    LargestNumberRefused,
    Length16384Refused,
    Length16385Accepted,
    FirstLineHeldTo16384,
    SecondLineHeldTo65536,
    EighthNumberIgnored,
    EraseValueZero,
    LineCountedFrom0,
    CommandCounted,
    AreasAfterBadLine,
    InputReadFirst,
    MissingLineIsTheLast,
    EmptyInputIsSilent,
    AnyCase,
    NamePrefixAccepted,
    NumberMayLack,
    RefusedImagesFilled,
    StateMarksNotRefused,
    UpdaterMarks,
    BudgetCountedWhenRefused,
    EmptyAreaWithoutSpace,
    CapitalDigits,
    StateShownAfterMark,
    StateHiddenAfterBoot,
    CutShowsState,
    PagesFromZero,
    DfuPagesFromOne,
    PagesStopAt255,
    PagesByEraseUnit,
    StateStartsMarked,
    BudgetsAddUp,
    ThousandCommands,
    FourKilobytes,
    OneRead,
}

/// Slips of the program itself, by name.
const OWN: [(&str, Slip); 49] = [
    ("line-of-81-accepted", Slip::LineOf81Accepted),
    ("line-of-80-refused", Slip::LineOf80Refused),
    ("last-line-needs-line-feed", Slip::LastLineNeedsLineFeed),
    ("line-after-last-line-feed", Slip::LineAfterLastLineFeed),
    ("empty-line-skipped", Slip::EmptyLineSkipped),
    ("carriage-return-ignored", Slip::CarriageReturnIgnored),
    ("plus-accepted", Slip::PlusAccepted),
    ("minus-zero-accepted", Slip::MinusZeroAccepted),
    ("leading-zeros-refused", Slip::LeadingZerosRefused),
    ("spaces-merged", Slip::SpacesMerged),
    ("leading-space-accepted", Slip::LeadingSpaceAccepted),
    ("trailing-space-accepted", Slip::TrailingSpaceAccepted),
    ("tab-is-a-space", Slip::TabIsASpace),
    ("number-wraps", Slip::NumberWraps),
    ("number-stops-at-largest", Slip::NumberStopsAtLargest),
    ("largest-number-refused", Slip::LargestNumberRefused),
    ("length-16384-refused", Slip::Length16384Refused),
    ("length-16385-accepted", Slip::Length16385Accepted),
    ("first-line-held-to-16384", Slip::FirstLineHeldTo16384),
    ("second-line-held-to-65536", Slip::SecondLineHeldTo65536),
    ("eighth-number-ignored", Slip::EighthNumberIgnored),
    ("erase-value-zero", Slip::EraseValueZero),
    ("line-counted-from-0", Slip::LineCountedFrom0),
    ("command-counted", Slip::CommandCounted),
    ("areas-after-bad-line", Slip::AreasAfterBadLine),
    ("input-read-first", Slip::InputReadFirst),
    ("missing-line-is-the-last", Slip::MissingLineIsTheLast),
    ("empty-input-is-silent", Slip::EmptyInputIsSilent),
    ("any-case", Slip::AnyCase),
    ("name-prefix-accepted", Slip::NamePrefixAccepted),
    ("number-may-lack", Slip::NumberMayLack),
    ("refused-images-filled", Slip::RefusedImagesFilled),
    ("state-marks-not-refused", Slip::StateMarksNotRefused),
    ("updater-marks", Slip::UpdaterMarks),
    ("budget-counted-when-refused", Slip::BudgetCountedWhenRefused),
    ("empty-area-without-space", Slip::EmptyAreaWithoutSpace),
    ("capital-digits", Slip::CapitalDigits),
    ("state-shown-after-mark", Slip::StateShownAfterMark),
    ("state-hidden-after-boot", Slip::StateHiddenAfterBoot),
    ("cut-shows-state", Slip::CutShowsState),
    ("pages-from-zero", Slip::PagesFromZero),
    ("dfu-pages-from-one", Slip::DfuPagesFromOne),
    ("pages-stop-at-255", Slip::PagesStopAt255),
    ("pages-by-erase-unit", Slip::PagesByEraseUnit),
    ("state-starts-marked", Slip::StateStartsMarked),
    ("budgets-add-up", Slip::BudgetsAddUp),
    ("thousand-commands", Slip::ThousandCommands),
    ("four-kilobytes", Slip::FourKilobytes),
    ("one-read", Slip::OneRead),
];

/// The model's ways that show in what the three commands can reach.
const CALLS: [&str; 16] = [
    "low-pages-first",
    "revert-high-pages-first",
    "count-one-more",
    "cut-count-one-less",
    "progress-minus-4",
    "invalidate-always",
    "revert-answered",
    "state-erase-first-unit",
    "budget-one-more",
    "dfu-may-equal-active",
    "higher-refusal-first",
    "exact-budget-is-a-cut",
    "page-written-at-once",
    "page-is-the-larger",
    "page-is-the-product",
    "or-at-ones",
];

impl Slip {
    /// The names of all slips.
    pub fn names() -> impl Iterator<Item = &'static str> {
        OWN.iter().map(|(name, _)| *name).chain(CALLS)
    }

    pub fn named(name: &str) -> Option<Slip> {
        let own = OWN.iter().find(|(given, _)| *given == name).map(|(_, slip)| *slip);
        own.or_else(|| Wrong::named(name).map(Slip::Call))
    }
}
