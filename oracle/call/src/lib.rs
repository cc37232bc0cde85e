//! What one call is, shared by all sides: its kind, its numbers, what it is lent and how an answer is
//! packed. Nothing here decides an answer.

use std::fmt;

pub mod random;

/// The calls of the C boundary. The numbers up to 13 are those of the replay format.
#[derive(Clone, Copy, PartialEq, Eq, Debug)]
#[repr(u32)]
pub enum Kind {
    PrepareBoot = 0,
    ReadState = 1,
    StateGetState = 2,
    StateMarkUpdated = 3,
    StateMarkDfu = 4,
    StateMarkBooted = 5,
    UpdaterGetState = 6,
    UpdaterMarkUpdated = 7,
    UpdaterMarkDfu = 8,
    UpdaterMarkBooted = 9,
    ReadDfu = 10,
    WriteFirmware = 11,
    PrepareUpdate = 12,
    StateFrom = 13,
    CheckAndMarkUpdated = 14,
    Hash = 15,
}

/// Which areas and numbers a call takes.
#[derive(Clone, Copy, PartialEq, Eq, Debug)]
pub enum Family {
    /// all three areas, all eight numbers
    Boot,
    /// the state area, Es, Ws and the erase value
    State,
    /// DFU and state area, Ed, Wd, Es, Ws and the erase value
    Updater,
    /// bytes only
    Bytes,
}

impl Kind {
    pub const ALL: [Kind; 16] = [
        Kind::PrepareBoot,
        Kind::ReadState,
        Kind::StateGetState,
        Kind::StateMarkUpdated,
        Kind::StateMarkDfu,
        Kind::StateMarkBooted,
        Kind::UpdaterGetState,
        Kind::UpdaterMarkUpdated,
        Kind::UpdaterMarkDfu,
        Kind::UpdaterMarkBooted,
        Kind::ReadDfu,
        Kind::WriteFirmware,
        Kind::PrepareUpdate,
        Kind::StateFrom,
        Kind::CheckAndMarkUpdated,
        Kind::Hash,
    ];

    /// Those that are lent an area: all but State::from.
    pub const WITH_AREAS: [Kind; Kind::ALL.len() - 1] = {
        let mut kinds = [Kind::PrepareBoot; Kind::ALL.len() - 1];
        let mut i = 0;
        while i < kinds.len() {
            kinds[i] = Kind::ALL[if i < Kind::StateFrom as usize { i } else { i + 1 }];
            i += 1;
        }
        kinds
    };

    pub fn family(self) -> Family {
        match self {
            Kind::PrepareBoot => Family::Boot,
            Kind::ReadState
            | Kind::StateGetState
            | Kind::StateMarkUpdated
            | Kind::StateMarkDfu
            | Kind::StateMarkBooted => Family::State,
            Kind::StateFrom => Family::Bytes,
            _ => Family::Updater,
        }
    }

    pub fn name(self) -> &'static str {
        match self {
            Kind::PrepareBoot => "eb_prepare_boot",
            Kind::ReadState => "eb_read_state",
            Kind::StateGetState => "eb_state_get_state",
            Kind::StateMarkUpdated => "eb_state_mark_updated",
            Kind::StateMarkDfu => "eb_state_mark_dfu",
            Kind::StateMarkBooted => "eb_state_mark_booted",
            Kind::UpdaterGetState => "eb_updater_get_state",
            Kind::UpdaterMarkUpdated => "eb_updater_mark_updated",
            Kind::UpdaterMarkDfu => "eb_updater_mark_dfu",
            Kind::UpdaterMarkBooted => "eb_updater_mark_booted",
            Kind::ReadDfu => "eb_updater_read_dfu",
            Kind::WriteFirmware => "eb_updater_write_firmware",
            Kind::PrepareUpdate => "eb_updater_prepare_update",
            Kind::StateFrom => "eb_state_from",
            Kind::CheckAndMarkUpdated => "eb_updater_check_and_mark_updated",
            Kind::Hash => "eb_updater_hash",
        }
    }

    /// Calls that write nothing take no budget.
    pub fn has_budget(self) -> bool {
        !matches!(
            self,
            Kind::ReadState
                | Kind::StateGetState
                | Kind::UpdaterGetState
                | Kind::ReadDfu
                | Kind::StateFrom
                | Kind::Hash
        )
    }
}

/// The seven numbers of document 01, and the erase value of request No. 11.
#[derive(Clone, Copy, PartialEq, Eq, Debug, Default)]
pub struct Geometry {
    pub ea: u32,
    pub wa: u32,
    pub ed: u32,
    pub wd: u32,
    pub es: u32,
    pub ws: u32,
    pub b: u32,
    pub ev: u32,
}

/// The erase values that are admitted, as numbers of the geometry.
pub const ONES: u32 = 255;
pub const ZEROS: u32 = 0;
pub const ERASE_VALUES: [u32; 2] = [ONES, ZEROS];

impl Geometry {
    /// P
    pub fn page(&self) -> usize {
        least_common(self.ea as usize, self.ed as usize)
    }

    /// The byte that an erase leaves. Only asked where the erase value is one of the two.
    pub fn erased(&self) -> u8 {
        self.ev as u8
    }

    /// The byte that marks and invalidation write.
    pub fn marked(&self) -> u8 {
        !self.erased()
    }
}

/// The least common multiple; 0 where a number is 0.
pub fn least_common(a: usize, b: usize) -> usize {
    let (mut x, mut y) = (a, b);
    while y != 0 {
        (x, y) = (y, x % y);
    }
    if x == 0 { 0 } else { a / x * b }
}

/// A call, apart from what it is lent.
#[derive(Clone, Copy, Debug)]
pub struct Call<'a> {
    pub kind: Kind,
    pub geometry: Geometry,
    pub budget: u32,
    pub offset: u64,
    pub data: &'a [u8],
    /// how many bytes of DFU are summed or hashed
    pub length: u64,
    /// the sum that they are to have
    pub crc: u32,
    /// the pieces in which they are hashed
    pub chunk: u64,
}

impl Call<'static> {
    /// A call with every other number 0 and no data.
    pub const fn of(kind: Kind, geometry: Geometry) -> Self {
        Call { kind, geometry, budget: 0, offset: 0, data: &[], length: 0, crc: 0, chunk: 0 }
    }
}

/// "None" for the updater's memory at the boundary.
pub const NO_SECTOR: u32 = u32::MAX;

/// What a call is lent and may change.
pub struct Lent<'a> {
    pub active: &'a mut [u8],
    pub dfu: &'a mut [u8],
    pub state: &'a mut [u8],
    pub out: &'a mut [u8],
    pub last: &'a mut u32,
}

/// Owned areas, output buffer and memory: the bench that a call is tried on.
#[derive(PartialEq, Eq, Default)]
pub struct Bench {
    pub active: Vec<u8>,
    pub dfu: Vec<u8>,
    pub state: Vec<u8>,
    pub out: Vec<u8>,
    pub last: u32,
}

impl Clone for Bench {
    fn clone(&self) -> Bench {
        let mut copy = Bench::default();
        copy.clone_from(self);
        copy
    }

    // kept by hand: the comparison copies benches millions of times and reuses the allocations
    fn clone_from(&mut self, other: &Bench) {
        self.active.clone_from(&other.active);
        self.dfu.clone_from(&other.dfu);
        self.state.clone_from(&other.state);
        self.out.clone_from(&other.out);
        self.last = other.last;
    }
}

impl Bench {
    pub fn lend(&mut self) -> Lent<'_> {
        Lent {
            active: &mut self.active,
            dfu: &mut self.dfu,
            state: &mut self.state,
            out: &mut self.out,
            last: &mut self.last,
        }
    }
}

/// Anything that answers calls: the library, the original, the model.
pub trait Answers {
    fn answer(&self, call: &Call, lent: Lent) -> u64;
}

/// The original, compiled for one row of sizes and one erase value. The text is compiled once for each value, and this is the one
/// face of both.
pub trait Original: Answers + Sync {
    /// Ea, Wa, Ed, Wd, Es, Ws
    fn numbers(&self) -> [u32; 6];

    /// The erase value that the text was compiled for.
    fn erase_value(&self) -> u32;

    /// Updater calls in a row on one updater, whose memory starts as `lent.last`; one result for each.
    fn chain(&self, calls: &[Call], lent: Lent) -> Vec<u64>;
}

/// The state of an answer that carries none.
pub const NO_STATE: u8 = 255;

pub const DONE: u8 = 0;
pub const BAD_STATE: u8 = 5;
pub const CUT: u8 = 7;
pub const CHECKSUM: u8 = 8;

/// number * 2^40 + state * 2^32 + operations
pub fn pack(number: u8, state: u8, operations: u32) -> u64 {
    (u64::from(number) << 40) | (u64::from(state) << 32) | u64::from(operations)
}

pub fn number_of(word: u64) -> u64 {
    word >> 40
}

pub fn operations_of(word: u64) -> u32 {
    word as u32
}

/// Hexadecimal with runs of equal bytes shortened, for the report of a difference.
pub struct Hex<'a>(pub &'a [u8]);

impl fmt::Display for Hex<'_> {
    fn fmt(&self, f: &mut fmt::Formatter) -> fmt::Result {
        if self.0.is_empty() {
            return write!(f, "-");
        }
        let mut at = 0;
        while at < self.0.len() {
            let byte = self.0[at];
            let run = self.0[at..].iter().take_while(|x| **x == byte).count();
            let space = if at == 0 { "" } else { " " };
            if run > 8 {
                write!(f, "{space}{byte:02x}*{run}")?;
                at += run;
            } else {
                write!(f, "{space}{byte:02x}")?;
                at += 1;
            }
        }
        Ok(())
    }
}

/// A result word in plain words.
pub struct Word(pub u64);

impl fmt::Display for Word {
    fn fmt(&self, f: &mut fmt::Formatter) -> fmt::Result {
        let state = (self.0 >> 32) as u8;
        write!(f, "number {} state {state} operations {}", number_of(self.0), operations_of(self.0))
    }
}

#[cfg(test)]
mod tests {
    use super::*;

    #[test]
    fn packing() {
        assert_eq!(pack(0, 1, 24), 0x01_0000_0018);
        assert_eq!(pack(CUT, NO_STATE, u32::MAX), 0x07_ff_ff_ff_ff_ff);
        assert_eq!(number_of(pack(7, 255, 3)), 7);
    }

    #[test]
    fn kinds_are_numbered_in_order() {
        for (i, kind) in Kind::ALL.iter().enumerate() {
            assert_eq!(*kind as usize, i);
        }
    }

    #[test]
    fn one_call_is_lent_no_area() {
        let other: Vec<&Kind> = Kind::ALL.iter().filter(|kind| !Kind::WITH_AREAS.contains(kind)).collect();
        assert_eq!(other, [&Kind::StateFrom]);
    }

    #[test]
    fn hex_shortens_runs() {
        assert_eq!(Hex(&[0xf0, 0xff, 0xff]).to_string(), "f0 ff ff");
        assert_eq!(Hex(&[0; 9]).to_string(), "00*9");
    }
}
