//! The blocking boot loader, firmware state and firmware updater of embassy-boot 0.7.0, over Rust's slices and enums. The work is
//! done by the proved library behind its C boundary; this crate only hands slices over and takes results apart, so that its users
//! need no `unsafe`.
//!
//! Flash is memory of the caller's: an erase sets bytes to FF, a write lets bits fall. Where the erase value is 0 (the crate's
//! switch `flash-erase-zero`) an erase sets bytes to 00, and a write lets bits rise. Each erased unit and each write is one
//! operation, and every call that changes flash takes a budget, the most operations that it may do, as if the power failed after
//! them; [`FOREVER`] is a budget that no call uses up. Nothing is asked of a caller: what doesn't fit is [refused](Refusal).
//!
//! An update, with a boot that is cut and one that is not:
//!
//! ```
//! use embassy_boot_rattle::{Answer, BootLoader, ERASES_TO_ONES, FOREVER, FirmwareUpdater, Geometry, State};
//!
//! let geometry = Geometry { ea: 4, wa: 2, ed: 4, wd: 2, es: 16, ws: 1, b: 2, ev: ERASES_TO_ONES };
//! let (mut active, mut dfu, mut state) = ([1; 12], [0; 16], [0xFF; 16]);
//!
//! let mut updater = FirmwareUpdater::new(geometry.sizes());
//! updater.write_firmware(&mut dfu, &state, 0, &[2; 12], FOREVER).result()?;
//! updater.mark_updated(&dfu, &mut state, FOREVER).result()?;
//!
//! let loader = BootLoader::new(geometry);
//! assert_eq!(loader.prepare_boot(&mut active, &mut dfu, &mut state, 5), Answer::Cut(5));
//! assert_eq!(loader.prepare_boot(&mut active, &mut dfu, &mut state, FOREVER), Answer::Found(State::Swap, 20));
//! assert_eq!(active, [2; 12]);
//!
//! // the new firmware runs and confirms itself; else the next boot would take it back
//! updater.mark_booted(&dfu, &mut state, FOREVER).result()?;
//! # Ok::<(), embassy_boot_rattle::Stopped>(())
//! ```
#![no_std]
#![warn(missing_docs)]

use core::error::Error;
use core::fmt;

#[macro_use]
mod table;

pub mod boundary;

/// The largest budget. No call wants more operations.
pub const FOREVER: u32 = u32::MAX;

/// The erase value of flash that erases to FF, as most does: a write leaves old AND new, a mark is 00.
pub const ERASES_TO_ONES: u32 = 255;

/// The erase value of flash that erases to 00, for which the crate has the switch `flash-erase-zero`: a write leaves old OR new, a
/// mark is FF.
pub const ERASES_TO_ZEROS: u32 = 0;

/// What the state area says is to be done.
#[derive(Clone, Copy, PartialEq, Eq, Debug)]
pub enum State {
    /// Nothing. Any word that is none of the other three magics reads so.
    Boot,
    /// An update is marked, or it is swapped in and not confirmed yet.
    Swap,
    /// A boot took an update back.
    Revert,
    /// The application asked for an update over USB.
    DfuDetach,
}

/// Why a call says no. It has changed no area, no output and no memory of an updater then. Where several hold, the first is given.
///
/// P, the page, is the least common multiple of `ea` and `ed`, the larger where one divides the other; N is the number of pages in
/// active, T the number of words in the state area.
#[derive(Clone, Copy, PartialEq, Eq, Debug)]
pub enum Refusal {
    /// 1: a size that the call reads is 0 or above 65,536, or the erase value is neither 255 nor 0, or a flash area that it is lent is
    /// longer than 16,777,216 bytes.
    Limit,
    /// 2: in a boot, P is above 1,048,576 or no multiple of one of `wa`, `wd` and `b`, or `b` is no multiple of `wa` or of `wd`, or `b` is
    /// below `ws` (the chunk's buffer is the one that a state word goes through in the original). In the updater, `ed` is no
    /// multiple of `wd`.
    Page,
    /// 3: in a boot, active or DFU is no whole number of pages, or DFU isn't at least a page longer than active. In the updater, DFU
    /// is no whole number of its erase units.
    Area,
    /// 4: `es` is no multiple of `ws`, or the state area is no whole number of its erase units, or it has too few words: a boot wants
    /// T ≥ 4N + 3, every other call T ≥ 2.
    StateArea,
    /// 5: a swap is pending, that is, the state reads [`State::Swap`]: from mark_updated on until the new firmware is confirmed or
    /// taken back. Only the updater's mark_dfu, write_firmware, prepare_update and check_and_mark_updated ask.
    BadState,
    /// 6: read_dfu asks for bytes past DFU's end, or check_and_mark_updated for the sum of such, or hash for their digest; or hash is
    /// given a chunk of 0 or an output that isn't 64 bytes long. Or write_firmware's data, where it isn't empty, ends past DFU's
    /// end, or its offset or length is no multiple of `wd`.
    Range,
    /// 8, asked last: in check_and_mark_updated the bytes have another sum.
    Checksum,
}

/// The answer of a call.
#[must_use = "a call may have been refused or cut"]
#[derive(Clone, Copy, PartialEq, Eq, Debug)]
pub enum Answer {
    /// Done: the state that was read at entry, and the operations done. From `prepare_boot`, `read_state` and `get_state`.
    Found(State, u32),
    /// Done: the operations done. From every other call.
    Done(u32),
    /// Refused: nothing was changed.
    Refused(Refusal),
    /// The budget was used up and one more operation was wanted: precisely so many operations are in the flash.
    Cut(u32),
}

/// What a call tells that ran to its end.
#[derive(Clone, Copy, PartialEq, Eq, Debug)]
pub struct Finished {
    /// The state that was read at entry, where the call carries one.
    pub state: Option<State>,
    /// The operations done.
    pub operations: u32,
}

/// Why a call didn't run to its end.
#[derive(Clone, Copy, PartialEq, Eq, Debug)]
pub enum Stopped {
    /// Refused: nothing was changed.
    Refused(Refusal),
    /// Cut: precisely so many operations are in the flash.
    Cut(u32),
}

impl Answer {
    /// The answer as a `Result`, for `?`.
    ///
    /// ```
    /// use embassy_boot_rattle::{Answer, Finished, Refusal, State, Stopped};
    ///
    /// assert_eq!(Answer::Found(State::Swap, 24).result(), Ok(Finished { state: Some(State::Swap), operations: 24 }));
    /// assert_eq!(Answer::Cut(7).result(), Err(Stopped::Cut(7)));
    /// let no = Answer::Refused(Refusal::Page).result().unwrap_err();
    /// assert_eq!(no.to_string(), "refused with 2: the sizes don't fit a page");
    /// ```
    pub const fn result(self) -> Result<Finished, Stopped> {
        match self {
            Answer::Found(state, operations) => Ok(Finished { state: Some(state), operations }),
            Answer::Done(operations) => Ok(Finished { state: None, operations }),
            Answer::Refused(refusal) => Err(Stopped::Refused(refusal)),
            Answer::Cut(operations) => Err(Stopped::Cut(operations)),
        }
    }
}

impl From<Answer> for Result<Finished, Stopped> {
    fn from(answer: Answer) -> Self {
        answer.result()
    }
}

impl Refusal {
    /// Its number in the table of refusals, 1 to 6 and 8.
    pub const fn number(self) -> u32 {
        match self {
            Refusal::Limit => 1,
            Refusal::Page => 2,
            Refusal::Area => 3,
            Refusal::StateArea => 4,
            Refusal::BadState => 5,
            Refusal::Range => 6,
            Refusal::Checksum => 8,
        }
    }
}

impl fmt::Display for State {
    fn fmt(&self, f: &mut fmt::Formatter) -> fmt::Result {
        fmt::Debug::fmt(self, f)
    }
}

impl fmt::Display for Refusal {
    fn fmt(&self, f: &mut fmt::Formatter) -> fmt::Result {
        let why = match self {
            Refusal::Limit => {
                "a size is 0 or above 65,536, or the erase value is neither 255 nor 0, or an area is longer than 16,777,216 bytes"
            }
            Refusal::Page => "the sizes don't fit a page",
            Refusal::Area => "an image is no whole number of pages, or DFU isn't a page longer than active",
            Refusal::StateArea => "the state area is no whole number of erase units, or has too few words",
            Refusal::BadState => "a swap is pending",
            Refusal::Range => {
                "the bytes asked for aren't in DFU, or not on its write units, or a digest's chunk or output doesn't serve"
            }
            Refusal::Checksum => "the bytes have another sum",
        };
        write!(f, "refused with {}: {why}", self.number())
    }
}

impl fmt::Display for Stopped {
    fn fmt(&self, f: &mut fmt::Formatter) -> fmt::Result {
        match self {
            Stopped::Refused(refusal) => refusal.fmt(f),
            Stopped::Cut(operations) => write!(f, "cut after {operations} operations"),
        }
    }
}

impl fmt::Display for Answer {
    fn fmt(&self, f: &mut fmt::Formatter) -> fmt::Result {
        match self {
            Answer::Found(state, operations) => write!(f, "done, found {state}, {operations} operations"),
            Answer::Done(operations) => write!(f, "done, {operations} operations"),
            Answer::Refused(refusal) => refusal.fmt(f),
            Answer::Cut(operations) => Stopped::Cut(*operations).fmt(f),
        }
    }
}

impl Error for Refusal {}
impl Error for Stopped {}

/// The sizes of the three areas, and the chunk in which a page is copied, in bytes; and the value that the flash erases to. Which
/// sizes go together is said at [`Refusal::Page`] and [`Refusal::StateArea`].
#[derive(Clone, Copy, PartialEq, Eq, Debug)]
pub struct Geometry {
    /// Active: the erase size, `ACTIVE::ERASE_SIZE` of the original.
    pub ea: u32,
    /// Active: the write size, `ACTIVE::WRITE_SIZE`.
    pub wa: u32,
    /// DFU: the erase size, `DFU::ERASE_SIZE`; so many bytes are a sector.
    pub ed: u32,
    /// DFU: the write size, `DFU::WRITE_SIZE`.
    pub wd: u32,
    /// State area: the erase size, `STATE::ERASE_SIZE`.
    pub es: u32,
    /// State area: the write size, `STATE::WRITE_SIZE`; so many bytes are a word.
    pub ws: u32,
    /// The chunk in which a page is copied, the length of the original's `aligned_buf`.
    pub b: u32,
    /// The erase value of all three areas, [`ERASES_TO_ONES`] or [`ERASES_TO_ZEROS`]; any other number is refused.
    pub ev: u32,
}

impl Geometry {
    /// What the updater reads of it.
    pub const fn sizes(self) -> Sizes {
        Sizes { ed: self.ed, wd: self.wd, es: self.es, ws: self.ws, ev: self.ev }
    }

    /// The state area of this geometry.
    pub const fn firmware_state(self) -> FirmwareState {
        FirmwareState { es: self.es, ws: self.ws, ev: self.ev }
    }
}

fn state_of(number: u32) -> Option<State> {
    Some(match number {
        0 => State::Boot,
        1 => State::Swap,
        2 => State::Revert,
        3 => State::DfuDetach,
        _ => return None,
    })
}

/// A packed result: the number above 40 bits, the state in the 8 below, the operations in 32.
fn answer(result: u64) -> Answer {
    let count = result as u32;
    match result >> 40 {
        0 => match state_of((result >> 32) as u32 & 0xFF) {
            Some(state) => Answer::Found(state, count),
            None => Answer::Done(count),
        },
        1 => Answer::Refused(Refusal::Limit),
        2 => Answer::Refused(Refusal::Page),
        3 => Answer::Refused(Refusal::Area),
        4 => Answer::Refused(Refusal::StateArea),
        5 => Answer::Refused(Refusal::BadState),
        6 => Answer::Refused(Refusal::Range),
        7 => Answer::Cut(count),
        8 => Answer::Refused(Refusal::Checksum),
        number => unreachable!("the library has no number {number}"),
    }
}

impl State {
    /// The state that a word of these bytes stands for: it must hold the magic's byte throughout. No bytes at all read Swap.
    ///
    /// ```
    /// use embassy_boot_rattle::State;
    ///
    /// assert_eq!(State::from_bytes(&[0xF0, 0xF0]), State::Swap);
    /// assert_eq!(State::from_bytes(&[0xF0, 0xFF]), State::Boot);
    /// ```
    pub fn from_bytes(bytes: &[u8]) -> State {
        let number = boundary::eb_state_from(bytes);
        state_of(number).unwrap_or_else(|| unreachable!("the library has no state {number}"))
    }
}

/// The boot loader.
#[derive(Clone, Copy, PartialEq, Eq, Debug)]
pub struct BootLoader(
    /// The sizes; they are judged at each call.
    pub Geometry,
);

impl BootLoader {
    /// A boot loader for areas of these sizes. It is refused nothing yet.
    pub const fn new(geometry: Geometry) -> Self {
        BootLoader(geometry)
    }

    /// To be called at each start, before the active image is run; and after a cut again, before anything is run, for active may
    /// be half old and half new then. Swaps the images if an update is marked, goes on with a swap that was cut, undoes a swap
    /// that nobody confirmed, or finishes a confirmation that was cut; with another state than Swap it does nothing. Answers the
    /// state read at entry, so Swap after a revert too.
    ///
    /// Refusals: [`Limit`](Refusal::Limit), [`Page`](Refusal::Page), [`Area`](Refusal::Area), [`StateArea`](Refusal::StateArea).
    ///
    /// ```
    /// use embassy_boot_rattle::{Answer, BootLoader, ERASES_TO_ONES, FOREVER, Geometry, Refusal};
    ///
    /// // chunks of one byte, and state words of two: no buffer holds a word
    /// let geometry = Geometry { ea: 4, wa: 1, ed: 4, wd: 1, es: 16, ws: 2, b: 1, ev: ERASES_TO_ONES };
    /// let loader = BootLoader::new(geometry);
    /// let answer = loader.prepare_boot(&mut [1; 4], &mut [2; 8], &mut [0xFF; 16], FOREVER);
    /// assert_eq!(answer, Answer::Refused(Refusal::Page));
    /// ```
    pub fn prepare_boot(self, active: &mut [u8], dfu: &mut [u8], state: &mut [u8], budget: u32) -> Answer {
        answer(boundary::eb_prepare_boot(active, dfu, state, self.0, budget))
    }

    /// The state that the state area holds. Refusals: [`Limit`](Refusal::Limit), [`StateArea`](Refusal::StateArea).
    pub fn read_state(self, state: &[u8]) -> Answer {
        answer(boundary::eb_read_state(state, self.0.firmware_state()))
    }
}

/// The state area as the application sees it.
///
/// A mark does nothing, with 0 operations, where the area has that magic already. Else it makes the progress invalid (one write, left
/// out where it is invalid already), erases the area, an operation a unit, and writes the magic. Cut, it is made by calling again.
/// Refusals of each call: [`Limit`](Refusal::Limit), [`StateArea`](Refusal::StateArea).
#[derive(Clone, Copy, PartialEq, Eq, Debug)]
pub struct FirmwareState {
    /// The erase size, `STATE::ERASE_SIZE` of the original.
    pub es: u32,
    /// The write size, `STATE::WRITE_SIZE`; so many bytes are a word.
    pub ws: u32,
    /// The erase value, as in [`Geometry`].
    pub ev: u32,
}

impl FirmwareState {
    /// The state that the state area holds.
    pub fn get_state(self, state: &[u8]) -> Answer {
        answer(boundary::eb_state_get_state(state, self))
    }

    /// The next boot swaps the images. On a device whose swap is done and not confirmed the state is Swap already: there this does
    /// nothing, and the next boot takes the swap back. Confirm first.
    pub fn mark_updated(self, state: &mut [u8], budget: u32) -> Answer {
        answer(boundary::eb_state_mark_updated(state, self, budget))
    }

    /// The next boot answers [`State::DfuDetach`] and leaves the rest to the caller. A swap that is pending is forgotten; the
    /// updater's call of this name refuses instead.
    pub fn mark_dfu(self, state: &mut [u8], budget: u32) -> Answer {
        answer(boundary::eb_state_mark_dfu(state, self, budget))
    }

    /// The next boot doesn't undo the swap. Only firmware that was started after a boot that was done may say so: said from
    /// outside after a boot that was cut, it can keep a mixture of both images.
    pub fn mark_booted(self, state: &mut [u8], budget: u32) -> Answer {
        answer(boundary::eb_state_mark_booted(state, self, budget))
    }
}

/// The sizes that the updater reads, in bytes, and the erase value.
#[derive(Clone, Copy, PartialEq, Eq, Debug)]
pub struct Sizes {
    /// DFU: the erase size, a sector.
    pub ed: u32,
    /// DFU: the write size.
    pub wd: u32,
    /// State area: the erase size.
    pub es: u32,
    /// State area: the write size, a word.
    pub ws: u32,
    /// The erase value of both areas, as in [`Geometry`].
    pub ev: u32,
}

/// The application's side of an update. It remembers the sector that it erased last: take a new one for each update.
///
/// Refusals of each call: [`Limit`](Refusal::Limit), [`Page`](Refusal::Page), [`Area`](Refusal::Area),
/// [`StateArea`](Refusal::StateArea), and what is said with it.
///
/// ```
/// use embassy_boot_rattle::{Answer, ERASES_TO_ONES, FOREVER, FirmwareUpdater, Refusal, Sizes};
///
/// let mut updater = FirmwareUpdater::new(Sizes { ed: 4, wd: 2, es: 16, ws: 1, ev: ERASES_TO_ONES });
/// let (mut dfu, mut state) = ([0; 16], [0xFF; 16]);
/// // two sectors erased, two pieces written
/// assert_eq!(updater.write_firmware(&mut dfu, &state, 2, &[1, 2, 3, 4], FOREVER), Answer::Done(4));
/// assert_eq!(updater.last_erased(), Some(1));
/// updater.mark_updated(&dfu, &mut state, FOREVER).result()?;
/// // until the swap is confirmed or taken back
/// let answer = updater.write_firmware(&mut dfu, &state, 0, &[1, 2], FOREVER);
/// assert_eq!(answer, Answer::Refused(Refusal::BadState));
/// # Ok::<(), embassy_boot_rattle::Stopped>(())
/// ```
#[derive(Clone, PartialEq, Eq, Debug)]
pub struct FirmwareUpdater {
    sizes: Sizes,
    last: u32,
}

impl FirmwareUpdater {
    /// An updater for areas of these sizes that has erased no sector yet.
    pub const fn new(sizes: Sizes) -> Self {
        FirmwareUpdater { sizes, last: boundary::NO_SECTOR }
    }

    /// The sector of DFU that was erased last, if one was.
    pub fn last_erased(&self) -> Option<u32> {
        (self.last != boundary::NO_SECTOR).then_some(self.last)
    }

    /// The state that the state area holds.
    pub fn get_state(&self, dfu: &[u8], state: &[u8]) -> Answer {
        answer(boundary::eb_updater_get_state(dfu, state, self.sizes))
    }

    /// As [`FirmwareState::mark_updated`].
    pub fn mark_updated(&self, dfu: &[u8], state: &mut [u8], budget: u32) -> Answer {
        answer(boundary::eb_updater_mark_updated(dfu, state, self.sizes, budget))
    }

    /// As [`FirmwareState::mark_dfu`], but [refused](Refusal::BadState) while a swap is pending.
    pub fn mark_dfu(&self, dfu: &[u8], state: &mut [u8], budget: u32) -> Answer {
        answer(boundary::eb_updater_mark_dfu(dfu, state, self.sizes, budget))
    }

    /// As [`FirmwareState::mark_booted`].
    pub fn mark_booted(&self, dfu: &[u8], state: &mut [u8], budget: u32) -> Answer {
        answer(boundary::eb_updater_mark_booted(dfu, state, self.sizes, budget))
    }

    /// [`mark_updated`](Self::mark_updated), if the first `length` bytes of DFU have this CRC-32: the reflected one of IEEE 802.3, which
    /// zlib has too; of no bytes it is 0. [Refused](Refusal::BadState) while a swap is pending, where DFU is
    /// [shorter](Refusal::Range), and for [another sum](Refusal::Checksum).
    ///
    /// ```
    /// use embassy_boot_rattle::{Answer, ERASES_TO_ONES, FOREVER, FirmwareUpdater, Refusal, Sizes};
    ///
    /// let updater = FirmwareUpdater::new(Sizes { ed: 4, wd: 2, es: 16, ws: 1, ev: ERASES_TO_ONES });
    /// let (dfu, mut state) = (*b"123456789...", [0xFF; 16]);
    /// let other = updater.check_and_mark_updated(&dfu, &mut state, 8, 0xCBF4_3926, FOREVER);
    /// assert_eq!(other, Answer::Refused(Refusal::Checksum));
    /// assert_eq!(updater.check_and_mark_updated(&dfu, &mut state, 9, 0xCBF4_3926, FOREVER), Answer::Done(3));
    /// ```
    pub fn check_and_mark_updated(
        &self,
        dfu: &[u8],
        state: &mut [u8],
        length: u64,
        crc: u32,
        budget: u32,
    ) -> Answer {
        answer(boundary::eb_updater_check_and_mark_updated(dfu, state, self.sizes, length, crc, budget))
    }

    /// Fills `out` with the bytes of DFU from an offset on. [Refused](Refusal::Range) where they run past its end; `out` is as it
    /// was then.
    pub fn read_dfu(&self, dfu: &[u8], state: &[u8], offset: u32, out: &mut [u8]) -> Answer {
        answer(boundary::eb_updater_read_dfu(dfu, state, self.sizes, offset, out))
    }

    /// Sets `out`, which must be 64 bytes long, to the SHA-512 (FIPS 180-4) of the first `length` bytes of DFU. They are read in pieces
    /// of `chunk` bytes, the last one shorter; the digest is the same for every chunk but 0. The state isn't asked.
    /// [Refused](Refusal::Range) where DFU is shorter, or the chunk is 0, or `out` has another length; it is as it was then.
    pub fn hash(&self, dfu: &[u8], state: &[u8], length: u64, chunk: u64, out: &mut [u8]) -> Answer {
        answer(boundary::eb_updater_hash(dfu, state, self.sizes, length, chunk, out))
    }

    /// Writes data at an offset of DFU, in pieces up to each sector's end: the sector is erased unless it is the one last erased,
    /// then the piece is written, an operation each. To go back to an earlier sector erases that again, with what was written
    /// there. [Refused](Refusal::BadState) while a swap is pending, and where the bytes [don't fit](Refusal::Range); empty data
    /// always fits.
    pub fn write_firmware(
        &mut self,
        dfu: &mut [u8],
        state: &[u8],
        offset: u64,
        data: &[u8],
        budget: u32,
    ) -> Answer {
        answer(boundary::eb_updater_write_firmware(
            dfu,
            state,
            self.sizes,
            offset,
            data,
            &mut self.last,
            budget,
        ))
    }

    /// Erases all of DFU, unit by unit, an operation each. [Refused](Refusal::BadState) while a swap is pending. What was erased
    /// last stays remembered, as in the original.
    pub fn prepare_update(&self, dfu: &mut [u8], state: &[u8], budget: u32) -> Answer {
        answer(boundary::eb_updater_prepare_update(dfu, state, self.sizes, budget))
    }
}
