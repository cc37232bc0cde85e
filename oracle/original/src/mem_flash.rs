//! The flash of document 01: the crate's test flash, altered.
//!
//! A write leaves old AND new and doesn't ask for erased bytes; erases count as well as writes, each erase unit
//! by itself, in rising order; one budget is shared by all areas. An operation wanted when the budget is used up is an error and changes nothing. The
//! range assertions stay. The area is a lent slice, so that only erase and write size are constants.
//!
//! Erase and write follow the erase value that the text was compiled for: at 0 a write leaves old OR new.

use std::cell::Cell;

use embedded_storage::nor_flash::{ErrorType, NorFlash, NorFlashError, NorFlashErrorKind, ReadNorFlash};

use crate::STATE_ERASE_VALUE;

/// What a write leaves of a byte: bits only go away from the erase value.
#[inline(always)]
pub fn written(old: u8, new: u8) -> u8 {
    match STATE_ERASE_VALUE {
        0x00 => old | new,
        _ => old & new,
    }
}

/// What the flash does with operations.
#[derive(Clone, Copy, PartialEq, Eq, Debug)]
pub enum Mode {
    /// carries them out, as long as the budget lasts
    Run,
    /// says that all went well and changes nothing; reads give FF. Brings an updater's memory to a value.
    Accept,
    /// refuses the first and remembers its kind; reads give FF. Finds out an updater's memory.
    Refuse,
}

#[derive(Clone, Copy, PartialEq, Eq, Debug)]
pub enum Operation {
    Erase,
    Write,
}

/// The supply that the areas share.
pub struct Supply {
    pub left: Cell<u32>,
    pub mode: Cell<Mode>,
    pub refused: Cell<Option<Operation>>,
}

impl Supply {
    pub fn new(budget: u32) -> Supply {
        Supply { left: Cell::new(budget), mode: Cell::new(Mode::Run), refused: Cell::new(None) }
    }

    /// Takes one operation from the budget.
    fn take(&self, operation: Operation) -> Result<(), MemFlashError> {
        match self.left.get() {
            0 => self.refuse(operation),
            left => {
                self.left.set(left - 1);
                Ok(())
            }
        }
    }

    fn refuse(&self, operation: Operation) -> Result<(), MemFlashError> {
        self.refused.set(Some(operation));
        Err(MemFlashError)
    }

    /// The answer of a flash that isn't running; None if it is.
    fn pretend(&self, operation: Operation) -> Option<Result<(), MemFlashError>> {
        match self.mode.get() {
            Mode::Run => None,
            Mode::Accept => Some(Ok(())),
            Mode::Refuse => Some(self.refuse(operation)),
        }
    }
}

#[derive(Debug)]
pub struct MemFlashError;

impl NorFlashError for MemFlashError {
    fn kind(&self) -> NorFlashErrorKind {
        NorFlashErrorKind::Other
    }
}

pub struct MemFlash<'a, const ERASE: usize, const WRITE: usize> {
    mem: &'a mut [u8],
    supply: &'a Supply,
}

impl<'a, const ERASE: usize, const WRITE: usize> MemFlash<'a, ERASE, WRITE> {
    pub fn new(mem: &'a mut [u8], supply: &'a Supply) -> Self {
        MemFlash { mem, supply }
    }

    pub fn supply(&self) -> &'a Supply {
        self.supply
    }

    pub fn length(&self) -> usize {
        self.mem.len()
    }
}

impl<const ERASE: usize, const WRITE: usize> ErrorType for MemFlash<'_, ERASE, WRITE> {
    type Error = MemFlashError;
}

impl<const ERASE: usize, const WRITE: usize> ReadNorFlash for MemFlash<'_, ERASE, WRITE> {
    const READ_SIZE: usize = 1;

    fn read(&mut self, offset: u32, bytes: &mut [u8]) -> Result<(), MemFlashError> {
        if self.supply.mode.get() != Mode::Run {
            bytes.fill(0xFF);
            return Ok(());
        }
        let at = offset as usize;
        bytes.copy_from_slice(&self.mem[at..at + bytes.len()]);
        Ok(())
    }

    fn capacity(&self) -> usize {
        self.mem.len()
    }
}

impl<const ERASE: usize, const WRITE: usize> NorFlash for MemFlash<'_, ERASE, WRITE> {
    const WRITE_SIZE: usize = WRITE;
    const ERASE_SIZE: usize = ERASE;

    fn write(&mut self, offset: u32, bytes: &[u8]) -> Result<(), MemFlashError> {
        if let Some(answer) = self.supply.pretend(Operation::Write) {
            return answer;
        }
        let at = offset as usize;
        assert!(bytes.len().is_multiple_of(WRITE), "write of {} bytes, write size {WRITE}", bytes.len());
        assert!(at.is_multiple_of(WRITE), "write at {at}, write size {WRITE}");
        assert!(at + bytes.len() <= self.mem.len(), "write past the end");
        self.supply.take(Operation::Write)?;
        for (old, new) in self.mem[at..at + bytes.len()].iter_mut().zip(bytes) {
            *old = written(*old, *new);
        }
        Ok(())
    }

    fn erase(&mut self, from: u32, to: u32) -> Result<(), MemFlashError> {
        if let Some(answer) = self.supply.pretend(Operation::Erase) {
            return answer;
        }
        let (from, to) = (from as usize, to as usize);
        assert!(from.is_multiple_of(ERASE), "erase from {from}, erase size {ERASE}");
        assert!(to.is_multiple_of(ERASE), "erase to {to}, erase size {ERASE}");
        for unit in (from..to).step_by(ERASE) {
            self.supply.take(Operation::Erase)?;
            self.mem[unit..unit + ERASE].fill(STATE_ERASE_VALUE);
        }
        Ok(())
    }
}

#[cfg(test)]
mod tests {
    use super::*;

    const E: u8 = STATE_ERASE_VALUE;

    #[test]
    fn writes_only_leave_the_erase_value_and_both_kinds_count() {
        let supply = Supply::new(2);
        let mut mem = [0xF0, 0xFF, 0x0F, 0x00];
        let mut flash = MemFlash::<2, 1>::new(&mut mem, &supply);
        flash.write(0, &[0x33, 0x55]).unwrap();
        flash.erase(2, 4).unwrap();
        assert!(flash.write(0, &[!E]).is_err());
        assert!(flash.erase(0, 2).is_err());
        assert_eq!(supply.refused.get(), Some(Operation::Erase));
        let left =
            if cfg!(feature = "flash-erase-zero") { [0xF3, 0xFF, 0, 0] } else { [0x30, 0x55, 0xFF, 0xFF] };
        assert_eq!(mem, left);
    }

    #[test]
    fn two_areas_share_one_budget() {
        let supply = Supply::new(1);
        let (mut a, mut b) = ([E], [E]);
        let mut first = MemFlash::<1, 1>::new(&mut a, &supply);
        let mut second = MemFlash::<1, 1>::new(&mut b, &supply);
        first.write(0, &[1]).unwrap();
        assert!(second.write(0, &[1]).is_err());
        assert_eq!((a, b), ([1], [E]));
    }

    #[test]
    fn an_erase_of_nothing_does_not_count() {
        let supply = Supply::new(1);
        let mut mem = [];
        MemFlash::<4, 1>::new(&mut mem, &supply).erase(0, 0).unwrap();
        assert_eq!(supply.left.get(), 1);
    }

    #[test]
    fn each_unit_counts_in_rising_order() {
        let supply = Supply::new(2);
        let mut mem = [!E; 6];
        assert!(MemFlash::<2, 1>::new(&mut mem, &supply).erase(0, 6).is_err());
        assert_eq!(mem, [E, E, E, E, !E, !E]);
    }
}
