//! Stands for a file of the crate that isn't at hand: the names that the crate root passes on. No behaviour.

pub struct FirmwareState;
pub struct FirmwareUpdater;
