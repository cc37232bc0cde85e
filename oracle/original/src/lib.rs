//! embassy-boot's own text, compiled from where it lies, over the altered flash.
//!
//! The text itself comes in through the build script. Beside it stand the altered flash of document 01
//! (`mem_flash`) and the table of sizes for which the text is instantiated (`sizes`).
//!
//! This folder is compiled as two packages: `original`, for flash that erases to FF, and `original_zero`, with the
//! text's own switch `flash-erase-zero` on. Both are asked through `call::Original`.
// the text is taken as it is
#![allow(dead_code, unused_imports, unused_macros, clippy::all)]

include!(concat!(env!("OUT_DIR"), "/embassy_boot.rs"));

/// The crate's own test flash with the write altered, made by the build script; for the benchmark.
pub mod crate_mem_flash {
    include!(concat!(env!("OUT_DIR"), "/crate_mem_flash.rs"));
}

pub mod mem_flash;
pub mod sizes;

pub use sizes::TABLE;

/// The erase value that the text was compiled for, as a number of the geometry.
pub const ERASE_VALUE: u32 = STATE_ERASE_VALUE as u32;

/// The folder whose text was compiled.
pub const SOURCE: &str = env!("EMBASSY_BOOT_SRC_FOUND");

#[cfg(test)]
mod tests {
    use super::*;
    use std::fs;
    use std::path::Path;

    #[test]
    fn the_magics_are_the_paper_s() {
        assert_eq!([BOOT_MAGIC, SWAP_MAGIC, REVERT_MAGIC, DFU_DETACH_MAGIC], [0xD0, 0xF0, 0xC0, 0xE0]);
        assert_eq!(STATE_ERASE_VALUE, if cfg!(feature = "flash-erase-zero") { 0x00 } else { 0xFF });
        assert!(State::from([]) == State::Swap);
    }

    /// What was compiled for lib.rs is its text but for attributes, crate comments and module lines.
    #[test]
    fn the_root_is_the_text() {
        let source = fs::read_to_string(Path::new(SOURCE).join("lib.rs")).unwrap();
        let compiled = include_str!(concat!(env!("OUT_DIR"), "/embassy_boot.rs"));
        assert_eq!(source.lines().count(), compiled.lines().count());
        for (line, ours) in source.lines().zip(compiled.lines()) {
            let set_aside =
                ["#![", "//!", "#[cfg(test)]", "mod "].iter().any(|start| line.starts_with(start));
            assert!(line == ours || set_aside, "{line}");
        }
    }
}
