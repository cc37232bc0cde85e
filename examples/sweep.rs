//! An update of a 256 KiB image whose boot is cut after each of its operations: the next boot always makes the update whole. Once on
//! flash that erases to FF, once on flash that erases to 00.
//!
//!     cd rust && cargo run --release --example sweep

use embassy_boot_rattle::{
    Answer, BootLoader, ERASES_TO_ONES, ERASES_TO_ZEROS, FOREVER, FirmwareUpdater, Geometry, State, Stopped,
};

const PAGE: usize = 4096;
const IMAGE: usize = 64 * PAGE;

#[derive(Clone, Copy)]
struct Flash {
    active: [u8; IMAGE],
    dfu: [u8; IMAGE + PAGE],
    state: [u8; PAGE],
}

impl Flash {
    fn boot(&mut self, loader: BootLoader, budget: u32) -> Answer {
        loader.prepare_boot(&mut self.active, &mut self.dfu, &mut self.state, budget)
    }
}

fn sweep(ev: u32) -> Result<(), Stopped> {
    let geometry = Geometry { ea: 4096, wa: 8, ed: 4096, wd: 8, es: 4096, ws: 8, b: 256, ev };
    let image = |factor: usize| std::array::from_fn(|i| (i * factor + i / PAGE) as u8);
    let (old, new): ([u8; IMAGE], [u8; IMAGE]) = (image(7), image(13));
    let mut marked = Flash { active: old, dfu: [0; IMAGE + PAGE], state: [ev as u8; PAGE] };
    let mut updater = FirmwareUpdater::new(geometry.sizes());
    updater.write_firmware(&mut marked.dfu, &marked.state, 0, &new, FOREVER).result()?;
    updater.mark_updated(&marked.dfu, &mut marked.state, FOREVER).result()?;

    let loader = BootLoader::new(geometry);
    let (mut now, mut cuts) = (marked, 0);
    while now.boot(loader, cuts) == Answer::Cut(cuts) {
        let next = now.boot(loader, FOREVER).result()?; // the power is back
        assert_eq!(next.state, Some(State::Swap));
        assert!(now.active == new, "active is not the new image, after a cut at {cuts}");
        assert!(now.dfu[PAGE..] == old, "the old image is not in DFU, after a cut at {cuts}");
        (now, cuts) = (marked, cuts + 1);
    }
    assert_eq!(marked.boot(loader, FOREVER), Answer::Found(State::Swap, cuts));
    println!("erased to {ev:02X}: {cuts} cuts, and after each the next boot left the new image whole");
    Ok(())
}

fn main() -> Result<(), Stopped> {
    sweep(ERASES_TO_ONES)?;
    sweep(ERASES_TO_ZEROS)
}
