//! A stand-in for the library: the C boundary over `model`, as libembassy_boot.a. It is for testing the
//! comparison. STANDIN_WRONG in the environment of the program that links it names a way to err.

use std::env;
use std::slice;
use std::sync::OnceLock;

use call::{Answers, Call, Geometry, Kind, Lent, NO_SECTOR};
use model::{Model, Wrong};

// the wrapper's table itself, so that what is exported here is what is declared there; the wrapper can't be a
// dependency, for it links what is made here
#[macro_use]
#[path = "../../../rust/src/table.rs"]
mod table;

fn model() -> &'static Model {
    static MODEL: OnceLock<Model> = OnceLock::new();
    MODEL.get_or_init(|| {
        let wrong = match env::var("STANDIN_WRONG") {
            Err(_) => Wrong::Nothing,
            Ok(name) => Wrong::named(&name).unwrap_or_else(|| panic!("no way to err is called {name}")),
        };
        Model { wrong }
    })
}

/// Bytes that came over the boundary.
enum Bytes<'a> {
    /// to be read only; the model is lent a copy
    Copied(Vec<u8>),
    Lent(&'a mut [u8]),
}

impl Bytes<'_> {
    /// # Safety
    /// As for a slice: `at` points to `length` bytes.
    unsafe fn copied(at: *const u8, length: usize) -> Self {
        Bytes::Copied(if length == 0 {
            Vec::new()
        } else {
            unsafe { slice::from_raw_parts(at, length) }.to_vec()
        })
    }

    /// # Safety
    /// As for a mutable slice: `at` points to `length` bytes that live long enough and aren't shared.
    unsafe fn lent(at: *mut u8, length: usize) -> Self {
        Bytes::Lent(if length == 0 { &mut [] } else { unsafe { slice::from_raw_parts_mut(at, length) } })
    }

    fn lend(&mut self) -> &mut [u8] {
        match self {
            Bytes::Copied(bytes) => bytes,
            Bytes::Lent(bytes) => bytes,
        }
    }
}

impl Default for Bytes<'_> {
    fn default() -> Self {
        Bytes::Copied(Vec::new())
    }
}

/// All that a call may bring, under the names of the boundary's parameters; what it doesn't bring is empty or 0.
#[derive(Default)]
struct Brought<'a> {
    active: Bytes<'a>,
    dfu: Bytes<'a>,
    state: Bytes<'a>,
    sizes: Geometry,
    offset: u64,
    out: Bytes<'a>,
    data: Bytes<'a>,
    last: Option<&'a mut u32>,
    length: u64,
    crc: u32,
    chunk: u64,
    budget: u32,
    /// in the data's place
    bytes: Bytes<'a>,
}

impl Brought<'_> {
    /// The model's answer to the call of this name.
    fn answer(mut self, name: &str) -> u64 {
        let kind = *Kind::ALL.iter().find(|kind| kind.name() == name).expect("a call of this name");
        let data = if kind == Kind::StateFrom { self.bytes.lend() } else { self.data.lend() };
        let call = Call {
            budget: self.budget,
            offset: self.offset,
            data,
            length: self.length,
            crc: self.crc,
            chunk: self.chunk,
            ..Call::of(kind, self.sizes)
        };
        let mut none = NO_SECTOR;
        let lent = Lent {
            active: self.active.lend(),
            dfu: self.dfu.lend(),
            state: self.state.lend(),
            out: self.out.lend(),
            last: self.last.unwrap_or(&mut none),
        };
        model().answer(&call, lent)
    }
}

/// A function of the table, exported: what each parameter brings goes to the place of its name.
macro_rules! export {
    ($name:ident($($p:ident
        $(: &[$r:ident; $r_length:ident])? $(: &mut [$c:ident; $c_length:ident])? $(: &mut $m:ident)? $(: $n:ident)?
        $({ $($size:ident),* })?
    ),*) -> $result:ident) => {
        /// # Safety
        /// Each pointer with its length is a slice, a pointer without one points to a number.
        #[unsafe(no_mangle)]
        pub unsafe extern "C" fn $name($(
            $($p: *const $r, $r_length: usize)? $($p: *mut $c, $c_length: usize)? $($p: *mut $m)? $($p: $n)?
            $($($size: u32),*)?
        ),*) -> $result {
            let mut brought = Brought::default();
            $(
                $(brought.$p = unsafe { Bytes::copied($p, $r_length) };)?
                $(brought.$p = unsafe { Bytes::lent($p, $c_length) };)?
                $(brought.$p = Some(unsafe { &mut *($p as *mut $m) });)?
                $(brought.$p = <$n>::into($p);)?
                $($(brought.sizes.$size = $size;)*)?
            )*
            brought.answer(stringify!($name)) as $result
        }
    };
}

boundary!(export);
