//! Streams in the LLVM bitstream container: safe calls over the C library. Begin with [`check`] and [`normal`].
//!
//! A program depends on this crate by its folder, in `Cargo.toml`, with the PREFIX of `make install`:
//!
//! ```toml
//! [dependencies]
//! bitstream = { path = "PREFIX/share/bitstream/rust" }
//! ```
//!
//! The archive `libbitstream.a` is linked in. It is in `PREFIX/lib`, or in the folder that the variable `BITSTREAM_LIBRARY` names, by
//! itself or by a file in it; a relative name begins in the folder of this crate's `Cargo.toml`. In the source tree that variable is
//! needed: `BITSTREAM_LIBRARY=../out cargo test`, after `make lib`. A build fails if the archive has another version than this crate.
//!
//! An [`Input`], [`Writer`], [`Events`] or [`Text`] may be moved to another thread.
mod calls;
mod difference;
mod events;
mod input;
mod writer;

pub use difference::{first_difference, Difference, Standing};
pub use events::{Event, Events, Operand};
pub use input::Input;
pub use writer::Writer;

use calls::{Fault, Handle};
use std::{fmt, io};

/// The limits on an input; the default is the usual limits.
#[repr(C)]
#[derive(Clone, Copy, Debug, PartialEq, Eq)]
pub struct Limits {
    pub bytes: u64,
    pub depth: u32,
    pub values: u64,
    pub shapes_at_use: bool,
}

impl Default for Limits {
    fn default() -> Limits {
        let mut limits = Limits { bytes: 0, depth: 0, values: 0, shapes_at_use: false };
        // SAFETY: it writes the four fields.
        unsafe { calls::bs_usual_limits(&mut limits) };
        limits
    }
}

/// Records with this code that are directly in blocks with this id, which is not 0.
#[repr(C)]
#[derive(Clone, Copy, Debug, PartialEq, Eq)]
pub struct RecordName {
    pub block: u32,
    pub code: u64,
}

/// What is left out: BLOCKINFO blocks, blocks by their ids, and records by their names.
#[derive(Clone, Copy, Debug, Default, PartialEq, Eq)]
pub struct LeftOut<'a> {
    pub info: bool,
    pub blocks: &'a [u32],
    pub records: &'a [RecordName],
}

impl LeftOut<'_> {
    fn passed(&self) -> calls::LeftOut {
        calls::LeftOut {
            info: self.info,
            blocks: self.blocks.as_ptr(),
            blocks_len: self.blocks.len(),
            records: self.records.as_ptr(),
            records_len: self.records.len(),
        }
    }
}

/// Which of its inputs a call refuses.
#[derive(Clone, Copy, Debug, PartialEq, Eq)]
pub enum Which {
    Only,
    First,
    Second,
}

/// Why a call failed.
#[derive(Clone, Copy, Debug, PartialEq, Eq)]
pub enum Error {
    /// An input breaks a rule: its name, the bit, and the input.
    Refused { reason: &'static str, bit: u64, input: Which },
    /// A listing is refused: the name of the reason, and the number of the line, counted from 1.
    RefusedLine { reason: &'static str, line: u64 },
    Memory,
    /// The normal form is longer than the limit on bytes.
    TooLong,
    /// A limit is past its cap.
    Limits,
    /// Records of BLOCKINFO blocks are named to be left out.
    Names,
    /// A call of a writer does not fit: no tree within the limits has that item there. The writer is unchanged.
    Unfit,
    /// A call of a writer failed before, and closed it.
    Closed,
}

impl fmt::Display for Error {
    fn fmt(&self, to: &mut fmt::Formatter<'_>) -> fmt::Result {
        match self {
            Error::Refused { reason, bit, input: Which::Only } => write!(to, "{reason} at bit {bit}"),
            Error::Refused { reason, bit, input: Which::First } => write!(to, "first: {reason} at bit {bit}"),
            Error::Refused { reason, bit, input: Which::Second } => write!(to, "second: {reason} at bit {bit}"),
            Error::RefusedLine { reason, line } => write!(to, "{reason} at line {line}"),
            Error::Memory => to.write_str("out of memory"),
            Error::TooLong => to.write_str("normal form longer than the limit"),
            Error::Limits => to.write_str("a limit is past its cap"),
            Error::Names => to.write_str("a name of records of BLOCKINFO blocks"),
            Error::Unfit => to.write_str("this item does not fit here"),
            Error::Closed => to.write_str("the writer is closed"),
        }
    }
}

impl std::error::Error for Error {}

fn reason_name(number: u32) -> &'static str {
    let mut name = calls::Bytes { at: "".as_ptr(), len: 0 };
    // SAFETY: a name lives as long as the library, which is linked in.
    let bytes = unsafe {
        calls::bs_reason_name(number, &mut name);
        std::slice::from_raw_parts(name.at, name.len)
    };
    std::str::from_utf8(bytes).unwrap_or_default()
}

/// Whether the status of a call is BS_DONE, if it is no error.
fn ended(status: u32, fault: &Fault) -> Result<bool, Error> {
    match status {
        2 if fault.reason > 100 => Err(Error::RefusedLine { reason: reason_name(fault.reason), line: fault.bit }),
        2 => Err(Error::Refused { reason: reason_name(fault.reason), bit: fault.bit, input: Which::Only }),
        3 => Err(Error::Memory),
        4 => Err(Error::TooLong),
        5 => Err(Error::Limits),
        7 => Err(Error::Closed),
        8 => Err(Error::Names),
        9 => Err(Error::Unfit),
        status => Ok(status == 0),
    }
}

/// The same for a call with two inputs.
fn compared(status: u32, fault: &Fault) -> Result<bool, Error> {
    ended(status, fault).map_err(|error| match error {
        Error::Refused { reason, bit, .. } => {
            Error::Refused { reason, bit, input: if fault.input == 0 { Which::First } else { Which::Second } }
        }
        error => error,
    })
}

/// The version of the normal form that the library writes. A key made of a form is valid as long as it is the same.
pub fn form_version() -> u32 {
    // SAFETY: it takes nothing.
    unsafe { calls::bs_form_version() }
}

/// Room for a number of elements, if there is memory for it.
fn room_of<T: Clone + Default>(count: usize) -> Result<Vec<T>, Error> {
    let mut room = Vec::new();
    room.try_reserve_exact(count).map_err(|_| Error::Memory)?;
    room.resize(count, T::default());
    Ok(room)
}

/// An open handle, which is closed when it is dropped.
#[derive(Debug)]
struct Held(Handle);

// SAFETY: the library keeps nothing for a thread, and what a handle holds is reached by this handle alone.
unsafe impl Send for Held {}

impl Held {
    fn closed() -> Held {
        Held(Handle { live: false, inner: std::ptr::null_mut() })
    }

    fn text(&mut self) -> Result<Vec<u8>, Error> {
        let (mut text, mut needed, mut fault) = (Vec::new(), 0, Fault::default());
        loop {
            // SAFETY: the room is initialised, and borrowed alone.
            let status = unsafe { calls::bs_text(&mut self.0, text.as_mut_ptr(), text.len(), &mut needed, &mut fault) };
            if ended(status, &fault)? {
                return Ok(text);
            }
            text = room_of(needed)?;
        }
    }
}

impl Drop for Held {
    fn drop(&mut self) {
        // SAFETY: the handle is closed, or open and never copied.
        unsafe { calls::bs_close(&mut self.0) }
    }
}

/// Whether an input is accepted.
pub fn check(bytes: &[u8], limits: &Limits) -> Result<(), Error> {
    let mut fault = Fault::default();
    // SAFETY: the pointer and the length are those of one slice; so in each call below.
    let status = unsafe { calls::bs_check(bytes.as_ptr(), bytes.len(), limits, &mut fault) };
    ended(status, &fault).map(drop)
}

/// A text that the library holds. Reading gives its bytes from the first to the last, and never fails.
#[derive(Debug)]
pub struct Text(Held);

impl Text {
    fn hold(call: calls::Hold, bytes: &[u8], limits: &Limits, left_out: &LeftOut<'_>) -> Result<Text, Error> {
        let (mut held, mut fault) = (Held::closed(), Fault::default());
        // SAFETY: what is left out is borrowed for the whole call.
        let status = unsafe { call(bytes.as_ptr(), bytes.len(), limits, &left_out.passed(), &mut held.0, &mut fault) };
        ended(status, &fault)?;
        Ok(Text(held))
    }

    /// The normal form of an input.
    pub fn normal(bytes: &[u8], limits: &Limits, left_out: &LeftOut<'_>) -> Result<Text, Error> {
        Text::hold(calls::bs_hold_normal, bytes, limits, left_out)
    }

    /// The listing of an input, as `bitstool show` prints it.
    pub fn show(bytes: &[u8], limits: &Limits, left_out: &LeftOut<'_>) -> Result<Text, Error> {
        Text::hold(calls::bs_hold_show, bytes, limits, left_out)
    }

    /// The report of an input, as `bitstool analyse` prints it.
    pub fn report(bytes: &[u8], limits: &Limits) -> Result<Text, Error> {
        let (mut held, mut fault) = (Held::closed(), Fault::default());
        // SAFETY: as in `check`.
        let status = unsafe { calls::bs_hold_report(bytes.as_ptr(), bytes.len(), limits, &mut held.0, &mut fault) };
        ended(status, &fault)?;
        Ok(Text(held))
    }
}

impl io::Read for Text {
    fn read(&mut self, room: &mut [u8]) -> io::Result<usize> {
        let (mut taken, mut fault) = (0, Fault::default());
        // SAFETY: the room is initialised, and borrowed alone. The handle holds a text, so the call cannot fail.
        unsafe { calls::bs_take(&mut self.0 .0, room.as_mut_ptr(), room.len(), &mut taken, &mut fault) };
        Ok(taken)
    }
}

/// The normal form of an input.
pub fn normal(bytes: &[u8], limits: &Limits, left_out: &LeftOut<'_>) -> Result<Vec<u8>, Error> {
    Text::normal(bytes, limits, left_out)?.0.text()
}

/// The listing of an input, as `bitstool show` prints it.
pub fn show(bytes: &[u8], limits: &Limits, left_out: &LeftOut<'_>) -> Result<Vec<u8>, Error> {
    Text::show(bytes, limits, left_out)?.0.text()
}

/// The report of an input, as `bitstool analyse` prints it.
pub fn report(bytes: &[u8], limits: &Limits) -> Result<Vec<u8>, Error> {
    Text::report(bytes, limits)?.0.text()
}

/// The normal form of the tree that a listing spells.
pub fn assemble(text: &[u8], limits: &Limits) -> Result<Vec<u8>, Error> {
    let (mut form, mut needed, mut fault) = (vec![0; 2 * text.len()], 0, Fault::default());
    loop {
        let room = form.as_mut_ptr();
        // SAFETY: the room is initialised, and borrowed alone.
        let status = unsafe { calls::bs_assemble(text.as_ptr(), text.len(), limits, room, form.len(), &mut needed, &mut fault) };
        let done = ended(status, &fault)?;
        form.resize(needed, 0);
        if done {
            return Ok(form);
        }
    }
}

/// Whether two inputs have the same magic, blocks and records.
pub fn same(first: &[u8], second: &[u8], limits: &Limits, left_out: &LeftOut<'_>) -> Result<bool, Error> {
    let mut fault = Fault::default();
    let (one, two) = (first.as_ptr(), second.as_ptr());
    // SAFETY: as in `check`; what is left out is borrowed for the whole call.
    let status = unsafe { calls::bs_same(one, first.len(), two, second.len(), limits, &left_out.passed(), &mut fault) };
    compared(status, &fault)
}
