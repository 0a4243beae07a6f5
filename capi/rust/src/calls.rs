//! The structures and calls of `bitstream.h`.
use crate::{Limits, RecordName};
use std::ffi::c_void;

#[repr(C)]
pub struct LeftOut {
    pub info: bool,
    pub blocks: *const u32,
    pub blocks_len: usize,
    pub records: *const RecordName,
    pub records_len: usize,
}

#[repr(C)]
#[derive(Default)]
pub struct Fault {
    pub reason: u32,
    pub input: u32,
    pub bit: u64,
}

#[repr(C)]
pub struct Bytes {
    pub at: *const u8,
    pub len: usize,
}

#[repr(C)]
#[derive(Debug)]
pub struct Handle {
    pub live: bool,
    pub inner: *mut c_void,
}

#[repr(C)]
#[derive(Default)]
pub struct Event {
    pub kind: u32,
    pub id: u32,
    pub width: u32,
    pub code: u64,
    pub count: usize,
    pub first: u64,
    pub after: u64,
}

#[repr(C)]
#[derive(Clone, Copy, Default)]
pub struct Operand {
    pub kind: u32,
    pub value: u64,
}

#[repr(C)]
#[derive(Default)]
pub struct Magic {
    pub bytes: [u8; 4],
}

#[repr(C)]
#[derive(Clone, Copy, Default)]
pub struct OpenBlock {
    pub id: u32,
    pub items: u64,
}

#[repr(C)]
#[derive(Default)]
pub struct Standing {
    pub bit: u64,
    pub kind: u32,
    pub magic: [u8; 4],
    pub id: u32,
    pub code: u64,
    pub count: u64,
}

#[repr(C)]
#[derive(Default)]
pub struct Values {
    pub differ: bool,
    pub index: u64,
    pub first: u64,
    pub second: u64,
}

#[repr(C)]
#[derive(Default)]
pub struct Difference {
    pub place: u32,
    pub depth: usize,
    pub items: u64,
    pub first: Standing,
    pub second: Standing,
    pub values: Values,
}

/// A call that makes a text of bytes, and holds it in a handle.
pub type Hold = unsafe extern "C" fn(*const u8, usize, &Limits, &LeftOut, &mut Handle, &mut Fault) -> u32;

#[rustfmt::skip]
extern "C" {
    pub fn bs_form_version() -> u32;
    pub fn bs_usual_limits(limits: &mut Limits);
    pub fn bs_reason_name(number: u32, name: &mut Bytes);
    pub fn bs_check(bytes: *const u8, len: usize, limits: &Limits, fault: &mut Fault) -> u32;
    pub fn bs_same(first: *const u8, first_len: usize, second: *const u8, second_len: usize, limits: &Limits, left_out: &LeftOut,
                   fault: &mut Fault) -> u32;
    pub fn bs_first_difference(first: *const u8, first_len: usize, second: *const u8, second_len: usize, limits: &Limits,
                               left_out: &LeftOut, difference: &mut Difference, room: *mut OpenBlock, room_len: usize,
                               fault: &mut Fault) -> u32;
    pub fn bs_assemble(text: *const u8, text_len: usize, limits: &Limits, room: *mut u8, room_len: usize, needed: &mut usize,
                       fault: &mut Fault) -> u32;
    pub fn bs_hold_normal(bytes: *const u8, len: usize, limits: &Limits, left_out: &LeftOut, handle: &mut Handle, fault: &mut Fault) -> u32;
    pub fn bs_hold_show(bytes: *const u8, len: usize, limits: &Limits, left_out: &LeftOut, handle: &mut Handle, fault: &mut Fault) -> u32;
    pub fn bs_hold_report(bytes: *const u8, len: usize, limits: &Limits, handle: &mut Handle, fault: &mut Fault) -> u32;
    pub fn bs_text(handle: &mut Handle, room: *mut u8, room_len: usize, needed: &mut usize, fault: &mut Fault) -> u32;
    pub fn bs_take(handle: &mut Handle, room: *mut u8, room_len: usize, taken: &mut usize, fault: &mut Fault) -> u32;
    pub fn bs_open(bytes: *const u8, len: usize, limits: &Limits, handle: &mut Handle, fault: &mut Fault) -> u32;
    pub fn bs_next(handle: &mut Handle, event: &mut Event, fault: &mut Fault) -> u32;
    pub fn bs_values(handle: &mut Handle, room: *mut u64, room_len: usize, needed: &mut usize, fault: &mut Fault) -> u32;
    pub fn bs_operands(handle: &mut Handle, room: *mut Operand, room_len: usize, needed: &mut usize, fault: &mut Fault) -> u32;
    pub fn bs_magic(handle: &mut Handle, magic: &mut Magic, fault: &mut Fault) -> u32;
    pub fn bs_feed(handle: &mut Handle, piece: *const u8, piece_len: usize, fault: &mut Fault) -> u32;
    pub fn bs_fed_check(handle: &mut Handle, limits: &Limits, fault: &mut Fault) -> u32;
    pub fn bs_fed_same(first: &mut Handle, second: &mut Handle, limits: &Limits, left_out: &LeftOut, fault: &mut Fault) -> u32;
    pub fn bs_fed_first_difference(first: &mut Handle, second: &mut Handle, limits: &Limits, left_out: &LeftOut,
                                   difference: &mut Difference, room: *mut OpenBlock, room_len: usize, fault: &mut Fault) -> u32;
    pub fn bs_fed_report(handle: &mut Handle, limits: &Limits, fault: &mut Fault) -> u32;
    pub fn bs_fed_normal(handle: &mut Handle, limits: &Limits, left_out: &LeftOut, fault: &mut Fault) -> u32;
    pub fn bs_fed_show(handle: &mut Handle, limits: &Limits, left_out: &LeftOut, fault: &mut Fault) -> u32;
    pub fn bs_fed_events(handle: &mut Handle, limits: &Limits, fault: &mut Fault) -> u32;
    pub fn bs_write_open(magic: &Magic, limits: &Limits, handle: &mut Handle, fault: &mut Fault) -> u32;
    pub fn bs_write_enter(handle: &mut Handle, id: u32, fault: &mut Fault) -> u32;
    pub fn bs_write_record(handle: &mut Handle, code: u64, values: *const u64, values_len: usize, fault: &mut Fault) -> u32;
    pub fn bs_write_leave(handle: &mut Handle, fault: &mut Fault) -> u32;
    pub fn bs_write_finish(handle: &mut Handle, fault: &mut Fault) -> u32;
    pub fn bs_close(handle: &mut Handle);
}
