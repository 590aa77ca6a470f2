//! The library's C interface as `include/desk.h` words it, field for field. The safe functions of
//! the crate stand on it; it is public for programs that want every number handed back.

use crate::STATES_LIMIT;

/// A register as read; refused, everything but the refusal and its line is 0.
#[repr(C)]
#[derive(Clone, Copy, Debug, PartialEq, Eq)]
pub struct Reading {
    pub refusal: u64,
    pub line: u64,
    pub method: u64,
    pub house: u64,
    pub states: u64,
    pub total: u64,
    pub populations: [u64; STATES_LIMIT],
}

/// An allotment made, and its steps.
#[repr(C)]
#[derive(Clone, Copy, Debug, PartialEq, Eq)]
pub struct Allotted {
    pub refusal: u64,
    pub steps: u64,
}

/// The leximin work so far.
#[repr(C)]
#[derive(Clone, Copy, Debug, PartialEq, Eq)]
pub struct Placing {
    pub states: u64,
    pub house: u64,
    pub total: u64,
    pub steps: u64,
    pub populations: [u64; STATES_LIMIT],
    pub seats: [u64; STATES_LIMIT],
}

/// What opening hands back: whether it was refused, and the placing.
#[repr(C)]
#[derive(Clone, Copy, Debug, PartialEq, Eq)]
pub struct Placed {
    pub refusal: u64,
    pub placing: Placing,
}

/// A placing moved on: by how many seats, 0 on a refusal.
#[repr(C)]
#[derive(Clone, Copy, Debug, PartialEq, Eq)]
pub struct Moved {
    pub refusal: u64,
    pub moved: u64,
}

/// A shown departure in thousandths of a per cent, and its mark.
#[repr(C)]
#[derive(Clone, Copy, Debug, PartialEq, Eq)]
pub struct Shown {
    pub refusal: u64,
    pub shown: i64,
    pub mark: u64,
}

/// A text written, a listing or a clean copy, and its length.
#[repr(C)]
#[derive(Clone, Copy, Debug, PartialEq, Eq)]
pub struct Written {
    pub refusal: u64,
    pub line: u64,
    pub length: u64,
}

/// A part of the register: where it starts and how long it is.
#[repr(C)]
#[derive(Clone, Copy, Debug, PartialEq, Eq)]
pub struct Part {
    pub refusal: u64,
    pub line: u64,
    pub start: u64,
    pub length: u64,
}

extern "C" {
    pub fn desk_read(bytes: *const u8, length: usize) -> Reading;
    pub fn desk_allot(
        method: u64,
        house: u64,
        populations: *const u64,
        n: usize,
        seats: *mut u64,
        room: usize,
    ) -> Allotted;
    pub fn desk_open(populations: *const u64, n: usize, house: u64) -> Placed;
    pub fn desk_move(placing: &mut Placing, seats: u64) -> Moved;
    pub fn desk_departure(population: u64, seats: u64, total: u64, house: u64) -> Shown;
    pub fn desk_listing(bytes: *const u8, length: usize, out: *mut u8, room: usize) -> Written;
    pub fn desk_clean(bytes: *const u8, length: usize, out: *mut u8, room: usize) -> Written;
    pub fn desk_name(bytes: *const u8, length: usize, place: usize) -> Part;
}
