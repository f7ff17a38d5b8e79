//! The calls of `displaymap.h`.
use std::ffi::c_void;

/// A handle. Zeroed it is closed, and only calls change it.
#[repr(C)]
pub struct Handle {
    pub open: bool,
    pub at: *mut c_void,
}

#[repr(C)]
pub struct Place {
    pub row: u32,
    pub column: u32,
}

/// A piece of a row. Its text is the next `bytes` bytes of the row's.
#[repr(C)]
#[derive(Clone, Copy, Default)]
pub struct Piece {
    pub bytes: usize,
    pub kind: u32,
    pub id: u32,
    pub cells: u32,
    pub start: u32,
    pub end: u32,
}

#[repr(C)]
pub struct Change {
    pub from: u32,
    pub to: u32,
    pub count: u32,
}

pub const OK: u32 = 0;
pub const UNKNOWN_ID: u32 = 4;
pub const NO_ROW: u32 = 20;

extern "C" {
    pub fn displaymap_open(d: *mut Handle, text: *const u8, length: usize) -> u32;
    pub fn displaymap_close(d: *mut Handle);
    pub fn displaymap_line(d: *mut Handle, line: *const u8, length: usize) -> u32;
    pub fn displaymap_edit(
        d: *mut Handle,
        start: u32,
        end: u32,
        text: *const u8,
        length: usize,
    ) -> u32;
    pub fn displaymap_text_len(d: *mut Handle, bytes: *mut u32) -> u32;
    pub fn displaymap_slice(d: *mut Handle, start: u32, end: u32) -> u32;
    pub fn displaymap_add_mark(d: *mut Handle, id: u32, offset: u32, right: bool) -> u32;
    pub fn displaymap_remove_mark(d: *mut Handle, id: u32) -> u32;
    pub fn displaymap_mark(d: *mut Handle, id: u32, offset: *mut u32) -> u32;
    pub fn displaymap_wrap(d: *mut Handle, runs: u32, waits: *mut bool) -> u32;
    pub fn displaymap_answer(d: *mut Handle, from: usize, out: *mut u8, room: usize) -> usize;
    pub fn displaymap_row_count(d: *mut Handle, count: *mut u32) -> u32;
    pub fn displaymap_row(d: *mut Handle, row: u32, kind: *mut u32) -> u32;
    pub fn displaymap_rows(d: *mut Handle, first: u32, count: u32) -> u32;
    pub fn displaymap_pieces(
        d: *mut Handle,
        row: u32,
        out: *mut Piece,
        room: usize,
        count: *mut usize,
    ) -> u32;
    pub fn displaymap_changed_rows(d: *mut Handle, change: *mut Change) -> u32;
    pub fn displaymap_show(d: *mut Handle, offset: u32, right: bool, place: *mut Place) -> u32;
    pub fn displaymap_clip(
        d: *mut Handle,
        row: u32,
        column: u32,
        right: bool,
        place: *mut Place,
    ) -> u32;
    pub fn displaymap_back(
        d: *mut Handle,
        row: u32,
        column: u32,
        right: bool,
        offset: *mut u32,
    ) -> u32;
}
