//! The proved calls, as `include/bsp_phaser.h`, `include/bsp_job.h` and `include/bsp_steps.h` document them.
use std::marker::PhantomData;

/// What a call on a text returns beside its status.
#[repr(C)]
#[derive(Clone, Copy, Debug, Default)]
pub struct Told {
    pub bytes: usize,
    pub line: usize,
    pub code: u32,
}

#[link(name = "bsp_phaser", kind = "static")]
unsafe extern "C" {
    pub safe fn bsp_phaser_new(parties: i64, phase: u32, word: &mut u64) -> i32;
    pub safe fn bsp_phaser_arrive(word: u64, least: u32, at: u32, next: &mut u64, answer: &mut i32) -> i32;
    pub safe fn bsp_phaser_leave(word: u64, least: u32, at: u32, next: &mut u64, answer: &mut i32) -> i32;
    pub safe fn bsp_phaser_register(word: u64, count: i64, next: &mut u64, answer: &mut i32) -> i32;
    pub safe fn bsp_phaser_await(word: u64, phase: i32, answer: &mut i32) -> i32;
    pub safe fn bsp_phaser_force(word: u64, next: &mut u64, answer: &mut i32) -> i32;
    pub safe fn bsp_phaser_phase(word: u64, answer: &mut i32) -> i32;
    pub safe fn bsp_phaser_parties(word: u64, answer: &mut i32) -> i32;
    pub safe fn bsp_phaser_arrived(word: u64, answer: &mut i32) -> i32;
    pub safe fn bsp_phaser_unarrived(word: u64, answer: &mut i32) -> i32;
    pub safe fn bsp_phaser_ended(word: u64, answer: &mut i32) -> i32;
}

#[link(name = "bsp_job", kind = "static")]
unsafe extern "C" {
    pub fn bsp_check(text: *const u8, text_len: usize, out: *mut u8, out_len: usize, told: *mut Told) -> i32;
    pub fn bsp_upgrade(text: *const u8, text_len: usize, out: *mut u8, out_len: usize, told: *mut Told) -> i32;
    pub fn bsp_run(text: *const u8, text_len: usize, limit: u32, out: *mut u8, out_len: usize, told: *mut Told) -> i32;
}

/// A run. It is all zero before it is opened.
#[repr(C)]
#[derive(Debug)]
pub struct Slot {
    at: *mut u8,
    held: bool,
}

impl Default for Slot {
    fn default() -> Slot {
        Slot { at: std::ptr::null_mut(), held: false }
    }
}

// SAFETY: the library's state may go to another thread, which is proved
unsafe impl Send for Slot {}

/// An array to begin with.
#[repr(C)]
#[derive(Clone, Copy, Debug)]
pub struct Array {
    pub name: *const u8,
    pub name_len: usize,
    pub cells: *const i64,
    pub len: usize,
}

/// A put; it adds if `adds` is not 0.
#[repr(C)]
#[derive(Clone, Copy, Debug)]
pub struct Put {
    pub array: u16,
    pub adds: u16,
    pub index: u32,
    pub value: i64,
}

/// What a live task left.
#[repr(C)]
#[derive(Clone, Copy, Debug)]
pub struct Deed<'a> {
    pub puts: *const Put,
    pub put_count: usize,
    pub prints: *const i64,
    pub print_count: usize,
    pub spawns: u16,
    pub ending: u8,
    pub of: PhantomData<&'a Put>,
}

/// Where a live task comes from.
#[repr(C)]
#[derive(Clone, Copy, Debug, Default)]
pub struct Origin {
    pub place: usize,
    pub number: u16,
    pub spawned: bool,
}

/// What is to be seen of a run.
#[repr(C)]
#[derive(Clone, Copy, Debug, Default)]
pub struct Look {
    pub step: u32,
    pub status: i32,
    pub live: usize,
    pub arrays: usize,
    pub prints: usize,
    pub records: usize,
}

/// Bytes of packed deeds.
#[repr(C)]
#[derive(Clone, Copy, Debug)]
pub struct Block<'a> {
    pub at: *const u8,
    pub len: usize,
    pub of: PhantomData<&'a [u8]>,
}

/// A place in blocks of bytes, from 0.
#[repr(C)]
#[derive(Clone, Copy, Debug, Default)]
pub struct Unread {
    pub block: usize,
    pub byte: usize,
}

/// A printed value, without the path of its task.
#[repr(C)]
#[derive(Clone, Copy, Debug, Default)]
pub struct Print {
    pub step: u32,
    pub value: i64,
}

/// The record of a superstep.
#[repr(C)]
#[derive(Clone, Copy, Debug, Default, PartialEq, Eq)]
pub struct Record {
    pub phase: u32,
    pub parties: u32,
    pub left: u32,
    pub spawned: u32,
}

/// Cells that are lent.
#[repr(C)]
#[derive(Clone, Copy, Debug)]
pub struct Cells {
    pub at: *const i64,
    pub len: usize,
}

/// The numbers of a path that is lent.
#[repr(C)]
#[derive(Clone, Copy, Debug)]
pub struct Path {
    pub at: *const u16,
    pub len: usize,
}

impl Default for Cells {
    fn default() -> Cells {
        Cells { at: std::ptr::null(), len: 0 }
    }
}

impl Default for Path {
    fn default() -> Path {
        Path { at: std::ptr::null(), len: 0 }
    }
}

#[link(name = "bsp_steps", kind = "static")]
unsafe extern "C" {
    pub fn bsp_steps_open(arrays: *const Array, count: usize, starts: u32, most: u32, limit: u32, slot: *mut Slot) -> i32;
    pub fn bsp_steps_close(deeds: *const Deed<'_>, count: usize, slot: *mut Slot) -> i32;
    pub fn bsp_steps_close_packed(blocks: *const Block<'_>, count: usize, slot: *mut Slot, unread: *mut Unread) -> i32;
    pub fn bsp_steps_look(slot: *mut Slot, look: *mut Look) -> i32;
    pub fn bsp_steps_cells(slot: *mut Slot, array: usize, cells: *mut Cells) -> i32;
    pub fn bsp_steps_path(slot: *mut Slot, task: usize, path: *mut Path) -> i32;
    pub fn bsp_steps_origin(slot: *mut Slot, task: usize, origin: *mut Origin) -> i32;
    pub fn bsp_steps_fault(slot: *mut Slot, code: *mut u32, path: *mut Path) -> i32;
    pub fn bsp_steps_print(slot: *mut Slot, place: usize, print: *mut Print, path: *mut Path) -> i32;
    pub fn bsp_steps_record(slot: *mut Slot, place: usize, record: *mut Record) -> i32;
    pub fn bsp_steps_report(slot: *mut Slot, out: *mut u8, out_len: usize, bytes: *mut usize) -> i32;
    pub fn bsp_steps_free(slot: *mut Slot) -> i32;
}
