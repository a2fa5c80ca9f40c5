//! The library's calls as `include/mapdb.h` has them, and what they are given.

use core::ffi::c_void;
use core::mem::{offset_of, size_of};

/// The right to execute. Rights are a set, added up of these three.
pub const EXECUTE: u32 = 1;
/// The right to write.
pub const WRITE: u32 = 2;
/// The right to read.
pub const READ: u32 = 4;

/// All three rights.
pub const ALL_RIGHTS: u32 = 7;

/// Processors are numbered below this.
pub const PROCESSORS: u32 = 64;
/// Numbers of spaces lie below this.
pub const SPACES: u32 = 65_536;
/// A copy holds at most so many operations.
pub const OPERATIONS: usize = 65_536;
/// The order of a page, the least.
pub const PAGE_ORDER: u32 = 12;
/// The order of the complete address space, the greatest.
pub const TOP_ORDER: u32 = 48;

/// The kind of an operation that is a record.
pub const RECORD: u32 = 1;
/// The kind of an operation that is a revocation.
pub const REVOCATION: u32 = 2;
/// The kind of an operation that is the end of a space.
pub const END: u32 = 3;

/// A copy, or none: what the calls keep there is their own.
#[repr(C)]
#[derive(Debug)]
pub struct Handle {
    /// Where the copy is, null where there is none.
    pub at: *mut c_void,
}

/// An address space.
#[repr(C)]
#[derive(Clone, Copy, Debug, Default, PartialEq, Eq, PartialOrd, Ord, Hash)]
pub struct Space {
    /// Its number, below 2^16. 0 is that of the first space.
    pub number: u32,
    /// Its version, from 0 on.
    pub version: u32,
}

impl Space {
    /// The first space, which is physical memory, page for page.
    pub const ROOT: Space = Space {
        number: 0,
        version: 0,
    };
}

/// An fpage with rights. The order 0 is that of nil, whatever the address.
#[repr(C)]
#[derive(Clone, Copy, Debug, Default, PartialEq, Eq)]
pub struct Fpage {
    /// The byte address of the place, a multiple of its size.
    pub address: u64,
    /// The place has 2^order bytes: 12 to 48, or 0 for nil.
    pub order: u32,
    /// The rights: [`READ`], [`WRITE`] and [`EXECUTE`], added up. Of a receive window they are not
    /// looked at.
    pub rights: u32,
}

/// An operation, which may be sent to other processors as it stands. `include/mapdb.h` says which
/// kind uses which field.
#[repr(C)]
#[derive(Clone, Copy, Debug, Default, PartialEq, Eq)]
pub struct Operation {
    /// [`RECORD`], [`REVOCATION`], or [`END`] for the end of a space.
    pub kind: u32,
    /// The rights of a record, or those that are taken.
    pub rights: u32,
    /// The number of the record, or of the one that loses rights.
    pub number: u64,
    /// The number of a record's parent.
    pub parent_number: u64,
    /// The byte address of the place, or of the part that loses rights.
    pub address: u64,
    /// The first page of a record's source.
    pub source: u64,
    /// The space of a record, or the one that has ended.
    pub space: Space,
    /// The processor of the record, or of the one that loses rights.
    pub processor: u32,
    /// The processor of a record's parent.
    pub parent_processor: u32,
    /// The order of the place or part.
    pub order: u32,
    /// Nothing.
    pub reserved: u32,
}

/// A frame with rights.
#[repr(C)]
#[derive(Clone, Copy, Debug, Default, PartialEq, Eq)]
pub struct Found {
    /// The frame, by its number.
    pub frame: u64,
    /// The rights.
    pub rights: u32,
    /// Nothing.
    pub reserved: u32,
}

/// Pages of a space, one behind the other, that are served from frames that rise by one, with equal
/// rights.
#[repr(C)]
#[derive(Clone, Copy, Debug, Default, PartialEq, Eq)]
pub struct Row {
    /// The space.
    pub space: Space,
    /// The first of the pages.
    pub page: u64,
    /// How many pages there are.
    pub count: u64,
    /// The frame that the first page is served from.
    pub frame: u64,
    /// The rights.
    pub rights: u32,
    /// Nothing.
    pub reserved: u32,
}

/// What a command issued.
#[repr(C)]
#[derive(Default)]
pub struct Issued {
    /// The number of a Map's first record; 0 of one that issued none, and of other commands.
    pub first: u64,
    /// How many operations were issued; where memory ran out, how many of them stand.
    pub count: u64,
    /// The space that has ended, where a command is refused for one.
    pub space: Space,
}

/// What became of a batch.
#[repr(C)]
#[derive(Default)]
pub struct Taken {
    /// How many operations were new.
    pub count: u64,
    /// The place of a bad operation; where memory ran out, of how many operations all stands.
    pub place: u64,
    /// At a clash, the number of the name.
    pub number: u64,
    /// At a clash, the processor of the name.
    pub processor: u32,
    /// Nothing.
    pub reserved: u32,
}

// Where C has the fields, as `include/mapdb.h` asks too.
const _: () = {
    assert!(size_of::<Handle>() == size_of::<*mut c_void>());
    assert!(size_of::<Space>() == 8 && offset_of!(Space, version) == 4);
    assert!(size_of::<Fpage>() == 16);
    assert!(offset_of!(Fpage, order) == 8 && offset_of!(Fpage, rights) == 12);
    assert!(size_of::<Operation>() == 64);
    assert!(offset_of!(Operation, rights) == 4 && offset_of!(Operation, number) == 8);
    assert!(offset_of!(Operation, parent_number) == 16 && offset_of!(Operation, address) == 24);
    assert!(offset_of!(Operation, source) == 32 && offset_of!(Operation, space) == 40);
    assert!(offset_of!(Operation, processor) == 48);
    assert!(offset_of!(Operation, parent_processor) == 52);
    assert!(offset_of!(Operation, order) == 56 && offset_of!(Operation, reserved) == 60);
    assert!(size_of::<Issued>() == 24);
    assert!(offset_of!(Issued, count) == 8 && offset_of!(Issued, space) == 16);
    assert!(size_of::<Taken>() == 32);
    assert!(offset_of!(Taken, place) == 8 && offset_of!(Taken, number) == 16);
    assert!(offset_of!(Taken, processor) == 24 && offset_of!(Taken, reserved) == 28);
    assert!(size_of::<Found>() == 16);
    assert!(offset_of!(Found, rights) == 8 && offset_of!(Found, reserved) == 12);
    assert!(size_of::<Row>() == 40);
    assert!(offset_of!(Row, page) == 8 && offset_of!(Row, count) == 16);
    assert!(offset_of!(Row, frame) == 24 && offset_of!(Row, rights) == 32);
    assert!(offset_of!(Row, reserved) == 36);
};

// Each call as `include/mapdb.h` tells it, with the statuses that it answers.
unsafe extern "C" {
    /// Makes an empty copy of a processor.
    pub fn mapdb_create(copy: *mut Handle, processor: u32) -> u32;
    /// Ends a copy and gives its memory back.
    pub fn mapdb_destroy(copy: *mut Handle);
    /// Maps pages of one space to another.
    pub fn mapdb_map(
        copy: *mut Handle,
        sender: Space,
        send_base: u64,
        page: *const Fpage,
        receiver: Space,
        window: *const Fpage,
        issued: *mut Issued,
    ) -> u32;
    /// Maps as the two words of a map item and the word of a receive window say.
    pub fn mapdb_map_words(
        copy: *mut Handle,
        sender: Space,
        first: u64,
        second: u64,
        receiver: Space,
        window: u64,
        issued: *mut Issued,
    ) -> u32;
    /// Takes rights from all that received a place from a space, with `flush` from the space too.
    pub fn mapdb_unmap(
        copy: *mut Handle,
        space: Space,
        page: *const Fpage,
        flush: u32,
        issued: *mut Issued,
    ) -> u32;
    /// Unmaps the place that a word says.
    pub fn mapdb_unmap_word(
        copy: *mut Handle,
        space: Space,
        word: u64,
        flush: u32,
        issued: *mut Issued,
    ) -> u32;
    /// Ends a space.
    pub fn mapdb_end(copy: *mut Handle, space: Space, issued: *mut Issued) -> u32;
    /// Takes a batch of operations that other copies issued.
    pub fn mapdb_take(
        copy: *mut Handle,
        operations: *const Operation,
        length: usize,
        taken: *mut Taken,
    ) -> u32;
    /// Gives what is held, from one mark on up to another.
    pub fn mapdb_give(
        copy: *mut Handle,
        first: u32,
        end: u32,
        room: *mut Operation,
        length: usize,
        count: *mut u64,
    ) -> u32;
    /// Gives what the copy itself issued, from one mark on up to another.
    pub fn mapdb_give_own(
        copy: *mut Handle,
        first: u32,
        end: u32,
        room: *mut Operation,
        length: usize,
        count: *mut u64,
    ) -> u32;
    /// How many operations are held, and how many of them are the copy's own.
    pub fn mapdb_counts(copy: *mut Handle, held: *mut u32, own: *mut u32) -> u32;
    /// What a page is served from.
    pub fn mapdb_served(copy: *mut Handle, space: Space, page: u64, found: *mut Found) -> u32;
    /// The frames of a page with the rights to each.
    pub fn mapdb_rights(
        copy: *mut Handle,
        space: Space,
        page: u64,
        room: *mut Found,
        length: usize,
        count: *mut u64,
    ) -> u32;
    /// The end of the pages that are served as a page is.
    pub fn mapdb_run_end(copy: *mut Handle, space: Space, page: u64, end: *mut u64) -> u32;
    /// Whether a copy holds all that another one does.
    pub fn mapdb_covers(copy: *mut Handle, other: *mut Handle, answer: *mut bool) -> u32;
    /// Whether two copies hold the same.
    pub fn mapdb_same(copy: *mut Handle, other: *mut Handle, answer: *mut bool) -> u32;
    /// The least version of a space's number that has not ended.
    pub fn mapdb_free_version(copy: *mut Handle, number: u32, version: *mut u32) -> u32;
    /// The translation table of a copy.
    pub fn mapdb_table(copy: *mut Handle, room: *mut Row, length: usize, count: *mut u64) -> u32;
    /// The text of all that a copy holds.
    pub fn mapdb_snapshot(copy: *mut Handle, room: *mut u8, length: usize, count: *mut u64) -> u32;
    /// Takes what a snapshot's text says.
    pub fn mapdb_load(copy: *mut Handle, text: *const u8, length: usize, taken: *mut Taken) -> u32;
}
