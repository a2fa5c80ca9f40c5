//! One processor's copy of a replicated mapping database (L4 X.2), for kernels in Rust.
//!
//! This is `libmapdb_c.a` with safe functions: whatever safe code gives them, what the library asks
//! of its callers holds. A [`Replica`] cannot be copied, is in one call at a time, and gives its
//! memory back when it is dropped. No call waits, takes a lock or starts a thread, and none panics.
//!
//! The program supplies the heap's three functions, `memcpy`, `memmove` and `memset`, as
//! `include/mapdb.h` says. They are called on any thread that has a copy, also on several at once,
//! and take back on one what they gave on another. `docs/KERNELS.md` has what a kernel does beside
//! that.
//!
//! # A use
//!
//! ```no_run
//! use mapdb::{Fpage, READ, Replica, Space};
//!
//! # fn main() -> Result<(), Box<dyn std::error::Error>> {
//! let task = Space { number: 1, version: 0 };
//! let page = Fpage { address: 0x10000, order: 12, rights: READ };
//! let window = Fpage { address: 0x40000, order: 12, rights: 0 };
//! let mut copy = Replica::new(0)?;
//! copy.map(Space::ROOT, 0, &page, task, &window)?;
//! let found = copy.served(task, 0x40)?.expect("the page is mapped");
//! assert_eq!((found.frame, found.rights), (0x10, READ));
//! # Ok(())
//! # }
//! ```
#![no_std]

mod errors;
mod raw;
mod status;

pub use raw::{ALL_RIGHTS, EXECUTE, READ, WRITE};
pub use raw::{END, Found, Fpage, Operation, RECORD, REVOCATION, Row, Space};
pub use raw::{OPERATIONS, PAGE_ORDER, PROCESSORS, SPACES, TOP_ORDER};
pub use status::Status;

use raw::{Handle, Issued, Taken};

/// Why a command was refused, or not done whole.
#[derive(Clone, Copy, Debug, PartialEq, Eq)]
pub enum IssueError {
    /// For this, with nothing issued.
    Refused(Status),
    /// This space has ended. Nothing is issued.
    SpaceEnded(Space),
    /// Memory ran out. So many first operations stand, for good, and are to be carried; they are
    /// not all.
    Memory { issued: u64 },
}

/// Why a batch was not taken, or not whole.
#[derive(Clone, Copy, Debug, PartialEq, Eq)]
pub enum TakeError {
    /// For this, with nothing changed. Of an operation that is none, or not well-formed, with its
    /// place in the batch; else with place 0, also for the text of a snapshot that is none.
    Refused { status: Status, place: u64 },
    /// Two different records have this name. Nothing is changed.
    Clash { number: u64, processor: u32 },
    /// Memory ran out. What is new of so many first operations stands; they are not all. The batch
    /// is to be taken again from that place on, or all of it.
    Memory { taken: u64 },
}

/// Why a list was not written.
#[derive(Clone, Copy, Debug, PartialEq, Eq)]
pub enum RoomError {
    /// For this, with nothing written.
    Refused(Status),
    /// There is no room for so many.
    NoRoom { needed: u64 },
}

/// The records that a Map issued: their numbers rise by one from the first.
#[derive(Clone, Copy, Debug, PartialEq, Eq)]
pub struct Records {
    /// The number of the first, 0 where there is none.
    pub first: u64,
    /// How many there are.
    pub count: u64,
}

/// One processor's copy.
#[derive(Debug)]
pub struct Replica {
    handle: Handle,
}

// SAFETY: a copy keeps plain data in its own blocks of the heap, and each call has it whole by
// `&mut`. The heap's functions take calls from any thread: whoever supplies them owes that (above).
unsafe impl Send for Replica {}

impl Replica {
    /// A copy that holds nothing, of a processor below 64, or else [`Status::BadProcessor`]; or
    /// [`Status::Memory`]. Give each processor's number to one copy alone.
    pub fn new(processor: u32) -> Result<Replica, Status> {
        let mut handle = Handle {
            at: core::ptr::null_mut(),
        };
        // SAFETY: the handle is empty, and nobody else has it.
        Status::of(unsafe { raw::mapdb_create(&mut handle, processor) })?;
        Ok(Replica { handle })
    }

    /// Maps what a page with rights and a send base (bytes) carry from the sender's space into the
    /// receiver's window. Errors: as of `mapdb_map` (include/mapdb.h).
    pub fn map(
        &mut self,
        sender: Space,
        send_base: u64,
        page: &Fpage,
        receiver: Space,
        window: &Fpage,
    ) -> Result<Records, IssueError> {
        let mut issued = Issued::default();
        // SAFETY: the handle has a copy, which is this one's alone; the places are apart and live.
        let number = unsafe {
            raw::mapdb_map(
                &mut self.handle,
                sender,
                send_base,
                page,
                receiver,
                window,
                &mut issued,
            )
        };
        issue_answer(number, &issued)?;
        Ok(records(&issued))
    }

    /// Maps by the kernel's words: the two of a map item, and that of a receive window. Errors: as
    /// of `mapdb_map_words`.
    pub fn map_words(
        &mut self,
        sender: Space,
        words: [u64; 2],
        receiver: Space,
        window: u64,
    ) -> Result<Records, IssueError> {
        let [first, second] = words;
        let mut issued = Issued::default();
        // SAFETY: as of `map`.
        let number = unsafe {
            raw::mapdb_map_words(
                &mut self.handle,
                sender,
                first,
                second,
                receiver,
                window,
                &mut issued,
            )
        };
        issue_answer(number, &issued)?;
        Ok(records(&issued))
    }

    /// Takes the page's rights from all that came from the space's pages there, also where the
    /// space received it itself, and with `flush` from those pages too. Without `flush` a child of
    /// the space's own pages that this copy has not seen keeps its rights, and so does, even with
    /// it, a record of the space itself that this copy has not seen. It answers how many operations
    /// were issued. Errors: as of `mapdb_unmap`.
    pub fn unmap(&mut self, space: Space, page: &Fpage, flush: bool) -> Result<u64, IssueError> {
        let mut issued = Issued::default();
        // SAFETY: as of `map`.
        let number =
            unsafe { raw::mapdb_unmap(&mut self.handle, space, page, flush as u32, &mut issued) };
        issue_answer(number, &issued)?;
        Ok(issued.count)
    }

    /// Unmaps by an fpage word. Errors: as of `mapdb_unmap_word`.
    pub fn unmap_word(&mut self, space: Space, word: u64, flush: bool) -> Result<u64, IssueError> {
        let mut issued = Issued::default();
        // SAFETY: as of `map`.
        let number = unsafe {
            raw::mapdb_unmap_word(&mut self.handle, space, word, flush as u32, &mut issued)
        };
        issue_answer(number, &issued)?;
        Ok(issued.count)
    }

    /// Ends a space, for good. Errors: as of `mapdb_end`.
    pub fn end(&mut self, space: Space) -> Result<(), IssueError> {
        let mut issued = Issued::default();
        // SAFETY: as of `map`.
        let number = unsafe { raw::mapdb_end(&mut self.handle, space, &mut issued) };
        issue_answer(number, &issued)
    }

    /// Takes operations of other copies, as one batch, and answers how many were new. Errors: as of
    /// `mapdb_take`.
    pub fn take(&mut self, batch: &[Operation]) -> Result<u64, TakeError> {
        let mut taken = Taken::default();
        // SAFETY: as of `map`; the array has so many operations, and its pointer is never null.
        let number =
            unsafe { raw::mapdb_take(&mut self.handle, batch.as_ptr(), batch.len(), &mut taken) };
        take_answer(number, &taken)
    }

    /// Writes the operations that the copy holds from the mark `first` on up to before `end`, and
    /// answers how many they are. Marks that are none are refused ([`Status::BadMark`]).
    pub fn give(
        &mut self,
        first: u32,
        end: u32,
        room: &mut [Operation],
    ) -> Result<usize, RoomError> {
        let mut count = 0;
        // SAFETY: as of `take`.
        let number = unsafe {
            raw::mapdb_give(
                &mut self.handle,
                first,
                end,
                room.as_mut_ptr(),
                room.len(),
                &mut count,
            )
        };
        room_answer(number, count)
    }

    /// The same of the operations that the copy itself issued.
    pub fn give_own(
        &mut self,
        first: u32,
        end: u32,
        room: &mut [Operation],
    ) -> Result<usize, RoomError> {
        let mut count = 0;
        // SAFETY: as of `take`.
        let number = unsafe {
            raw::mapdb_give_own(
                &mut self.handle,
                first,
                end,
                room.as_mut_ptr(),
                room.len(),
                &mut count,
            )
        };
        room_answer(number, count)
    }

    /// How many operations the copy holds, and how many of them it issued.
    pub fn counts(&mut self) -> (u32, u32) {
        let (mut held, mut own) = (0, 0);
        // SAFETY: as of `map`. There is a copy, so this is done.
        let _done = unsafe { raw::mapdb_counts(&mut self.handle, &mut held, &mut own) };
        (held, own)
    }

    /// The frame that a page of a space is served from, with its rights there, if it is served. The
    /// only error is [`Status::BadSpace`].
    pub fn served(&mut self, space: Space, page: u64) -> Result<Option<Found>, Status> {
        let mut found = Found::default();
        // SAFETY: as of `map`.
        let number = unsafe { raw::mapdb_served(&mut self.handle, space, page, &mut found) };
        match Status::of(number) {
            Ok(()) => Ok(Some(found)),
            Err(Status::NotServed) => Ok(None),
            Err(status) => Err(status),
        }
    }

    /// One past the last page up to which what a page of a space is served from goes on from this
    /// page: nothing at any of them, or frames that rise by one with each page, with equal rights.
    /// The errors are [`Status::BadSpace`], and [`Status::PageOutOfSpace`] for a page of 2^36 or
    /// more.
    pub fn run_end(&mut self, space: Space, page: u64) -> Result<u64, Status> {
        let mut end = 0;
        // SAFETY: as of `map`.
        let number = unsafe { raw::mapdb_run_end(&mut self.handle, space, page, &mut end) };
        Status::of(number)?;
        Ok(end)
    }

    /// Writes each frame that the space has some right to at the page, ascending, and answers how
    /// many they are. It is refused for the space ([`Status::BadSpace`]) or for want of memory.
    pub fn rights(
        &mut self,
        space: Space,
        page: u64,
        room: &mut [Found],
    ) -> Result<usize, RoomError> {
        let mut count = 0;
        // SAFETY: as of `take`.
        let number = unsafe {
            raw::mapdb_rights(
                &mut self.handle,
                space,
                page,
                room.as_mut_ptr(),
                room.len(),
                &mut count,
            )
        };
        room_answer(number, count)
    }

    /// Whether the copy holds all that the other one holds.
    pub fn covers(&mut self, other: &mut Replica) -> bool {
        let mut answer = false;
        // SAFETY: as of `map`; two `&mut` are two copies. Both are there, so this is done.
        let _done = unsafe { raw::mapdb_covers(&mut self.handle, &mut other.handle, &mut answer) };
        answer
    }

    /// Whether both hold the same. Then `served` and `rights` answer alike at both, and so do
    /// `table` and `snapshot`; `counts` need not.
    pub fn same(&mut self, other: &mut Replica) -> bool {
        let mut answer = false;
        // SAFETY: as of `covers`.
        let _done = unsafe { raw::mapdb_same(&mut self.handle, &mut other.handle, &mut answer) };
        answer
    }

    /// The least version of a space of this number whose end the copy does not hold.
    pub fn free_version(&mut self, number: u16) -> u32 {
        let mut version = 0;
        // SAFETY: as of `map`. There is a copy and the number is in range, so this is done.
        let _done =
            unsafe { raw::mapdb_free_version(&mut self.handle, number as u32, &mut version) };
        version
    }

    /// Writes the translation table: for each space ascending, and ascending by page, the longest
    /// runs of pages that are served from frames that rise by one, with equal rights. It answers
    /// how many rows there are, and is refused only for want of memory.
    pub fn table(&mut self, room: &mut [Row]) -> Result<usize, RoomError> {
        let mut count = 0;
        // SAFETY: as of `take`.
        let number = unsafe {
            raw::mapdb_table(&mut self.handle, room.as_mut_ptr(), room.len(), &mut count)
        };
        room_answer(number, count)
    }

    /// Writes the snapshot of the copy, a text in UTF-8, and answers how long it is. It is refused
    /// only for want of memory.
    pub fn snapshot(&mut self, room: &mut [u8]) -> Result<usize, RoomError> {
        let mut count = 0;
        // SAFETY: as of `take`.
        let number = unsafe {
            raw::mapdb_snapshot(&mut self.handle, room.as_mut_ptr(), room.len(), &mut count)
        };
        room_answer(number, count)
    }

    /// Takes what a snapshot says, as one batch, and answers how many operations were new. Errors:
    /// as of `mapdb_load`.
    pub fn load(&mut self, text: &[u8]) -> Result<u64, TakeError> {
        let mut taken = Taken::default();
        // SAFETY: as of `take`.
        let number =
            unsafe { raw::mapdb_load(&mut self.handle, text.as_ptr(), text.len(), &mut taken) };
        take_answer(number, &taken)
    }
}

impl Drop for Replica {
    fn drop(&mut self) {
        // SAFETY: nobody else has the handle, and it is not used again.
        unsafe { raw::mapdb_destroy(&mut self.handle) }
    }
}

fn records(issued: &Issued) -> Records {
    Records {
        first: issued.first,
        count: issued.count,
    }
}

fn issue_answer(number: u32, issued: &Issued) -> Result<(), IssueError> {
    Status::of(number).map_err(|status| match status {
        Status::SpaceEnded => IssueError::SpaceEnded(issued.space),
        Status::Memory => IssueError::Memory {
            issued: issued.count,
        },
        status => IssueError::Refused(status),
    })
}

fn take_answer(number: u32, taken: &Taken) -> Result<u64, TakeError> {
    match Status::of(number) {
        Ok(()) => Ok(taken.count),
        Err(Status::Clash) => Err(TakeError::Clash {
            number: taken.number,
            processor: taken.processor,
        }),
        Err(Status::Memory) => Err(TakeError::Memory { taken: taken.place }),
        Err(status) => Err(TakeError::Refused {
            status,
            place: taken.place,
        }),
    }
}

fn room_answer(number: u32, count: u64) -> Result<usize, RoomError> {
    match Status::of(number) {
        Ok(()) => Ok(count as usize),
        Err(Status::NoRoom) => Err(RoomError::NoRoom { needed: count }),
        Err(status) => Err(RoomError::Refused(status)),
    }
}
