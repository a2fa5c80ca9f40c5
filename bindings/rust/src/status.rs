//! What a call that is refused answers.

use core::fmt;

/// Why a call was refused, by the number that C has for it.
#[repr(u32)]
#[derive(Clone, Copy, Debug, PartialEq, Eq)]
pub enum Status {
    /// The handle has no copy.
    NoCopy = 1,
    /// Memory ran out. What stands is told where something does.
    Memory = 2,
    /// A processor of 64 or more.
    BadProcessor = 3,
    /// The number of a space is `2^16` or more.
    BadSpace = 4,
    /// The page is served from no frame.
    NotServed = 5,
    /// A space that a command names has ended.
    SpaceEnded = 6,
    /// The receiver of a Map, the space of a record or the space that is to end has the first
    /// space's number.
    RootSpace = 7,
    /// A record would need a number of `2^40` or more.
    NumbersSpent = 8,
    /// The copy would hold more than 65,536 operations.
    Full = 9,
    /// The item's first word is that of a grant item.
    Grant = 10,
    /// The item's first word is that of another item.
    NotMapItem = 11,
    /// Bits of the item's first word that are to be zero are set.
    ReservedBits = 12,
    /// The reserved bit of an fpage word is set.
    ReservedBit = 13,
    /// The order is below that of a page.
    TooSmall = 14,
    /// The order is above that of the complete address space.
    TooLarge = 15,
    /// The address lies beyond the address space.
    OutOfSpace = 16,
    /// The address is no multiple of the place's size.
    Unaligned = 17,
    /// The operation is of no kind.
    BadKind = 18,
    /// A number of no record.
    BadNumber = 19,
    /// A record's number is not greater than its parent's.
    ParentNotBefore = 20,
    /// A record's source is no multiple of its place's page count.
    SourceUnaligned = 21,
    /// A record's source begins beyond the space, or the page from which a run is asked lies there.
    PageOutOfSpace = 22,
    /// Rights of 8 or more.
    BadRights = 23,
    /// Two different records have one name.
    Clash = 24,
    /// The first mark lies behind the end mark, or the end mark behind the end of the list.
    BadMark = 25,
    /// The caller's array is too short. How long it is to be is told.
    NoRoom = 26,
    /// The text is no JSON, or is nested deeper than 127.
    NotJson = 27,
    /// The JSON has not the shape of a snapshot.
    SnapshotShape = 28,
    /// The snapshot has another version than 1, 2 and 3.
    SnapshotVersion = 29,
    /// The number is that of no status. No call answers so.
    Unknown = u32::MAX,
}

impl Status {
    /// The status of a number that a call answers, or none where it is done.
    pub(crate) fn of(number: u32) -> Result<(), Status> {
        Err(match number {
            0 => return Ok(()),
            1 => Status::NoCopy,
            2 => Status::Memory,
            3 => Status::BadProcessor,
            4 => Status::BadSpace,
            5 => Status::NotServed,
            6 => Status::SpaceEnded,
            7 => Status::RootSpace,
            8 => Status::NumbersSpent,
            9 => Status::Full,
            10 => Status::Grant,
            11 => Status::NotMapItem,
            12 => Status::ReservedBits,
            13 => Status::ReservedBit,
            14 => Status::TooSmall,
            15 => Status::TooLarge,
            16 => Status::OutOfSpace,
            17 => Status::Unaligned,
            18 => Status::BadKind,
            19 => Status::BadNumber,
            20 => Status::ParentNotBefore,
            21 => Status::SourceUnaligned,
            22 => Status::PageOutOfSpace,
            23 => Status::BadRights,
            24 => Status::Clash,
            25 => Status::BadMark,
            26 => Status::NoRoom,
            27 => Status::NotJson,
            28 => Status::SnapshotShape,
            29 => Status::SnapshotVersion,
            _ => Status::Unknown,
        })
    }

    /// A name for it, as `mapdb_status_name` has it.
    pub fn name(self) -> &'static str {
        match self {
            Status::NoCopy => "no-copy",
            Status::Memory => "memory",
            Status::BadProcessor => "bad-processor",
            Status::BadSpace => "bad-space",
            Status::NotServed => "not-served",
            Status::SpaceEnded => "space-ended",
            Status::RootSpace => "root-space",
            Status::NumbersSpent => "numbers-spent",
            Status::Full => "full",
            Status::Grant => "grant",
            Status::NotMapItem => "not-map-item",
            Status::ReservedBits => "reserved-bits",
            Status::ReservedBit => "reserved-bit",
            Status::TooSmall => "too-small",
            Status::TooLarge => "too-large",
            Status::OutOfSpace => "out-of-space",
            Status::Unaligned => "unaligned",
            Status::BadKind => "bad-kind",
            Status::BadNumber => "bad-number",
            Status::ParentNotBefore => "parent-not-before",
            Status::SourceUnaligned => "source-unaligned",
            Status::PageOutOfSpace => "page-out-of-space",
            Status::BadRights => "bad-rights",
            Status::Clash => "clash",
            Status::BadMark => "bad-mark",
            Status::NoRoom => "no-room",
            Status::NotJson => "not-json",
            Status::SnapshotShape => "snapshot-shape",
            Status::SnapshotVersion => "snapshot-version",
            Status::Unknown => "unknown",
        }
    }
}

impl core::error::Error for Status {}

impl fmt::Display for Status {
    fn fmt(&self, f: &mut fmt::Formatter<'_>) -> fmt::Result {
        f.write_str(self.name())
    }
}
