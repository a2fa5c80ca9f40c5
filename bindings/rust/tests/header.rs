//! The numbers and names that the header has, as this crate has them.

mod heap;

use mapdb::{
    ALL_RIGHTS, END, EXECUTE, OPERATIONS, PAGE_ORDER, PROCESSORS, READ, RECORD, REVOCATION, SPACES,
    Status, TOP_ORDER, WRITE,
};

const HEADER: &str = include_str!("../../../include/mapdb.h");

const STATUSES: [Status; 29] = [
    Status::NoCopy,
    Status::Memory,
    Status::BadProcessor,
    Status::BadSpace,
    Status::NotServed,
    Status::SpaceEnded,
    Status::RootSpace,
    Status::NumbersSpent,
    Status::Full,
    Status::Grant,
    Status::NotMapItem,
    Status::ReservedBits,
    Status::ReservedBit,
    Status::TooSmall,
    Status::TooLarge,
    Status::OutOfSpace,
    Status::Unaligned,
    Status::BadKind,
    Status::BadNumber,
    Status::ParentNotBefore,
    Status::SourceUnaligned,
    Status::PageOutOfSpace,
    Status::BadRights,
    Status::Clash,
    Status::BadMark,
    Status::NoRoom,
    Status::NotJson,
    Status::SnapshotShape,
    Status::SnapshotVersion,
];

/// The number that the header gives to a name.
fn number_of(name: &str) -> Option<u64> {
    let begin = format!("MAPDB_{name} = ");
    let rest = HEADER.lines().find_map(|line| line.trim().strip_prefix(&begin))?;
    rest.split([',', ' ']).next()?.parse().ok()
}

#[test]
fn statuses() {
    for status in STATUSES {
        let name = status.name().to_uppercase().replace('-', "_");
        assert_eq!(number_of(&name), Some(status as u64), "{name}");
        assert!(HEADER.contains(&format!("MAPDB_{name}: return \"{}\";", status.name())));
    }
    assert_eq!(HEADER.matches(": return \"").count(), STATUSES.len() + 2);
}

#[test]
fn numbers() {
    let numbers = [
        ("EXECUTE", EXECUTE),
        ("WRITE", WRITE),
        ("READ", READ),
        ("ALL_RIGHTS", ALL_RIGHTS),
        ("PROCESSORS", PROCESSORS),
        ("SPACES", SPACES),
        ("OPERATIONS", OPERATIONS as u32),
        ("PAGE_ORDER", PAGE_ORDER),
        ("TOP_ORDER", TOP_ORDER),
        ("RECORD", RECORD),
        ("REVOCATION", REVOCATION),
        ("END", END),
    ];
    for (name, number) in numbers {
        assert_eq!(number_of(name), Some(u64::from(number)), "{name}");
    }
}
