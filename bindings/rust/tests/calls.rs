//! The safe functions over the archive, with a heap over malloc.

mod heap;

use mapdb::{
    Fpage, Found, IssueError, Operation, READ, RECORD, Records, Replica, RoomError, Row, Space,
    Status, TakeError, WRITE,
};

const ROOT: Space = Space::ROOT;
const ONE: Space = Space {
    number: 1,
    version: 0,
};

fn mapped() -> Replica {
    let mut replica = Replica::new(0).unwrap();
    let page = Fpage {
        address: 0x10000,
        order: 14,
        rights: READ | WRITE,
    };
    let window = Fpage {
        address: 0x40000,
        order: 16,
        rights: 0,
    };
    let records = replica.map(ROOT, 0x8000, &page, ONE, &window);
    assert_eq!(records, Ok(Records { first: 1, count: 1 }));
    replica
}

#[test]
fn maps_and_serves() {
    let mut replica = mapped();
    let found = replica.served(ONE, 0x4b).unwrap().unwrap();
    assert_eq!((found.frame, found.rights), (0x13, READ | WRITE));
    assert_eq!(replica.served(ONE, 0x4c), Ok(None));
    assert_eq!(replica.unmap_word(ROOT, 0x100c2, false), Ok(1));
    assert_eq!(replica.served(ONE, 0x48).unwrap().unwrap().rights, READ);
    assert_eq!(replica.counts(), (2, 2));
}

#[test]
fn maps_by_words() {
    let mut replica = Replica::new(0).unwrap();
    let records = replica.map_words(ROOT, [0x8008, 0x100e6], ONE, 0x40100);
    assert_eq!(records, Ok(Records { first: 1, count: 1 }));
    let mut room = [Found::default(); 1];
    assert_eq!(replica.rights(ONE, 0x48, &mut room), Ok(1));
    assert_eq!((room[0].frame, room[0].rights), (0x10, READ | WRITE));
    assert_eq!(replica.run_end(ONE, 0x48), Ok(0x4c));
    let window = Fpage {
        address: 0x40000,
        order: 16,
        rights: WRITE,
    };
    assert_eq!(replica.unmap(ONE, &window, true), Ok(1));
    assert_eq!(replica.served(ONE, 0x48).unwrap().unwrap().rights, READ);
}

#[test]
fn carries_operations() {
    let mut replica = mapped();
    let mut other = Replica::new(1).unwrap();
    let mut room = [Operation::default(); 2];
    assert_eq!(
        replica.give(0, 1, &mut []),
        Err(RoomError::NoRoom { needed: 1 })
    );
    assert_eq!(replica.give_own(0, 1, &mut room), Ok(1));
    assert_eq!(room[0].kind, RECORD);
    assert!(replica.covers(&mut other) && !other.covers(&mut replica));
    assert_eq!(other.take(&room[..1]), Ok(1));
    assert!(replica.same(&mut other));
    room[0].space.number = 2;
    assert_eq!(
        other.take(&room[..1]),
        Err(TakeError::Clash {
            number: 1,
            processor: 0
        })
    );
    room[0].kind = 9;
    assert_eq!(
        other.take(&room[..1]),
        Err(TakeError::Refused {
            status: Status::BadKind,
            place: 0
        })
    );
    assert_eq!(other.take(&[]), Ok(0));
}

#[test]
fn ends_spaces() {
    let mut replica = mapped();
    assert_eq!(replica.end(ONE), Ok(()));
    assert_eq!(replica.end(ONE), Err(IssueError::SpaceEnded(ONE)));
    assert_eq!(
        replica.end(ROOT),
        Err(IssueError::Refused(Status::RootSpace))
    );
    assert_eq!(replica.free_version(1), 1);
    assert_eq!(Replica::new(64).err(), Some(Status::BadProcessor));
}

#[test]
fn errors_tell_what_they_are() {
    let told = |error: Box<dyn std::error::Error>| error.to_string();
    assert_eq!(told(Status::Full.into()), "full");
    assert_eq!(
        told(IssueError::SpaceEnded(ONE).into()),
        "space 1.0 has ended"
    );
    let refused = TakeError::Refused {
        status: Status::BadKind,
        place: 2,
    };
    assert_eq!(told(refused.into()), "refused: bad-kind");
    assert_eq!(
        told(RoomError::NoRoom { needed: 3 }.into()),
        "there is no room for 3"
    );
}

#[test]
fn fills_page_tables() {
    let mut replica = mapped();
    let mut rows = [Row::default(); 2];
    assert_eq!(
        replica.table(&mut rows[..1]),
        Err(RoomError::NoRoom { needed: 2 })
    );
    assert_eq!(replica.table(&mut rows), Ok(2));
    assert_eq!((rows[1].space, rows[1].page, rows[1].count), (ONE, 0x48, 4));
    assert_eq!((rows[1].frame, rows[1].rights), (0x10, READ | WRITE));
}

#[test]
fn snapshots_come_back() {
    let mut replica = mapped();
    let mut other = Replica::new(1).unwrap();
    let mut text = [0; 128];
    let length = replica.snapshot(&mut text).unwrap();
    assert_eq!(other.load(&text[..length]), Ok(1));
    assert!(replica.same(&mut other));
}

#[test]
fn goes_to_another_thread() {
    let mut replica = mapped();
    let served = std::thread::spawn(move || replica.served(ONE, 0x48))
        .join()
        .unwrap();
    assert_eq!(served.unwrap().unwrap().frame, 0x10);
}
