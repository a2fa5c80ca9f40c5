//! How errors are told.

use core::error::Error;
use core::fmt;

use crate::{IssueError, RoomError, TakeError};

impl fmt::Display for IssueError {
    fn fmt(&self, f: &mut fmt::Formatter<'_>) -> fmt::Result {
        match self {
            IssueError::Refused(status) => write!(f, "refused: {status}"),
            IssueError::SpaceEnded(space) => {
                write!(f, "space {}.{} has ended", space.number, space.version)
            }
            IssueError::Memory { issued } => {
                write!(f, "memory ran out; the first {issued} operations stand")
            }
        }
    }
}

impl fmt::Display for TakeError {
    fn fmt(&self, f: &mut fmt::Formatter<'_>) -> fmt::Result {
        match self {
            TakeError::Refused { status, .. } => write!(f, "refused: {status}"),
            TakeError::Clash { number, processor } => {
                write!(
                    f,
                    "two different records have the name {number}.{processor}"
                )
            }
            TakeError::Memory { taken } => {
                write!(
                    f,
                    "memory ran out; of the first {taken} operations what is new stands"
                )
            }
        }
    }
}

impl fmt::Display for RoomError {
    fn fmt(&self, f: &mut fmt::Formatter<'_>) -> fmt::Result {
        match self {
            RoomError::Refused(status) => write!(f, "refused: {status}"),
            RoomError::NoRoom { needed } => write!(f, "there is no room for {needed}"),
        }
    }
}

impl Error for IssueError {}
impl Error for TakeError {}
impl Error for RoomError {}
