//! What the calls answer.

use crate::ffi::{self, code};

/// What a bind answers. Each but `Bound` leaves the bindings as they were.
#[derive(Clone, Copy, Debug, PartialEq, Eq)]
#[must_use]
pub enum Bind {
    /// The port is bound to the owner now.
    Bound {
        /// The table may want to be resized: make [`Seat::work`](crate::Seat::work).
        kick: bool,
    },
    /// The port was bound already. It comes only in tables of one owner for each port.
    Exists {
        /// The port's owner.
        owner: u32,
    },
    /// The table was found to hold as many ports as it may, or more.
    TooBig {
        /// How many ports it was found to hold.
        count: u64,
    },
    /// A resize has to end first: make [`Seat::work`](crate::Seat::work), and bind again.
    Busy {
        /// The slot of the current table, 0 to 7.
        table: u32,
        /// The slot of the last table behind it, 0 to 7.
        last: u32,
    },
    /// A further table, or a page of one, was wanted and couldn't be had: make [`Seat::work`](crate::Seat::work), and
    /// bind again. Where it stays so, the pages are too few, or a call in progress holds back tables that were left.
    ///
    /// A table is wanted where more ports are bound than there are buckets, or 16 in the port's bucket. A page is
    /// wanted where the bucket's is missing. Calls that want neither go on as before.
    NoTable {
        /// The size that was wanted, in buckets.
        size: u32,
    },
    /// Each node was found taken at some moment: make [`Seat::tidy`](crate::Seat::tidy), on each seat that took nodes
    /// out, and bind again.
    NoNode,
}

/// What a bind answers that is tried once alone.
#[derive(Clone, Copy, Debug, PartialEq, Eq)]
#[must_use]
pub enum BindOnce {
    /// It came to an end, and this is its answer.
    Ended(Bind),
    /// A table is behind the one that was used: bind again. Nothing was bound.
    Again {
        /// The slot of the table behind, 0 to 7.
        table: u32,
    },
}

/// What a release answers.
#[derive(Clone, Copy, Debug, PartialEq, Eq)]
pub enum Release {
    /// One binding of the port to the owner was taken out. Its node is free again behind a
    /// [`Seat::tidy`](crate::Seat::tidy).
    Released {
        /// The table may want to be resized: make [`Seat::work`](crate::Seat::work).
        kick: bool,
    },
    /// The port isn't bound to this owner.
    Absent,
}

/// What a rebind answers. Each but `Rebound` leaves the bindings as they were.
#[derive(Clone, Copy, Debug, PartialEq, Eq)]
#[must_use]
pub enum Rebind {
    /// The new owner has the old one's place. The old one's node is free again behind a
    /// [`Seat::tidy`](crate::Seat::tidy).
    Rebound,
    /// The port isn't bound to the old owner.
    Absent,
    /// Each node was found taken at some moment, as of a bind.
    NoNode,
}

/// What a listing answers. [`Seat::owners`](crate::Seat::owners) gives the owners.
#[derive(Clone, Copy, Debug, PartialEq, Eq)]
pub struct Listed {
    /// How many owners the port has.
    pub len: u32,
}

/// What a resizing answers.
#[derive(Clone, Copy, Debug, PartialEq, Eq)]
pub enum Work {
    /// Entries were moved to a new table, or are to be.
    Moved {
        /// There is more to do.
        again: bool,
    },
    /// Nothing was to be done.
    Idle,
    /// Another seat is at work, so nothing was done.
    Elsewhere,
    /// A table was due and couldn't be had. Nothing was moved, and the table goes on as it is. Work again at the next
    /// kick.
    NoTable {
        /// The size that was due, in buckets.
        size: u32,
    },
}

/// What a piece of a walk answers.
#[derive(Clone, Copy, Debug, PartialEq, Eq)]
#[must_use]
pub enum Walk {
    /// Buckets were walked, and [`Seat::pairs`](crate::Seat::pairs) gives what was seen.
    Walked {
        /// How many pairs were seen.
        len: u32,
        /// Where the walk goes on; none where it has come to the table's end.
        next: Option<Cursor>,
    },
    /// The walk has to begin anew, without a cursor. No pair was seen.
    Again {
        /// The slot of the table with which it begins, or of one that is behind the table that was walked.
        table: u32,
    },
}

/// Where a walk goes on. Any numbers may be written here: a cursor that doesn't fit is answered [`Walk::Again`].
#[derive(Clone, Copy, Debug, PartialEq, Eq, Hash)]
pub struct Cursor {
    /// Which of the tables made so far is walked.
    pub serial: u64,
    /// The bucket at which the walk goes on.
    pub bucket: u32,
}

/// What a tidying answers.
#[derive(Clone, Copy, Debug, PartialEq, Eq)]
pub enum Tidy {
    /// The nodes that waited are free again.
    Clear {
        /// How many they are.
        returned: u32,
    },
    /// A seat is in a call still that it was in when the nodes began to wait. So none is free again: tidy later.
    Pending {
        /// The number of that seat.
        caller: u32,
        /// Its section word, which changes when that call ends.
        section: u64,
    },
}

/// No whole walk could be had in so many tries, by [`Seat::walk_all`](crate::Seat::walk_all).
#[derive(Clone, Copy, Debug, PartialEq, Eq)]
pub struct NotWhole;

impl core::fmt::Display for NotWhole {
    fn fmt(&self, f: &mut core::fmt::Formatter<'_>) -> core::fmt::Result {
        f.write_str("no walk came to the table's end: tables were put behind it meanwhile")
    }
}

impl std::error::Error for NotWhole {}

/// A reply that ends a call which may be made in pieces.
pub trait Told: Sized {
    /// The reply that a code tells with these numbers; none where the call has no such code.
    fn told(code: u32, reply: &ffi::Reply) -> Option<Self>;
}

/// The archive answered with a code that the call doesn't have. So it isn't of the header that this crate is of.
#[cold]
pub fn misfit(code: u32) -> ! {
    panic!("librht.a and the crate rht don't fit: a call came to code {code}");
}

impl Told for Bind {
    fn told(code: u32, reply: &ffi::Reply) -> Option<Bind> {
        Some(match code {
            code::BOUND => Bind::Bound { kick: reply.kick },
            code::EXISTS => Bind::Exists { owner: reply.owner },
            code::TOO_BIG => Bind::TooBig { count: reply.count },
            code::BUSY => Bind::Busy { table: reply.table, last: reply.last },
            code::NO_TABLE => Bind::NoTable { size: reply.size },
            code::NO_NODE => Bind::NoNode,
            _ => return None,
        })
    }
}

impl Told for BindOnce {
    fn told(code: u32, reply: &ffi::Reply) -> Option<BindOnce> {
        if code == code::AGAIN {
            return Some(BindOnce::Again { table: reply.table });
        }
        Bind::told(code, reply).map(BindOnce::Ended)
    }
}

impl Told for Release {
    fn told(code: u32, reply: &ffi::Reply) -> Option<Release> {
        Some(match code {
            code::RELEASED => Release::Released { kick: reply.kick },
            code::ABSENT => Release::Absent,
            _ => return None,
        })
    }
}

impl Told for Rebind {
    fn told(code: u32, _: &ffi::Reply) -> Option<Rebind> {
        Some(match code {
            code::REBOUND => Rebind::Rebound,
            code::ABSENT => Rebind::Absent,
            code::NO_NODE => Rebind::NoNode,
            _ => return None,
        })
    }
}

impl Told for Listed {
    fn told(code: u32, reply: &ffi::Reply) -> Option<Listed> {
        (code == code::LISTED).then_some(Listed { len: reply.len })
    }
}

impl Told for Work {
    fn told(code: u32, reply: &ffi::Reply) -> Option<Work> {
        Some(match code {
            code::MOVED => Work::Moved { again: reply.again },
            code::IDLE => Work::Idle,
            code::ELSEWHERE => Work::Elsewhere,
            code::NO_TABLE => Work::NoTable { size: reply.size },
            _ => return None,
        })
    }
}

impl Told for Walk {
    fn told(code: u32, reply: &ffi::Reply) -> Option<Walk> {
        let next = reply.next.more.then_some(Cursor { serial: reply.next.serial, bucket: reply.next.bucket });
        Some(match code {
            code::WALKED => Walk::Walked { len: reply.len, next },
            code::AGAIN => Walk::Again { table: reply.table },
            _ => return None,
        })
    }
}

impl Told for Tidy {
    fn told(code: u32, reply: &ffi::Reply) -> Option<Tidy> {
        Some(match code {
            code::CLEAR => Tidy::Clear { returned: reply.returned },
            code::PENDING => Tidy::Pending { caller: reply.caller, section: reply.section },
            _ => return None,
        })
    }
}

#[cfg(test)]
mod tests {
    use super::*;

    /// A code that no call of the table answers with is no reply of any.
    #[test]
    fn other_codes_are_no_replies() {
        let reply = ffi::Reply::EMPTY;
        for other in [0, 21, 31, code::OPENED, code::ENDED, code::NOT_OPEN, code::IN_CALL, 99, u32::MAX] {
            assert_eq!(Bind::told(other, &reply), None);
            assert_eq!(BindOnce::told(other, &reply), None);
            assert_eq!(Release::told(other, &reply), None);
            assert_eq!(Rebind::told(other, &reply), None);
            assert_eq!(Listed::told(other, &reply), None);
            assert_eq!(Work::told(other, &reply), None);
            assert_eq!(Walk::told(other, &reply), None);
            assert_eq!(Tidy::told(other, &reply), None);
        }
    }

    /// `Again` comes to a bind that is tried once, and to no other one.
    #[test]
    fn again_is_of_one_try() {
        let reply = ffi::Reply { table: 3, ..ffi::Reply::EMPTY };
        assert_eq!(Bind::told(code::AGAIN, &reply), None);
        let once = BindOnce::told(code::AGAIN, &reply);
        assert_eq!(once, Some(BindOnce::Again { table: 3 }));
        let ended = BindOnce::told(code::NO_NODE, &reply);
        assert_eq!(ended, Some(BindOnce::Ended(Bind::NoNode)));
    }

    #[test]
    #[should_panic(expected = "came to code 77")]
    fn a_misfit_panics_with_the_code() {
        misfit(77)
    }
}
