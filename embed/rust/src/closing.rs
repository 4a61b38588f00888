//! Closing the seats of a table together, with what is bound at its end.

use crate::Pair;
use crate::ffi::{self, Handle, code};
use crate::progress::OPERATIONS;
use crate::replies::misfit;
use crate::seat::Seat;
use crate::table::{MOST_SEATS, Table};
use core::fmt;
use std::thread::yield_now;

/// What a table was when its last seats were closed together.
#[derive(Clone, Debug, PartialEq, Eq)]
pub struct Closed {
    /// What was bound: a pair for each owner of a port, the port's first owner first. The ports rise, by their nets
    /// first and then by their numbers. (The `Ord` of [`Port`](crate::Port) goes by numbers first.)
    pub bindings: Vec<Pair>,
    /// How many ports were bound.
    pub keys: u32,
    /// The size of the current table, in buckets.
    pub size: u32,
}

/// Seats that weren't closed together, and why. They are open, and as they were; but a call in progress that was
/// forgotten may be finished.
#[derive(Debug)]
pub struct NotClosed {
    /// The seats that were given, in their order.
    pub seats: Vec<Seat>,
    /// Why none of them was closed.
    pub why: WhyNotClosed,
}

/// Why no seat was closed.
#[derive(Clone, Copy, Debug, PartialEq, Eq)]
pub enum WhyNotClosed {
    /// No seat was given.
    NoSeat,
    /// The seats are of several tables.
    SeveralTables,
    /// Memory has run out, and none of it stays taken.
    NoMemory,
}

impl fmt::Display for WhyNotClosed {
    fn fmt(&self, f: &mut fmt::Formatter<'_>) -> fmt::Result {
        f.write_str(match self {
            WhyNotClosed::NoSeat => "there is no seat to close",
            WhyNotClosed::SeveralTables => "the seats are of several tables",
            WhyNotClosed::NoMemory => "memory has run out",
        })
    }
}

impl fmt::Display for NotClosed {
    fn fmt(&self, f: &mut fmt::Formatter<'_>) -> fmt::Result {
        self.why.fmt(f)
    }
}

impl std::error::Error for NotClosed {}

impl Table {
    /// Closes all seats that are in `seats` still, as [`Seat::close_all`] does.
    ///
    /// ```
    /// use rht::{Bind, Config, Pair, Port, Table};
    ///
    /// let mut table = Table::open(Config { callers: 2, ..Config::plain() }).unwrap();
    /// assert_eq!(table.seats[0].bind(Port::plain(443), 7), Bind::Bound { kick: false });
    /// assert_eq!(table.seats[1].bind(Port::plain(80), 8), Bind::Bound { kick: false });
    ///
    /// let closed = table.close()?.expect("no other seat is open");
    /// let (one, two) = (Port::plain(80), Port::plain(443));
    /// assert_eq!(closed.bindings, [Pair { port: one, owner: 8 }, Pair { port: two, owner: 7 }]);
    /// assert_eq!((closed.keys, closed.size), (2, 64));
    /// # Ok::<(), rht::NotClosed>(())
    /// ```
    ///
    /// # Errors
    ///
    /// [`NotClosed`], which has the seats.
    pub fn close(self) -> Result<Option<Closed>, NotClosed> {
        Seat::close_all(self.seats)
    }
}

/// Closing seats together.
impl Seat {
    /// Closes these seats, which are of one table, all of them or none.
    ///
    /// Where no other seat of the table is open, the table is closed with them, and what was bound is given. Of the
    /// archive it is proved that one run has the calls of all these seats, with their replies, and that this was bound
    /// at its end. Where another seat is open the answer is `None`: these are closed as by
    /// [`close_now`](Seat::close_now), and nodes that wait are given up.
    ///
    /// The last call that closes seats of a table ends it, also where threads close at once. If all seats are closed by
    /// this function, in one call or several, exactly one call returns what was bound. This is tested, and rests on the
    /// toolchain's reference counts; no clause says it.
    ///
    /// Before that, calls in progress are finished which were forgotten. They are gone on with by turns, so no seat
    /// given here waits for another one in vain; but they may wait for a seat elsewhere.
    ///
    /// A table whose seats went to threads is closed by those that come back:
    ///
    /// ```
    /// use rht::{Bind, Config, Port, Seat, Table};
    /// use std::thread;
    ///
    /// let table = Table::open(Config { callers: 2, ..Config::plain() }).unwrap();
    /// let threads: Vec<_> = table
    ///     .seats
    ///     .into_iter()
    ///     .map(|mut seat| {
    ///         thread::spawn(move || {
    ///             assert_eq!(seat.bind(Port::plain(seat.caller()), 7), Bind::Bound { kick: false });
    ///             seat
    ///         })
    ///     })
    ///     .collect();
    /// let seats = threads.into_iter().map(|thread| thread.join().unwrap()).collect();
    /// let closed = Seat::close_all(seats)?.expect("no other seat is open");
    /// assert_eq!(closed.keys, 2);
    /// # Ok::<(), rht::NotClosed>(())
    /// ```
    ///
    /// A seat in a call is borrowed, and can't be given:
    ///
    /// ```compile_fail,E0505
    /// use rht::{Config, Port, Seat, Table};
    ///
    /// let mut seat = Table::open(Config::plain()).unwrap().seats.remove(0);
    /// let bind = seat.begin_bind(Port::plain(80), 100);
    /// let closed = Seat::close_all(vec![seat]); // the seat is borrowed
    /// bind.finish();
    /// ```
    ///
    /// # Errors
    ///
    /// [`NotClosed`], which has the seats: where there are none, where they are of several tables, and where memory
    /// has run out. Unlike a call of one seat this one takes memory.
    pub fn close_all(mut seats: Vec<Seat>) -> Result<Option<Closed>, NotClosed> {
        match close(&mut seats) {
            Ok(closed) => Ok(closed),
            Err(why) => Err(NotClosed { seats, why }),
        }
    }
}

/// Closes these seats, whose handles are blank then; or says why they are as they were.
fn close(seats: &mut [Seat]) -> Result<Option<Closed>, WhyNotClosed> {
    let nodes = nodes_of(seats)?;
    let mut bindings = Vec::new();
    bindings.try_reserve_exact(nodes).map_err(|_| WhyNotClosed::NoMemory)?;
    bindings.resize(nodes, Pair::default());
    finish_all(seats);
    let mut closed = ffi::Closed::EMPTY;
    match close_handles(seats, &mut bindings, &mut closed) {
        code::ENDED => {
            bindings.truncate(closed.len as usize);
            Ok(Some(Closed { bindings, keys: closed.keys, size: closed.size }))
        }
        code::CLOSED => Ok(None),
        code::NO_MEMORY => Err(WhyNotClosed::NoMemory),
        code::TWO_TABLES => Err(WhyNotClosed::SeveralTables),
        code => misfit(code),
    }
}

/// How many nodes the table of these seats has, where they are of one.
fn nodes_of(seats: &[Seat]) -> Result<usize, WhyNotClosed> {
    let (first, others) = seats.split_first().ok_or(WhyNotClosed::NoSeat)?;
    if others.iter().all(|seat| seat.is_beside(first)) {
        Ok(first.nodes())
    } else {
        Err(WhyNotClosed::SeveralTables)
    }
}

/// Goes on with the calls that were forgotten, by turns, until none is in progress.
fn finish_all(seats: &mut [Seat]) {
    while are_in_call(seats) {
        yield_now();
    }
}

/// Goes on with the call of each of these seats, and says whether one is in progress still.
fn are_in_call(seats: &mut [Seat]) -> bool {
    let mut in_call = false;
    for seat in seats {
        in_call |= seat.go_on(OPERATIONS).is_none();
    }
    in_call
}

/// Brings the handles of these seats, which are of one table, side by side, and has them closed. Each seat has then
/// what has become of its handle. No table has more handles than there is place for.
fn close_handles(seats: &mut [Seat], into: &mut [Pair], closed: &mut ffi::Closed) -> u32 {
    let mut handles = [const { Handle::BLANK }; MOST_SEATS];
    let handles = &mut handles[..seats.len()];
    swap_all(seats, handles);
    // SAFETY: `close` has compared the seats' tables, so all of these handles are of one.
    let code = unsafe { ffi::close_all(handles, into, closed) };
    swap_all(seats, handles);
    code
}

/// Gives each seat this handle, and takes its own one.
fn swap_all(seats: &mut [Seat], handles: &mut [Handle]) {
    for (seat, handle) in seats.iter_mut().zip(handles) {
        seat.swap_handle(handle);
    }
}
