//! Calls in pieces.

use crate::replies::Told;
use crate::seat::Seat;
use core::fmt;
use core::marker::PhantomData;
use std::thread::yield_now;

/// How many operations are made between two times that a waiting call yields.
pub(crate) const OPERATIONS: u32 = 64;

/// The rounds of the waiting calls that go in one go first.
pub(crate) const ROUNDS: u32 = 64;

/// What a call has come to that is made in pieces.
///
/// ```
/// use rht::{Bind, Config, Port, Step, Table};
///
/// let mut table = Table::open(Config::plain()).unwrap();
/// let mut step = table.seats[0].begin_bind(Port::plain(80), 100);
/// let reply = loop {
///     match step {
///         Step::Ended(reply) => break reply,
///         Step::NotYet(bind) => step = bind.go_on(4), // there is time for something else in between
///     }
/// };
/// assert_eq!(reply, Bind::Bound { kick: false });
/// ```
#[derive(Debug)]
#[must_use = "a call that isn't gone on with is finished when this is dropped, and its reply is lost"]
pub enum Step<'a, R: Told> {
    /// It has ended with this reply.
    Ended(R),
    /// It is in progress.
    NotYet(Progress<'a, R>),
}

impl<'a, R: Told> Step<'a, R> {
    /// Goes on as [`Progress::go_on`] does, unless the call has ended.
    pub fn go_on(self, operations: u32) -> Step<'a, R> {
        match self {
            Step::NotYet(progress) => progress.go_on(operations),
            ended => ended,
        }
    }

    /// Waits as [`Progress::finish`] does, unless the call has ended.
    pub fn finish(self) -> R {
        match self {
            Step::NotYet(progress) => progress.finish(),
            Step::Ended(reply) => reply,
        }
    }
}

/// A call in progress. It borrows its seat, so no other call of the seat can begin.
///
/// ```compile_fail,E0499
/// use rht::{Config, Port, Step, Table};
///
/// let mut table = Table::open(Config::plain()).unwrap();
/// let seat = &mut table.seats[0];
/// let bind = seat.begin_bind(Port::plain(80), 100);
/// let owner = seat.find(Port::plain(80)); // the seat is borrowed
/// bind.finish();
/// ```
///
/// A call may wait: for another seat that has locked the port's bucket. While it does, each of its operations is one
/// look whether that one has gone on.
///
/// A progress that is dropped finishes its call, and so waits as [`finish`](Progress::finish) does. A thread that has
/// progresses of several seats should go on with them by turns. Were it to finish one that waits for another of its
/// own, it would wait for good.
///
/// A progress that is forgotten, as by `std::mem::forget`, leaves its call in progress. The next call of the seat
/// finishes that one first.
#[must_use = "a call that isn't gone on with is finished when this is dropped, and its reply is lost"]
pub struct Progress<'a, R: Told> {
    seat: &'a mut Seat,
    ended: bool,
    reply: PhantomData<fn() -> R>,
}

impl<'a, R: Told> Progress<'a, R> {
    pub(crate) fn of(seat: &'a mut Seat) -> Progress<'a, R> {
        Progress { seat, ended: false, reply: PhantomData }
    }

    /// Goes on with the call by that many operations, unless it ends before. It is in progress still after exactly so
    /// many; by 0 nothing is done. None of them waits, and none takes memory.
    pub fn go_on(mut self, operations: u32) -> Step<'a, R> {
        if operations == 0 {
            return Step::NotYet(self);
        }
        match self.seat.go_on(operations) {
            None => Step::NotYet(self),
            Some((code, reply)) => {
                self.ended = true;
                Step::Ended(crate::seat::told(code, &reply))
            }
        }
    }

    /// Goes on with the call until it has ended, and yields to other threads every 64 operations. It ends only if the
    /// threads go on for whose seats it waits.
    pub fn finish(mut self) -> R {
        loop {
            match self.go_on(OPERATIONS) {
                Step::Ended(reply) => return reply,
                Step::NotYet(progress) => self = progress,
            }
            yield_now();
        }
    }
}

impl<R: Told> Drop for Progress<'_, R> {
    fn drop(&mut self) {
        if !self.ended {
            self.seat.finish_left();
        }
    }
}

impl<R: Told> fmt::Debug for Progress<'_, R> {
    fn fmt(&self, f: &mut fmt::Formatter<'_>) -> fmt::Result {
        f.debug_struct("Progress").field("seat", &self.seat).finish_non_exhaustive()
    }
}

impl Seat {
    /// Goes on with the call in progress until it has ended, whatever its reply. Without one it does nothing.
    pub(crate) fn finish_left(&mut self) {
        while self.go_on(OPERATIONS).is_none() {
            yield_now();
        }
    }
}
