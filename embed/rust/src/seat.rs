//! Seats: what a thread holds of a table.

use crate::ffi::{self, code};
use crate::progress::{Progress, ROUNDS, Step};
use crate::replies::{
    Bind, BindOnce, Cursor, Listed, NotWhole, Rebind, Release, Tidy, Told, Walk, Work, misfit,
};
use crate::{Pair, Port};
use core::cell::Cell;
use core::fmt;
use core::marker::PhantomData;
use core::mem::swap;
use std::sync::Arc;
use std::thread::yield_now;

/// The limit of a piece, where a whole walk is made.
const PIECE: u32 = 256;

/// How often a seat that is dropped tidies before it gives up the nodes that wait.
const TIDIES: u32 = 64;

/// What the seats of one table share beside the table: so two seats are of one table where they share it.
pub(crate) struct Origin {
    /// The table's nodes.
    pub(crate) nodes: u32,
}

/// A caller of a table. A thread that has a seat makes calls by it, one after another.
///
/// A seat may go to another thread, and isn't in two at once: it is `Send` and not `Sync`.
///
/// ```
/// fn may_go<T: Send>(_: &T) {}
///
/// let table = rht::Table::open(rht::Config::plain()).unwrap();
/// may_go(&table.seats[0]);
/// ```
///
/// ```compile_fail,E0277
/// fn may_be_shared<T: Sync>(_: &T) {}
///
/// let table = rht::Table::open(rht::Config::plain()).unwrap();
/// may_be_shared(&table.seats[0]);
/// ```
///
/// A seat can't be copied.
///
/// ```compile_fail,E0599
/// let table = rht::Table::open(rht::Config::plain()).unwrap();
/// let other = table.seats[0].clone();
/// ```
///
/// A seat that is dropped closes, and finishes a call in progress before; for that it may wait. The last seat of a
/// table gives back its memory. What is bound then is lost; [`close_all`](Seat::close_all) gives it.
///
/// The drop tidies the nodes that the seat's calls took out and that still wait, in 64 tries at most. A call of another
/// seat may keep them waiting all the same. Then the drop gives them up: they stay taken until the table ends, and
/// their number isn't reported. [`close`](Seat::close) is refused instead, and [`close_now`](Seat::close_now) reports
/// the number.
///
/// A call that panics since the archive doesn't fit leaves the seat as the archive left it.
pub struct Seat {
    handle: ffi::Handle,
    caller: u32,
    origin: Arc<Origin>,
    not_sync: PhantomData<Cell<()>>,
}

/// The reply of a call that has ended with this code.
pub(crate) fn told<R: Told>(code: u32, reply: &ffi::Reply) -> R {
    R::told(code, reply).unwrap_or_else(|| misfit(code))
}

/// What every call here is made by.
impl Seat {
    /// The seat with this number, of a handle that was just opened. Of the seats that share an origin all handles are
    /// of one table, since `Table::open` gives each table one of its own.
    pub(crate) fn of(caller: u32, handle: ffi::Handle, origin: Arc<Origin>) -> Seat {
        Seat { handle, caller, origin, not_sync: PhantomData }
    }

    /// Whether both seats are of one table.
    pub(crate) fn is_beside(&self, other: &Seat) -> bool {
        Arc::ptr_eq(&self.origin, &other.origin)
    }

    /// How many nodes the table has.
    pub(crate) fn nodes(&self) -> usize {
        self.origin.nodes as usize
    }

    /// Gives the seat this handle, and takes its own one. A seat whose handle is blank is only dropped.
    pub(crate) fn swap_handle(&mut self, handle: &mut ffi::Handle) {
        swap(&mut self.handle, handle);
    }

    /// Makes a call. Where one is in progress that was forgotten, that one is finished before.
    fn call(&mut self, mut make: impl FnMut(&mut ffi::Handle) -> u32) -> u32 {
        let code = make(&mut self.handle);
        if code != code::IN_CALL {
            return code;
        }
        self.finish_left();
        make(&mut self.handle)
    }

    /// Makes a call that ends at once.
    fn whole<R: Told>(&mut self, mut make: impl FnMut(&mut ffi::Handle, &mut ffi::Reply) -> u32) -> R {
        let mut reply = ffi::Reply::EMPTY;
        let code = self.call(|handle| make(handle, &mut reply));
        told(code, &reply)
    }

    /// Begins a call, by its first operation or in one go.
    fn begin<R: Told>(
        &mut self,
        mut make: impl FnMut(&mut ffi::Handle, &mut ffi::Reply) -> u32,
    ) -> Step<'_, R> {
        let mut reply = ffi::Reply::EMPTY;
        let code = self.call(|handle| make(handle, &mut reply));
        if code == code::NOT_YET {
            return Step::NotYet(Progress::of(self));
        }
        Step::Ended(told(code, &reply))
    }

    /// Goes on with the call in progress. None says that it still is.
    pub(crate) fn go_on(&mut self, operations: u32) -> Option<(u32, ffi::Reply)> {
        let mut reply = ffi::Reply::EMPTY;
        let code = ffi::rht_go_on(&mut self.handle, operations, &mut reply);
        (code != code::NOT_YET).then_some((code, reply))
    }
}

/// Calls that wait for nobody. None of them takes memory, but for a `Vec` that is filled.
impl Seat {
    /// The seat's number, which `Tidy::Pending` names: 0 for the first one of a table, 15 at most.
    #[must_use]
    pub fn caller(&self) -> u32 {
        self.caller
    }

    /// Looks a port up: its first owner, or none where it isn't bound. The answer was so at a moment of the call, and
    /// a port that is bound throughout the call is found. Both are proved.
    #[inline]
    pub fn find(&mut self, port: Port) -> Option<u32> {
        let mut owner = 0;
        match self.call(|handle| ffi::rht_find(handle, port, &mut owner)) {
            code::FOUND => Some(owner),
            code::MISSING => None,
            code => misfit(code),
        }
    }

    /// Walks the table bucket by bucket, from a cursor on, or from the first bucket without one. It ends behind a
    /// bucket once `limit` pairs or more were seen; at a limit of 0 it walks one bucket. [`pairs`](Seat::pairs) gives
    /// the pairs, which are never more than the table's nodes.
    ///
    /// [`Walk::Again`] comes where the cursor doesn't fit, as one of a table that was left since. It comes too where a
    /// table is behind the one that is walked. Then no walk comes to its end until a [`work`](Seat::work) has moved
    /// the entries.
    ///
    /// Of the pieces together that go from the first bucket to the table's end it is proved what they show. Each port
    /// that stayed bound meanwhile is shown, and none twice. No pair is shown that wasn't so at a moment meanwhile.
    pub fn walk(&mut self, from: Option<Cursor>, limit: u32) -> Walk {
        let from = from.map_or(ffi::Cursor::FIRST, |cursor| ffi::Cursor {
            serial: cursor.serial,
            bucket: cursor.bucket,
            more: true,
        });
        self.whole(|handle, reply| ffi::rht_walk(handle, from, limit, reply))
    }

    /// Writes the pairs that came with a walk, from the place `skip` on, as far as there is room, and says how many
    /// were written. They are in the order in which they were seen. Only the seat's last call has pairs.
    pub fn pairs(&mut self, skip: usize, into: &mut [Pair]) -> usize {
        ffi::pairs(&mut self.handle, skip, into)
    }

    /// Walks as `walk` does, and puts the pairs behind what is in `into`.
    pub fn walk_into(&mut self, from: Option<Cursor>, limit: u32, into: &mut Vec<Pair>) -> Walk {
        let walk = self.walk(from, limit);
        if let Walk::Walked { len, .. } = walk {
            let start = into.len();
            into.resize(start + len as usize, Pair::default());
            let written = self.pairs(0, &mut into[start..]);
            into.truncate(start + written);
        }
        walk
    }

    /// Gives back the nodes that this seat's calls took out, all that wait or none, so that binds can take them
    /// again. Those that were taken out while others wait are for a later tidying. So all have come back once
    /// [`Tidy::Clear`] says that 0 were returned. [`Tidy::Pending`] may come also where no node waits.
    pub fn tidy(&mut self) -> Tidy {
        self.whole(|handle, reply| ffi::rht_tidy(handle, reply))
    }

    /// Counts the bound ports. At a moment of the call they were at most so many, and fewer by no more than one for
    /// each other seat that was in a call. This is proved.
    pub fn count(&mut self) -> u64 {
        let mut reply = ffi::Reply::EMPTY;
        match self.call(|handle| ffi::rht_count(handle, &mut reply)) {
            code::COUNTED => reply.count,
            code => misfit(code),
        }
    }

    /// Writes the owners that came with a listing, from the place `skip` on, as far as there is room, and says how
    /// many were written. The port's first owner is the first. Only the seat's last call has owners.
    pub fn owners(&mut self, skip: usize, into: &mut [u32]) -> usize {
        ffi::owners(&mut self.handle, skip, into)
    }
}

/// Calls that may wait for another seat. Each goes on until it has ended, and yields to other threads in between. It
/// ends only if the threads go on for whose seats it waits. No claim says that its turn comes.
///
/// `bind`, `bind_once` and `release` go in one go first, with 64 rounds, as [`bind_in`](Seat::bind_in) does. Mostly
/// they end with that, and otherwise they go on as the others.
impl Seat {
    /// Binds a port to an owner. The refusals are told at [`Bind`].
    pub fn bind(&mut self, port: Port, owner: u32) -> Bind {
        self.bind_in(port, owner, ROUNDS).finish()
    }

    /// Binds a port to an owner, and is tried once alone: where a table is behind the last one that it used it
    /// answers [`BindOnce::Again`].
    pub fn bind_once(&mut self, port: Port, owner: u32) -> BindOnce {
        self.bind_once_in(port, owner, ROUNDS).finish()
    }

    /// Takes one binding of the port to the owner out.
    pub fn release(&mut self, port: Port, owner: u32) -> Release {
        self.release_in(port, owner, ROUNDS).finish()
    }

    /// Puts a new owner in the place of the port's first owner that is this one. To all other calls it is one step,
    /// so it serves as a compare-and-swap of the owner.
    pub fn rebind(&mut self, port: Port, owner: u32, with: u32) -> Rebind {
        self.begin_rebind(port, owner, with).finish()
    }

    /// Lists the owners of a port, the first one first; none where it isn't bound.
    #[must_use]
    pub fn all(&mut self, port: Port) -> Vec<u32> {
        let Listed { len } = self.list(port);
        let mut owners = vec![0; len as usize];
        let written = self.owners(0, &mut owners);
        owners.truncate(written);
        owners
    }

    /// Lists the owners of a port without taking memory. [`owners`](Seat::owners) gives them.
    pub fn list(&mut self, port: Port) -> Listed {
        self.begin_list(port).finish()
    }

    /// Gives back tables that were left. Then it resizes the table, where that is due. It is due behind a kick.
    pub fn work(&mut self) -> Work {
        self.begin_work().finish()
    }

    /// Walks the whole table, so many times at most, until a walk comes to the table's end without [`Walk::Again`].
    /// Behind each of these it makes [`work`](Seat::work) and begins anew. So it may wait, though a walk itself never
    /// does. The pairs are not the table of one moment; [`walk`](Seat::walk) says what they are.
    ///
    /// # Errors
    ///
    /// [`NotWhole`] where each try was answered [`Walk::Again`], as where another seat is at work all the while, or
    /// has stopped there. It comes also with `tries` 0, where nothing is walked.
    ///
    /// ```
    /// # use rht::{Config, Port, Table};
    /// # let mut table = Table::open(Config::plain()).unwrap();
    /// # let seat = &mut table.seats[0];
    /// for pair in seat.walk_all(16)? {
    ///     println!("{} is {}'s", pair.port.number, pair.owner);
    /// }
    /// # Ok::<(), rht::NotWhole>(())
    /// ```
    pub fn walk_all(&mut self, tries: u32) -> Result<Vec<Pair>, NotWhole> {
        let mut pairs = Vec::new();
        for _ in 0..tries {
            pairs.clear();
            if self.walk_to_end(&mut pairs) {
                return Ok(pairs);
            }
            if self.work() == Work::Elsewhere {
                yield_now();
            }
        }
        Err(NotWhole)
    }

    /// Walks from the first bucket on, and says whether the walk came to the table's end. A piece that goes on has
    /// walked one bucket or more, so there are no more pieces than buckets.
    fn walk_to_end(&mut self, pairs: &mut Vec<Pair>) -> bool {
        let mut from = None;
        loop {
            match self.walk_into(from, PIECE, pairs) {
                Walk::Walked { next: None, .. } => return true,
                Walk::Walked { next, .. } => from = next,
                Walk::Again { .. } => return false,
            }
        }
    }
}

/// The calls that may wait, in pieces: begun by one operation, and gone on with by [`Step::go_on`]. None of the pieces
/// waits, and none takes memory.
impl Seat {
    /// Begins a `bind`.
    pub fn begin_bind(&mut self, port: Port, owner: u32) -> Step<'_, Bind> {
        self.begin(|handle, reply| ffi::rht_bind_begin(handle, port, owner, reply))
    }

    /// Begins a `bind_once`.
    pub fn begin_bind_once(&mut self, port: Port, owner: u32) -> Step<'_, BindOnce> {
        self.begin(|handle, reply| ffi::rht_bind_once_begin(handle, port, owner, reply))
    }

    /// Begins a `release`.
    pub fn begin_release(&mut self, port: Port, owner: u32) -> Step<'_, Release> {
        self.begin(|handle, reply| ffi::rht_release_begin(handle, port, owner, reply))
    }

    /// Begins a `rebind`.
    pub fn begin_rebind(&mut self, port: Port, owner: u32, with: u32) -> Step<'_, Rebind> {
        self.begin(|handle, reply| ffi::rht_rebind_begin(handle, port, owner, with, reply))
    }

    /// Begins a `list`.
    pub fn begin_list(&mut self, port: Port) -> Step<'_, Listed> {
        self.begin(|handle, reply| ffi::rht_all_begin(handle, port, reply))
    }

    /// Begins a `work`.
    pub fn begin_work(&mut self) -> Step<'_, Work> {
        self.begin(|handle, reply| ffi::rht_work_begin(handle, reply))
    }
}

/// Calls that may wait, in one go: operation after operation, up to the reply where nothing is in the way. None of them
/// waits, and none takes memory.
///
/// `rounds` is how often such a call tries at most to lock a bucket, anew at each bucket to which it comes. A round is
/// a load of the bucket's word, and where that is unlocked an exchange. It fails where another seat has the lock, or
/// has changed the word in between. So 1 is enough where no other seat is at the bucket. With 0 the call leaves off
/// before its first lock.
///
/// [`Step::NotYet`] says that the call has left off, and is in progress as one that was begun. It comes where the
/// rounds are used up; at a table whose pages don't lie in one row; and where a bind has found that it wants a further
/// table. The call holds no lock there, but is in its section, so nodes and tables don't come back meanwhile.
///
/// The thread does nothing else in its rounds, and each of them touches a word that the lock's holder writes. A call
/// that has left off costs more, since going on finds out anew at each operation where the call stands. How many
/// operations were made in one go isn't told; of a call that was begun it is known.
///
/// ```
/// use rht::{Bind, Config, Port, Release, Step, Table};
///
/// let mut table = Table::open(Config::plain()).unwrap();
/// let seat = &mut table.seats[0];
/// let Step::Ended(Bind::Bound { .. }) = seat.bind_in(Port::plain(80), 100, 1) else {
///     panic!("nobody else is there");
/// };
/// let Step::NotYet(release) = seat.release_in(Port::plain(80), 100, 0) else {
///     panic!("it takes a lock");
/// };
/// assert_eq!(release.finish(), Release::Released { kick: false });
/// ```
impl Seat {
    /// A [`bind`](Seat::bind) in one go. The kernel's function is `rhashtable_insert_fast`, with the look for the key
    /// of `rhashtable_lookup_insert_key`.
    pub fn bind_in(&mut self, port: Port, owner: u32, rounds: u32) -> Step<'_, Bind> {
        self.begin(|handle, reply| ffi::rht_bind_in(handle, port, owner, rounds, reply))
    }

    /// A [`bind_once`](Seat::bind_once) in one go.
    pub fn bind_once_in(&mut self, port: Port, owner: u32, rounds: u32) -> Step<'_, BindOnce> {
        self.begin(|handle, reply| ffi::rht_bind_once_in(handle, port, owner, rounds, reply))
    }

    /// A [`release`](Seat::release) in one go. The kernel's function is `rhashtable_remove_fast`.
    pub fn release_in(&mut self, port: Port, owner: u32, rounds: u32) -> Step<'_, Release> {
        self.begin(|handle, reply| ffi::rht_release_in(handle, port, owner, rounds, reply))
    }
}

/// Closing one seat. Other seats of its table go on. What is bound when the last one closes in this way is lost;
/// [`close_all`](Seat::close_all) gives it.
impl Seat {
    /// Closes the seat, unless nodes wait for its tidying. A call in progress that was forgotten is finished first.
    ///
    /// ```
    /// use rht::{Bind, Config, NodesWait, Port, Release, Table, Tidy};
    ///
    /// let mut seat = Table::open(Config::plain()).unwrap().seats.remove(0);
    /// assert_eq!(seat.bind(Port::plain(80), 100), Bind::Bound { kick: false });
    /// assert_eq!(seat.release(Port::plain(80), 100), Release::Released { kick: false });
    ///
    /// let NodesWait { mut seat } = seat.close().unwrap_err();
    /// assert_eq!(seat.tidy(), Tidy::Clear { returned: 1 });
    /// seat.close()?;
    /// # Ok::<(), NodesWait>(())
    /// ```
    ///
    /// # Errors
    ///
    /// [`NodesWait`], with the seat, which is open and as it was: no tidying has given back all nodes that its calls
    /// took out. If it closed, they would be lost to all seats until the table ends. Tidy until [`Tidy::Clear`] says
    /// that 0 were returned, and close again; or give them up by [`close_now`](Seat::close_now).
    pub fn close(mut self) -> Result<(), NodesWait> {
        match self.call(|handle| ffi::rht_close(handle)) {
            code::CLOSED => Ok(()),
            code::WAITING => Err(NodesWait { seat: self }),
            code => misfit(code),
        }
    }

    /// Closes the seat, and gives up the nodes that wait for its tidying: they stay taken until the table ends. Returns
    /// their number. A call in progress that was forgotten is finished first.
    pub fn close_now(mut self) -> u32 {
        let mut given_up = 0;
        match self.call(|handle| ffi::rht_close_now(handle, &mut given_up)) {
            code::CLOSED => given_up,
            code => misfit(code),
        }
    }

    /// Closes the seat. Nodes that wait are tidied some times, and then given up. The handle may be blank.
    fn close_in_any_case(&mut self) -> u32 {
        let mut reply = ffi::Reply::EMPTY;
        let mut code = self.call(|handle| ffi::rht_close(handle));
        for _ in 0..TIDIES {
            if code != code::WAITING {
                return code;
            }
            if ffi::rht_tidy(&mut self.handle, &mut reply) == code::PENDING {
                yield_now();
            }
            code = ffi::rht_close(&mut self.handle);
        }
        if code == code::WAITING {
            code = ffi::rht_close_now(&mut self.handle, &mut 0);
        }
        code
    }
}

impl Drop for Seat {
    fn drop(&mut self) {
        let code = self.close_in_any_case();
        // It isn't open where it was closed before.
        if !matches!(code, code::CLOSED | code::NOT_OPEN) && !std::thread::panicking() {
            misfit(code);
        }
    }
}

/// A seat that [`Seat::close`] didn't close, because nodes that its calls took out still wait. It is open, and as it
/// was, but for a call in progress that was forgotten: that is finished.
#[derive(Debug)]
pub struct NodesWait {
    /// The seat.
    pub seat: Seat,
}

impl fmt::Display for NodesWait {
    fn fmt(&self, f: &mut fmt::Formatter<'_>) -> fmt::Result {
        f.write_str("nodes that the seat's calls took out still wait")
    }
}

impl std::error::Error for NodesWait {}

impl fmt::Debug for Seat {
    fn fmt(&self, f: &mut fmt::Formatter<'_>) -> fmt::Result {
        f.debug_struct("Seat").field("caller", &self.caller).finish_non_exhaustive()
    }
}
