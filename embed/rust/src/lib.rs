//! A table of ports that threads share: the resizable hash table of the library `rht`, from Rust.
//!
//! A port is a number in a net, and has an owner, or in a table of lists any number of them. Up to 16 threads bind,
//! look up, list, release and rebind ports, walk the table, and resize it meanwhile. Look-ups and walks take no lock
//! and wait for nobody.
//!
//! ```
//! use rht::{Bind, Config, Port, Table};
//!
//! let mut table = Table::open(Config::plain()).unwrap();
//! let seat = &mut table.seats[0];
//! assert_eq!(seat.bind(Port::plain(80), 100), Bind::Bound { kick: false });
//! assert_eq!(seat.find(Port::plain(80)), Some(100));
//! assert_eq!(seat.find(Port::plain(81)), None);
//! ```
//!
//! Each thread has a [`Seat`] of its own. `examples/threads.rs` shows several.
//!
//! # What a program does beside its calls
//!
//! - A reply with a `kick` says that the table is due to be resized: some seat makes [`Seat::work`], again while it
//!   answers [`Work::Moved`] with `again`.
//! - A bind that answers [`Bind::Busy`] or [`Bind::NoTable`] is made again behind a [`Seat::work`].
//! - A release and a rebind take a node out. It is free again behind a [`Seat::tidy`] of the same seat.
//! - A bind or rebind that answers `NoNode` may find a node behind a tidying, of any seat that took nodes out.
//! - A seat that closes while nodes wait for its tidying loses them for all others. So [`Seat::close`] is refused then.
//!   [`Seat::close_now`] gives the nodes up. A seat that is dropped tidies some times, and gives up what is left.
//! - To have what is bound at the end, close all seats together: [`Table::close`], or [`Seat::close_all`] where they
//!   come back from threads.
//! - A seat with a call in progress may hold a lock, be the one at work, and keep nodes from coming back. Others wait
//!   for it, or are answered [`Work::Elsewhere`] or [`Tidy::Pending`]. So go on with it before you wait for another
//!   seat.
//!
//! # What is proved, and what isn't
//!
//! The calls of the archive are proved: what each answers, and that it was so at a moment of the call. It is proved
//! too that they use memory rightly, and that nothing is used again where a reader may still stand.
//! `docs/EMBEDDING.md` tells it.
//!
//! Not proved is this crate, which is Rust, and that its declarations fit the archive. Tests compare them with the
//! header. What the header asks of a program is kept here by Rust's types. A seat isn't copied, is in one thread at
//! a time, and in one call; safe code can't do otherwise.
//!
//! Calls of one seat are made in their order. Of seats that are closed together with their table, by [`Table::close`]
//! or [`Seat::close_all`], one run is proved to exist: it has the calls of each of them, with their replies, and ends
//! with what was bound. That its order is the order of time isn't proved.
//!
//! Not claimed at all is that a call which waits comes to an end, and how fast any call is.
//!
//! # Memory order
//!
//! A [`Seat::find`] that answers an owner synchronizes with the bind or rebind that bound it: what the binding thread
//! wrote before that call is visible after the find. So do [`Seat::all`], [`Seat::walk`] and a bind that answers
//! [`Bind::Exists`]. A program may therefore fill a place, bind a port to the place's index, and read the place where
//! a find answers that index, with no atomic and no lock of its own. The table knows nothing of the place: the program
//! keeps it for as long as a thread may have found the index. A call that begins after another one has returned comes
//! after it.
//!
//! Proved of this is that each call makes its operations on single words of the table, one after another, and that its
//! answer is right in one order of all operations on these words. No clause speaks of other memory or of time. The
//! rest follows if the operations are sequentially consistent, as the toolchain's kit says of its words; that is
//! trusted. Tests pass 60,000 messages through a bind and a find and 20,000 through a rebind and a find, and none is
//! read stale.
//!
//! # What stays with the program
//!
//! - No call is made in a signal handler, or in the forked child of a process with several threads. Safe Rust can
//!   ask for neither; a program that does by other means owes it. A seat isn't dropped there either.
//! - A call is left by its return alone: its thread isn't cancelled, and no `longjmp` goes over it.
//! - `malloc`, `realloc` and `free` are those of one allocator, and align a block to each power of two up to 16 that
//!   divides its size. Those of the C library do.
//! - Nothing else in the program defines a name that begins with `rht_`, so the archive is linked once.
//! - The processor is of x86-64-v2.
//!
//! # How it is built
//!
//! The archive `librht.a` has to be there: `embed/build` makes it in `embed/out/lib`. The variable `RHT_LIB` may name
//! another folder. Then `cargo build --offline` needs nothing else.

mod closing;
mod config;
mod ffi;
mod progress;
mod replies;
mod seat;
mod table;

pub use closing::{Closed, NotClosed, WhyNotClosed};
pub use config::{Config, Hash, Kind};
pub use ffi::{Pair, Port};
pub use progress::{Progress, Step};
pub use replies::{Bind, BindOnce, Cursor, Listed, NotWhole, Rebind, Release, Tidy, Walk, Work};
pub use seat::{NodesWait, Seat};
pub use table::{NotOpened, Table};

impl Port {
    /// The port with this number in net 0.
    #[must_use]
    pub fn plain(number: u32) -> Port {
        Port { number, net: 0 }
    }
}
