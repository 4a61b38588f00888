//! Memory that runs out while seats are closed together. Rust's allocator is one that refuses big blocks here.

use rht::{Bind, Config, Port, Seat, Table, WhyNotClosed};
use std::alloc::{GlobalAlloc, Layout, System};
use std::ptr::null_mut;
use std::sync::atomic::{AtomicUsize, Ordering};

/// The greatest block that is given, in bytes.
static MOST: AtomicUsize = AtomicUsize::new(usize::MAX);

struct Refusing;

// SAFETY: what is given is the system's, and a null pointer says that there is none.
unsafe impl GlobalAlloc for Refusing {
    unsafe fn alloc(&self, layout: Layout) -> *mut u8 {
        if layout.size() > MOST.load(Ordering::SeqCst) {
            return null_mut();
        }
        // SAFETY: the caller owes the same.
        unsafe { System.alloc(layout) }
    }

    unsafe fn dealloc(&self, block: *mut u8, layout: Layout) {
        // SAFETY: the caller owes the same, and the block came from there.
        unsafe { System.dealloc(block, layout) }
    }
}

#[global_allocator]
static ALLOCATOR: Refusing = Refusing;

/// The listing of 65,536 nodes has 786,432 bytes.
#[test]
fn seats_stay_open_where_memory_runs_out() {
    let config = Config { callers: 2, nodes: 65_536, ..Config::plain() };
    let mut seats = Table::open(config).expect("a table").seats;
    assert_eq!(seats[0].bind(Port::plain(80), 7), Bind::Bound { kick: false });
    MOST.store(786_431, Ordering::SeqCst);
    let refused = Seat::close_all(seats);
    MOST.store(786_432, Ordering::SeqCst);
    let refused = refused.expect_err("there is no memory");
    assert_eq!(refused.why, WhyNotClosed::NoMemory);
    assert_eq!(refused.to_string(), "memory has run out");
    let mut seats = refused.seats;
    assert_eq!(seats[1].find(Port::plain(80)), Some(7));
    let closed = Seat::close_all(seats).expect("there is memory").expect("no other seat is open");
    assert_eq!(closed.keys, 1);
}
