//! Threads that close the last seats of a table at once. The last of these calls ends the table, whichever it is.
//!
//! The threads stay from table to table, and spin on one word that lets all of them go together. Threads that wait at
//! a barrier that blocks wake up one after another, and hardly ever meet.

use rht::{Bind, Config, Pair, Port, Seat, Table};
use std::hint::spin_loop;
use std::sync::atomic::{AtomicU32, Ordering::SeqCst};
use std::sync::{Mutex, PoisonError};
use std::thread::{self, yield_now};

/// What is bound in each table.
const BOUND: Pair = Pair { port: Port { number: 80, net: 3 }, owner: 7 };

/// By what a thread closes its seat.
#[derive(Clone, Copy)]
enum Way {
    CloseAll,
    Close,
    CloseNow,
    Drop,
}

impl Way {
    /// Closes these seats, and says whether what was bound came with the answer.
    fn close(self, seats: Vec<Seat>) -> Result<bool, &'static str> {
        match self {
            Way::CloseAll => match Seat::close_all(seats) {
                Ok(None) => return Ok(false),
                Ok(Some(closed)) if closed.keys == 1 && closed.bindings == [BOUND] => return Ok(true),
                Ok(Some(_)) => return Err("other bindings"),
                Err(_) => return Err("close_all is refused"),
            },
            Way::Close => seats.into_iter().try_for_each(Seat::close).map_err(|_| "close is refused")?,
            Way::CloseNow => {
                if seats.into_iter().map(Seat::close_now).any(|given_up| given_up > 0) {
                    return Err("nodes are given up");
                }
            }
            Way::Drop => drop(seats),
        }
        Ok(false)
    }
}

/// What the threads and the one that opens the tables share. A word that counts does so over all rounds.
struct Rounds {
    /// The seat of each thread, of this round's table.
    seats: Vec<Mutex<Vec<Seat>>>,
    /// The round whose seats are there.
    given: AtomicU32,
    /// How many threads have taken their seats.
    ready: AtomicU32,
    /// The round whose seats are to be closed: the word that lets the threads go.
    open: AtomicU32,
    /// How many threads have closed their seats.
    closed: AtomicU32,
    /// How many calls of this round were answered with what was bound.
    ended: AtomicU32,
    /// What was answered and never may be.
    wrong: Mutex<Option<&'static str>>,
}

/// Waits until the word has this number. It yields after each so many looks, so that it ends also where there are
/// fewer processors than threads.
fn wait_for(word: &AtomicU32, number: u32, looks: u32) {
    let mut left = looks;
    while word.load(SeqCst) != number {
        left -= 1;
        if left > 0 {
            spin_loop();
        } else {
            yield_now();
            left = looks;
        }
    }
}

impl Rounds {
    fn of(threads: usize) -> Rounds {
        Rounds {
            seats: (0..threads).map(|_| Mutex::new(Vec::new())).collect(),
            given: AtomicU32::new(0),
            ready: AtomicU32::new(0),
            open: AtomicU32::new(0),
            closed: AtomicU32::new(0),
            ended: AtomicU32::new(0),
            wrong: Mutex::new(None),
        }
    }

    /// What the thread in this place does in its rounds.
    fn close(&self, place: usize, way: Way, tables: u32) {
        for round in 1..=tables {
            wait_for(&self.given, round, 1);
            let seats = std::mem::take(&mut *self.seats[place].lock().expect("no panic"));
            self.ready.fetch_add(1, SeqCst);
            wait_for(&self.open, round, 4_096);
            match way.close(seats) {
                Ok(false) => {}
                Ok(true) => _ = self.ended.fetch_add(1, SeqCst),
                Err(what) => *self.wrong.lock().expect("no panic") = Some(what),
            }
            self.closed.fetch_add(1, SeqCst);
        }
    }

    /// Opens a table, has its seats closed, and says how many calls were answered with what was bound.
    fn table(&self, round: u32) -> u32 {
        let threads = self.seats.len() as u32;
        let config = Config { callers: threads, nodes: 8, pages: 4, hint: 3, ..Config::plain() };
        let mut seats = Table::open(config).expect("a table").seats;
        assert!(matches!(seats[0].bind(BOUND.port, BOUND.owner), Bind::Bound { .. }));
        for (place, seat) in self.seats.iter().zip(seats) {
            place.lock().expect("no panic").push(seat);
        }
        self.given.store(round, SeqCst);
        wait_for(&self.ready, threads * round, 1);
        self.open.store(round, SeqCst);
        wait_for(&self.closed, threads * round, 1);
        self.ended.swap(0, SeqCst)
    }
}

/// Of how many tables no call, one call and several calls were answered with what was bound. The tests here run one
/// after another, since threads that share a processor hardly ever meet.
fn tally(tables: u32, ways: &[Way]) -> [u32; 3] {
    static ALONE: Mutex<()> = Mutex::new(());
    let _alone = ALONE.lock().unwrap_or_else(PoisonError::into_inner);
    let rounds = &Rounds::of(ways.len());
    let mut tally = [0; 3];
    thread::scope(|scope| {
        for (place, &way) in ways.iter().enumerate() {
            scope.spawn(move || rounds.close(place, way, tables));
        }
        for round in 1..=tables {
            tally[rounds.table(round).min(2) as usize] += 1;
        }
    });
    assert_eq!(*rounds.wrong.lock().expect("no panic"), None);
    tally
}

#[test]
fn one_of_two_is_given_what_was_bound() {
    assert_eq!(tally(2_000, &[Way::CloseAll; 2]), [0, 2_000, 0]);
}

#[test]
fn one_of_four_is_given_what_was_bound() {
    assert_eq!(tally(2_000, &[Way::CloseAll; 4]), [0, 2_000, 0]);
}

/// Where a seat that closes by itself is the last one, nobody is given what was bound.
#[test]
fn at_most_one_is_given_what_was_bound() {
    let mixtures: [&[Way]; 4] = [
        &[Way::CloseAll, Way::Close],
        &[Way::CloseAll, Way::CloseNow],
        &[Way::CloseAll, Way::Drop],
        &[Way::CloseAll, Way::CloseAll, Way::Close, Way::Drop],
    ];
    for ways in mixtures {
        let [none, one, several] = tally(500, ways);
        assert_eq!((none + one, several), (500, 0));
    }
}
