//! Look-ups of bound ports from Rust: what `hits.c` does, by the crate `rht`, with its words and its lines.
//! `bench/embed` builds and runs it.

use rht::{Bind, Config, Port, Seat, Table};
use std::env;
use std::error::Error;
use std::sync::atomic::{AtomicU32, Ordering};
use std::thread;
use std::time::Instant;

const OWNER: u32 = 7;

/// A thread looks so often whether all have come, and then goes on without them.
const PATIENCE: u32 = 1 << 20;

/// Where the threads wait for one another before they begin.
struct Gate {
    arrived: AtomicU32,
    all: u32,
}

impl Gate {
    fn pass(&self) {
        self.arrived.fetch_add(1, Ordering::SeqCst);
        for _ in 0..PATIENCE {
            if self.arrived.load(Ordering::SeqCst) >= self.all {
                return;
            }
            thread::yield_now();
        }
    }
}

/// The ports of a thread, side by side in one net.
#[derive(Clone, Copy)]
struct Ports {
    first: u32,
    count: u32,
    net: u16,
}

impl Ports {
    fn at(self, index: u32) -> Port {
        Port { number: self.first + index, net: self.net }
    }
}

/// What a thread has done.
struct Worked {
    right: u64,
    began: Instant,
    ended: Instant,
}

fn bind_all(seat: &mut Seat, ports: Ports) {
    for index in 0..ports.count {
        assert!(matches!(seat.bind(ports.at(index), OWNER), Bind::Bound { .. }), "a port isn't bound");
    }
}

fn hits(seat: &mut Seat, ports: Ports) -> u64 {
    let mut right = 0;
    for index in 0..ports.count {
        right += u64::from(seat.find(ports.at(index)) == Some(OWNER));
    }
    right
}

fn work(mut seat: Seat, ports: Ports, rounds: u32, gate: &Gate) -> Worked {
    gate.pass();
    let began = Instant::now();
    let right = (0..rounds).map(|_| hits(&mut seat, ports)).sum();
    Worked { right, began, ended: Instant::now() }
}

/// Does what each seat has to do, in a thread of its own.
fn work_all(seats: Vec<(Seat, Ports)>, rounds: u32, gate: &Gate) -> Vec<Worked> {
    thread::scope(|scope| {
        let started: Vec<_> = seats
            .into_iter()
            .map(|(seat, ports)| scope.spawn(move || work(seat, ports, rounds, gate)))
            .collect();
        started.into_iter().map(|thread| thread.join().expect("a thread has panicked")).collect()
    })
}

fn main() -> Result<(), Box<dyn Error>> {
    let words: Vec<u32> = env::args().skip(1).map(|word| word.parse()).collect::<Result<_, _>>()?;
    let [count, threads, rounds, nodes, pages, net] = words[..] else {
        return Err("the words are PORTS THREADS ROUNDS NODES PAGES NET".into());
    };
    let config = Config { nodes, pages, callers: threads, hint: count, seed: 1, ..Config::plain() };
    let table = Table::open(config)?;
    let (share, net) = (count / threads, u16::try_from(net)?);
    let mut seats: Vec<(Seat, Ports)> = (0..)
        .zip(table.seats)
        .map(|(place, seat)| (seat, Ports { first: place * share, count: share, net }))
        .collect();
    for (seat, ports) in &mut seats {
        bind_all(seat, *ports);
    }
    let worked = work_all(seats, rounds, &Gate { arrived: AtomicU32::new(0), all: threads });
    let began = worked.iter().map(|one| one.began).min().ok_or("no thread was asked for")?;
    let ended = worked.iter().map(|one| one.ended).max().ok_or("no thread was asked for")?;
    let right: u64 = worked.iter().map(|one| one.right).sum();
    let hundredths = (ended - began).as_nanos() * 100 / u128::from(right.max(1));
    println!("hits_of_{count} {threads} {right}");
    eprintln!("hits_of_{count} {threads} {}.{:02}", hundredths / 100, hundredths % 100);
    Ok(())
}
