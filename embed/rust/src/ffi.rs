//! The C interface: its codes, its structs and its functions.
//!
//! It is written by hand after `embed/include/rht.h`, and nothing proves that the two fit. The lines behind each
//! struct compare its size and its offsets, as the header has them on a machine with 64-bit pointers. The tests at
//! the end read the header, and compare codes and names.
//!
//! Most functions are declared `safe`, since their types keep what the header asks of a program:
//!
//! - A `Handle` is blank at first, and only `rht_open` and the functions that close change it. It has no `Clone` and no
//!   public field. So it is never copied, and a move leaves no second one.
//! - A `&mut Handle` is the one way to it while a call lasts. So the handle is in one call at a time.
//! - A `&mut` points to one value, is initialised, aligned and not null, and overlaps with no other argument. No other
//!   thread touches it meanwhile, and a `bool` is 0 or 1.
//! - No function is left otherwise than by its return: none calls code of the program, which could unwind.
//! - Nothing here runs in a signal handler or in a forked child: safe Rust can ask for neither.

use core::ffi::c_void;
use core::mem::{offset_of, size_of};
use core::ptr::null_mut;

/// What a call came to.
pub mod code {
    macro_rules! codes {
        ($($name:ident = $value:literal;)*) => {
            $(pub const $name: u32 = $value;)*
            #[cfg(test)]
            pub const ALL: &[(&str, u32)] = &[$((stringify!($name), $value)),*];
        };
    }

    codes! {
        NOT_YET = 0;
        BOUND = 1;
        EXISTS = 2;
        FOUND = 3;
        MISSING = 4;
        LISTED = 5;
        RELEASED = 6;
        ABSENT = 7;
        REBOUND = 8;
        TOO_BIG = 9;
        AGAIN = 10;
        BUSY = 11;
        NO_TABLE = 12;
        NO_NODE = 13;
        PENDING = 14;
        ELSEWHERE = 15;
        WALKED = 16;
        MOVED = 17;
        IDLE = 18;
        CLEAR = 19;
        COUNTED = 20;
        OPENED = 32;
        CLOSED = 33;
        ENDED = 34;
        NOT_OPEN = 64;
        IN_CALL = 65;
        WAITING = 71;
        BAD_CONFIG = 80;
        NO_MEMORY = 83;
        TWO_TABLES = 84;
    }
}

/// A port: a number in a net.
#[repr(C)]
#[derive(Clone, Copy, Debug, Default, PartialEq, Eq, PartialOrd, Ord, Hash)]
pub struct Port {
    /// The number, any of 32 bits.
    pub number: u32,
    /// The net, any number of 16 bits.
    pub net: u16,
}

const _: () = assert!(size_of::<Port>() == 8);
const _: () = assert!(offset_of!(Port, number) == 0 && offset_of!(Port, net) == 4);

/// A port, and its first owner.
#[repr(C)]
#[derive(Clone, Copy, Debug, Default, PartialEq, Eq, PartialOrd, Ord, Hash)]
pub struct Pair {
    /// The port.
    pub port: Port,
    /// Its first owner, any number of 32 bits.
    pub owner: u32,
}

const _: () = assert!(size_of::<Pair>() == 12);
const _: () = assert!(offset_of!(Pair, port) == 0 && offset_of!(Pair, owner) == 8);

/// Where a walk goes on; with `more` false, where it begins.
#[repr(C)]
#[derive(Clone, Copy)]
pub struct Cursor {
    pub serial: u64,
    pub bucket: u32,
    pub more: bool,
}

const _: () = assert!(size_of::<Cursor>() == 16);
const _: () = assert!(offset_of!(Cursor, serial) == 0 && offset_of!(Cursor, bucket) == 8);
const _: () = assert!(offset_of!(Cursor, more) == 12);

impl Cursor {
    /// Where a walk begins.
    pub const FIRST: Cursor = Cursor { serial: 0, bucket: 0, more: false };
}

/// Room for fields of later versions.
pub type Spare = [u32; 8];

/// Room that no version has given a meaning yet is 0.
pub const NO_SPARE: Spare = [0; 8];

/// What a table is opened with.
#[repr(C)]
#[derive(Clone, Copy)]
pub struct Config {
    pub nodes: u32,
    pub pages: u32,
    pub callers: u32,
    pub hint: u32,
    pub min: u32,
    pub max: u32,
    pub seed: u32,
    pub rewalks: u32,
    pub listed: bool,
    pub low: bool,
    pub shrink: bool,
    pub spare: Spare,
}

const _: () = assert!(size_of::<Config>() == 68);
const _: () = assert!(offset_of!(Config, nodes) == 0 && offset_of!(Config, pages) == 4);
const _: () = assert!(offset_of!(Config, callers) == 8 && offset_of!(Config, hint) == 12);
const _: () = assert!(offset_of!(Config, min) == 16 && offset_of!(Config, max) == 20);
const _: () = assert!(offset_of!(Config, seed) == 24 && offset_of!(Config, rewalks) == 28);
const _: () = assert!(offset_of!(Config, listed) == 32 && offset_of!(Config, low) == 33);
const _: () = assert!(offset_of!(Config, shrink) == 34 && offset_of!(Config, spare) == 36);

impl Config {
    /// All its bytes are 0.
    pub const EMPTY: Config = Config {
        nodes: 0,
        pages: 0,
        callers: 0,
        hint: 0,
        min: 0,
        max: 0,
        seed: 0,
        rewalks: 0,
        listed: false,
        low: false,
        shrink: false,
        spare: NO_SPARE,
    };
}

/// The numbers that come with a reply.
#[repr(C)]
#[derive(Clone, Copy)]
pub struct Reply {
    pub count: u64,
    pub section: u64,
    pub next: Cursor,
    pub owner: u32,
    pub len: u32,
    pub table: u32,
    pub last: u32,
    pub size: u32,
    pub returned: u32,
    pub caller: u32,
    pub kick: bool,
    pub again: bool,
    pub spare: Spare,
}

const _: () = assert!(size_of::<Reply>() == 96);
const _: () = assert!(offset_of!(Reply, count) == 0 && offset_of!(Reply, section) == 8);
const _: () = assert!(offset_of!(Reply, next) == 16 && offset_of!(Reply, owner) == 32);
const _: () = assert!(offset_of!(Reply, len) == 36 && offset_of!(Reply, table) == 40);
const _: () = assert!(offset_of!(Reply, last) == 44 && offset_of!(Reply, size) == 48);
const _: () = assert!(offset_of!(Reply, returned) == 52 && offset_of!(Reply, caller) == 56);
const _: () = assert!(offset_of!(Reply, kick) == 60 && offset_of!(Reply, again) == 61);
const _: () = assert!(offset_of!(Reply, spare) == 64);

impl Reply {
    /// A reply without numbers.
    pub const EMPTY: Reply = Reply {
        count: 0,
        section: 0,
        next: Cursor::FIRST,
        owner: 0,
        len: 0,
        table: 0,
        last: 0,
        size: 0,
        returned: 0,
        caller: 0,
        kick: false,
        again: false,
        spare: NO_SPARE,
    };
}

/// What a table was when it was closed.
#[repr(C)]
#[derive(Clone, Copy)]
pub struct Closed {
    pub len: u64,
    pub keys: u32,
    pub size: u32,
    pub spare: Spare,
}

const _: () = assert!(size_of::<Closed>() == 48);
const _: () = assert!(offset_of!(Closed, len) == 0 && offset_of!(Closed, keys) == 8);
const _: () = assert!(offset_of!(Closed, size) == 12 && offset_of!(Closed, spare) == 16);

impl Closed {
    /// All its bytes are 0.
    pub const EMPTY: Closed = Closed { len: 0, keys: 0, size: 0, spare: NO_SPARE };
}

/// A caller of a table, or nothing. Its fields are the archive's.
#[repr(C)]
pub struct Handle {
    at: *mut c_void,
    in_use: bool,
}

const _: () = assert!(size_of::<Handle>() == 16);
const _: () = assert!(offset_of!(Handle, at) == 0 && offset_of!(Handle, in_use) == 8);

impl Handle {
    /// A handle of no table.
    pub const BLANK: Handle = Handle { at: null_mut(), in_use: false };
}

// SAFETY: the archive allows a handle to be used by one thread after another, and that it may be is proved of its
// type. Safe Rust hands a value to another thread only by what orders memory between the two.
unsafe impl Send for Handle {}

// SAFETY: each line is as the header declares the function, and `build.rs` links the archive that the header is of.
// The head of this file says why those that are `safe` may be called with any arguments.
unsafe extern "C" {
    pub safe fn rht_config_plain(config: &mut Config);
    /// `handles` points to `count` handles, which nobody else uses meanwhile.
    pub unsafe fn rht_open(config: &mut Config, handles: *mut Handle, count: usize) -> u32;
    pub safe fn rht_close(handle: &mut Handle) -> u32;
    pub safe fn rht_close_now(handle: &mut Handle, given_up: &mut u32) -> u32;
    /// `handles` points to `count` handles of one table, and `into` to `room` pairs, which nobody else uses meanwhile.
    /// Neither is null where there are none either.
    pub unsafe fn rht_close_all(
        handles: *mut Handle,
        count: usize,
        into: *mut Pair,
        room: usize,
        closed: &mut Closed,
    ) -> u32;

    pub safe fn rht_find(handle: &mut Handle, port: Port, owner: &mut u32) -> u32;
    pub safe fn rht_walk(handle: &mut Handle, from: Cursor, limit: u32, reply: &mut Reply) -> u32;
    pub safe fn rht_tidy(handle: &mut Handle, reply: &mut Reply) -> u32;
    pub safe fn rht_count(handle: &mut Handle, reply: &mut Reply) -> u32;

    pub safe fn rht_bind_begin(handle: &mut Handle, port: Port, owner: u32, reply: &mut Reply) -> u32;
    pub safe fn rht_bind_once_begin(handle: &mut Handle, port: Port, owner: u32, reply: &mut Reply) -> u32;
    pub safe fn rht_bind_in(
        handle: &mut Handle,
        port: Port,
        owner: u32,
        rounds: u32,
        reply: &mut Reply,
    ) -> u32;
    pub safe fn rht_bind_once_in(
        handle: &mut Handle,
        port: Port,
        owner: u32,
        rounds: u32,
        reply: &mut Reply,
    ) -> u32;
    pub safe fn rht_release_begin(handle: &mut Handle, port: Port, owner: u32, reply: &mut Reply) -> u32;
    pub safe fn rht_release_in(
        handle: &mut Handle,
        port: Port,
        owner: u32,
        rounds: u32,
        reply: &mut Reply,
    ) -> u32;
    pub safe fn rht_rebind_begin(
        handle: &mut Handle,
        port: Port,
        owner: u32,
        with: u32,
        reply: &mut Reply,
    ) -> u32;
    pub safe fn rht_all_begin(handle: &mut Handle, port: Port, reply: &mut Reply) -> u32;
    pub safe fn rht_work_begin(handle: &mut Handle, reply: &mut Reply) -> u32;
    pub safe fn rht_go_on(handle: &mut Handle, steps: u32, reply: &mut Reply) -> u32;

    /// `into` points to `room` numbers, which nobody else uses meanwhile. It isn't null where `room` is 0 either.
    pub unsafe fn rht_owners(handle: &mut Handle, skip: usize, into: *mut u32, room: usize) -> usize;
    /// `into` points to `room` pairs, which nobody else uses meanwhile. It isn't null where `room` is 0 either.
    pub unsafe fn rht_pairs(handle: &mut Handle, skip: usize, into: *mut Pair, room: usize) -> usize;
}

/// Opens a table with these handles.
pub fn open(config: &mut Config, handles: &mut [Handle]) -> u32 {
    // SAFETY: the pointer and the number are those of one slice, which is borrowed for the call. A slice's pointer is
    // aligned and not null, also that of an empty one.
    unsafe { rht_open(config, handles.as_mut_ptr(), handles.len()) }
}

/// Closes these handles together, and writes what was bound where their table is closed with them.
///
/// # Safety
///
/// The handles are of one table. The archive refuses those of two, as tests show; but no clause says so.
pub unsafe fn close_all(handles: &mut [Handle], into: &mut [Pair], closed: &mut Closed) -> u32 {
    // SAFETY: the handles are as this function's caller owes. The pointers and numbers are as in `open`.
    unsafe { rht_close_all(handles.as_mut_ptr(), handles.len(), into.as_mut_ptr(), into.len(), closed) }
}

/// Writes the owners that came with the last call, from the place `skip` on, and says how many.
pub fn owners(handle: &mut Handle, skip: usize, into: &mut [u32]) -> usize {
    // SAFETY: as in `open`.
    unsafe { rht_owners(handle, skip, into.as_mut_ptr(), into.len()) }
}

/// Writes the pairs that came with the last call, from the place `skip` on, and says how many.
pub fn pairs(handle: &mut Handle, skip: usize, into: &mut [Pair]) -> usize {
    // SAFETY: as in `open`. The archive writes whole pairs, and each of their numbers is in its range.
    unsafe { rht_pairs(handle, skip, into.as_mut_ptr(), into.len()) }
}

#[cfg(test)]
mod tests {
    use super::*;

    /// The header's text.
    fn header() -> String {
        let path = concat!(env!("CARGO_MANIFEST_DIR"), "/../include/rht.h");
        std::fs::read_to_string(path).expect("the header lies in embed/include")
    }

    #[test]
    fn codes_are_the_header_s() {
        let header = header();
        for (name, value) in code::ALL {
            let lines: Vec<&str> = header
                .lines()
                .map(str::trim_start)
                .filter(|line| line.starts_with(&format!("RHT_{name} =")))
                .collect();
            let [line] = lines[..] else {
                panic!("{name} has {} lines", lines.len());
            };
            let digits = line.split([' ', ',']).nth(2).expect("a number");
            assert_eq!(digits.parse(), Ok(*value), "{name}");
        }
    }

    /// The C type of a Rust one. A pointer has a space before its star, as in the header.
    fn in_c(rust: &str) -> String {
        if let Some(to) = rust.strip_prefix("&mut ").or_else(|| rust.strip_prefix("*mut ")) {
            return in_c(to) + " *";
        }
        match rust {
            "u32" => "uint32_t".into(),
            "usize" => "size_t".into(),
            "" => "void".into(),
            own => format!("rht_{}", own.to_lowercase()),
        }
    }

    /// The types of a function as it is declared here, its result first.
    fn declared(name: &str) -> Vec<String> {
        let text = include_str!("ffi.rs");
        let (_, behind) = text.split_once(&format!("fn {name}(")).unwrap_or_else(|| panic!("no {name}"));
        let (arguments, behind) = behind.split_once(')').expect("an end");
        let result = behind.split(';').next().expect("an end").trim_start_matches(" -> ");
        let arguments = arguments.split(',').filter_map(|argument| argument.split_once(": "));
        [result].into_iter().chain(arguments.map(|(_, kind)| kind.trim())).map(in_c).collect()
    }

    /// The name and the types of a function in a line of the header. None where it has no function of the archive.
    fn prototype(line: &str) -> Option<(&str, Vec<String>)> {
        let (head, arguments) = line.strip_suffix(");")?.split_once('(')?;
        let (result, name) = head.rsplit_once(' ')?;
        let kinds = arguments.split(',').map(|argument| {
            let name = argument.rfind([' ', '*']).expect("a name behind a type");
            argument[..=name].trim().to_owned()
        });
        let known = name.starts_with("rht_") && !line.starts_with([' ', '/']);
        known.then(|| (name, [result.to_owned()].into_iter().chain(kinds).collect()))
    }

    #[test]
    fn functions_are_the_header_s() {
        let header = header();
        let prototypes: Vec<_> = header.lines().filter_map(prototype).collect();
        for (name, kinds) in &prototypes {
            assert_eq!(&declared(name), kinds, "{name}");
        }
        assert_eq!(prototypes.len(), 21);
    }

    fn plain() -> Config {
        let mut config = Config::EMPTY;
        rht_config_plain(&mut config);
        config
    }

    /// A handle of a table that was just opened, in which port 80 is bound to this owner.
    fn with_a_port(owner: u32) -> Handle {
        let mut handles = [Handle::BLANK];
        assert_eq!(open(&mut plain(), &mut handles), code::OPENED);
        let [mut handle] = handles;
        let mut reply = Reply::EMPTY;
        assert_eq!(rht_bind_in(&mut handle, PORT, owner, 1, &mut reply), code::BOUND);
        handle
    }

    const PORT: Port = Port { number: 80, net: 0 };

    #[test]
    fn a_plain_config_has_the_seed_1() {
        assert_eq!((plain().seed, plain().spare), (1, NO_SPARE));
    }

    #[test]
    fn a_spare_word_of_a_config_has_to_be_0() {
        let mut handles = [Handle::BLANK];
        for word in 0..NO_SPARE.len() {
            let mut config = plain();
            config.spare[word] = 1;
            assert_eq!(open(&mut config, &mut handles), code::BAD_CONFIG);
            assert_eq!(config.spare[word], 1);
            config.spare[word] = 0;
            assert_eq!(open(&mut config, &mut handles), code::OPENED);
            assert_eq!(rht_close(&mut handles[0]), code::CLOSED);
        }
    }

    #[test]
    fn spare_words_of_replies_are_written_as_0() {
        let mut handles = [with_a_port(7)];
        let mut reply = Reply { spare: [1; 8], ..Reply::EMPTY };
        assert_eq!(rht_count(&mut handles[0], &mut reply), code::COUNTED);
        assert_eq!((reply.count, reply.spare), (1, NO_SPARE));
        let mut closed = Closed { spare: [1; 8], ..Closed::EMPTY };
        // SAFETY: it is one handle.
        let code = unsafe { close_all(&mut handles, &mut [], &mut closed) };
        assert_eq!((code, closed.keys, closed.spare), (code::ENDED, 1, NO_SPARE));
    }

    /// All is as it was: the handles, and what is written to.
    #[test]
    fn handles_of_two_tables_are_refused() {
        let mut handles = [with_a_port(7), with_a_port(8)];
        let mut pairs = [Pair { port: PORT, owner: 9 }; 2];
        let mut closed = Closed { len: 3, keys: 4, size: 5, spare: [6; 8] };
        // SAFETY: they are of two tables, which the archive looks at first.
        let code = unsafe { close_all(&mut handles, &mut pairs, &mut closed) };
        assert_eq!(code, code::TWO_TABLES);
        assert_eq!(pairs.map(|pair| pair.owner), [9, 9]);
        assert_eq!((closed.len, closed.keys, closed.size, closed.spare), (3, 4, 5, [6; 8]));
        let mut owner = 0;
        for (handle, bound) in handles.iter_mut().zip([7, 8]) {
            assert_eq!(rht_find(handle, PORT, &mut owner), code::FOUND);
            assert_eq!(owner, bound);
            assert_eq!(rht_close(handle), code::CLOSED);
        }
    }
}
