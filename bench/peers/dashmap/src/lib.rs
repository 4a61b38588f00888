//! A `DashMap` for `tables/dashmap.c`, as functions of C. The driver hands back the table that `dashmap_open` gave.

use dashmap::{mapref::entry::Entry, DashMap};

type Table = DashMap<u32, u32>;

#[no_mangle]
pub extern "C" fn dashmap_open(expected: u32) -> Box<Table> {
    Box::new(Table::with_capacity(expected as usize))
}

#[no_mangle]
pub extern "C" fn dashmap_close(table: Box<Table>) {
    drop(table)
}

#[no_mangle]
pub extern "C" fn dashmap_find(table: &Table, key: u32, value: &mut u32) -> bool {
    match table.get(&key) {
        Some(found) => {
            *value = *found;
            true
        }
        None => false,
    }
}

#[no_mangle]
pub extern "C" fn dashmap_insert(table: &Table, key: u32, value: u32) -> bool {
    match table.entry(key) {
        Entry::Vacant(entry) => {
            entry.insert(value);
            true
        }
        Entry::Occupied(_) => false,
    }
}

#[no_mangle]
pub extern "C" fn dashmap_remove(table: &Table, key: u32) -> bool {
    table.remove(&key).is_some()
}

#[no_mangle]
pub extern "C" fn dashmap_count(table: &Table) -> u64 {
    table.len() as u64
}
