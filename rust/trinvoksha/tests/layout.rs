//! The structs are laid out here as in the library: tried field by field, both ways.

mod common;

use common::fields;
use trinvoksha::{layout_read, layout_version, layout_write, Table, Turn, LAYOUT, NOBODY};

const FIELDS: usize = 5 + 16 * 11;

/// A turn with its mark in every field, written on this side.
fn marked() -> Turn {
    let mut turn = Turn { number: 0, place: 0, table: Table::default() };
    for (field, mark) in fields(&mut turn) {
        *field = mark;
    }
    turn
}

#[test]
fn the_version_is_the_librarys() {
    assert_eq!(layout_version(), LAYOUT);
}

#[test]
fn every_field_is_found_where_the_library_writes_it() {
    let mut turn = layout_write();
    let fields = fields(&mut turn);
    assert_eq!(fields.len(), FIELDS);
    for (k, (field, mark)) in fields.into_iter().enumerate() {
        assert_eq!(*field, mark, "field {k}");
    }
}

#[test]
fn the_library_finds_every_field_where_it_is_written() {
    assert!(layout_read(marked()));
    for k in 0..FIELDS {
        let mut spoilt = marked();
        *fields(&mut spoilt)[k].0 += 1;
        assert!(!layout_read(spoilt), "field {k}");
    }
}

/// A marked table is not sound, so every call hands it back with 1: each struct that an answer comes in is tried whole.
#[test]
fn the_answers_are_laid_out_alike() {
    let table = marked().table;
    let answer = table.close(0);
    assert_eq!((answer.number, answer.table), (1, table));
    let turn = table.slot();
    assert_eq!((turn.number, turn.place, turn.table), (1, NOBODY, table));
    let choice = table.election();
    assert_eq!((choice.number, choice.place), (1, NOBODY));
}
