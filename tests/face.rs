//! The library's C face in safe clothes, for all comparisons (the writer's stands in
//! compare_writer.rs): what is declared here is what include/trabeculon.h declares. Numbers go in and out, and all of them may be
//! anything; runs are lent as a slice's own pointer and length.

// Each comparison calls some of it.
#![allow(dead_code)]

use std::mem::size_of;

use trabeculon_model::live::{at, Asked, Flat, Opened, Stamp, Stepped};
use trabeculon_model::log::{Answer, RawSettings};
use trabeculon_model::model::Event;
use trabeculon_model::pairs::Lent;
use trabeculon_model::pieces::{FlatReader, PieceRead};
use trabeculon_model::row::{Board, Told};

extern "C" {
    fn trabeculon_read_log(log: *const u8, log_len: usize, out: *mut u8, out_len: usize) -> Answer;
    fn trabeculon_open(t: u16, j: u8, l: u8, solo: u8) -> Opened;
    fn trabeculon_step(
        machine: Flat,
        pairs: *const u32,
        pairs_len: usize,
        ts: u16,
        n: u8,
        kind: u8,
        key: u8,
        stamp: Stamp,
    ) -> Stepped;
    fn trabeculon_distance(
        machine: Flat,
        pairs: *const u32,
        pairs_len: usize,
        ts: u16,
        n: u8,
        stamp: Stamp,
    ) -> Asked;
    fn trabeculon_row_step(
        row: *mut Flat,
        row_len: usize,
        pairs: *const u32,
        pairs_len: usize,
        ts: u16,
        n: u8,
        board: Board,
        kind: u8,
        key: u8,
        stamp: Stamp,
    ) -> Told;
    fn trabeculon_row_distance(
        row: *const Flat,
        row_len: usize,
        pairs: *const u32,
        pairs_len: usize,
        ts: u16,
        n: u8,
        board: Board,
        stamp: Stamp,
    ) -> Asked;
    fn trabeculon_reader_fresh() -> FlatReader;
    fn trabeculon_reader_piece(
        reader: FlatReader,
        list: *mut u32,
        list_len: usize,
        piece: *const u8,
        piece_len: usize,
        out: *mut u8,
        out_len: usize,
    ) -> PieceRead;
    fn trabeculon_reader_end(reader: FlatReader, list: *const u32, list_len: usize) -> PieceRead;
}

const _: () = assert!(size_of::<Stamp>() == 8 && size_of::<Asked>() == 16);
const _: () = assert!(size_of::<Flat>() == 56 && size_of::<Opened>() == 64);
const _: () = assert!(size_of::<Stepped>() == 80 && size_of::<Answer>() == 24);
const _: () = assert!(size_of::<FlatReader>() == 120 && size_of::<PieceRead>() == 144);
const _: () = assert!(size_of::<Told>() == 20);

pub fn read_log(log: &[u8], out: &mut [u8]) -> Answer {
    // Sound: both pairs are a slice's own pointer and length, and don't overlap. So below.
    unsafe { trabeculon_read_log(log.as_ptr(), log.len(), out.as_mut_ptr(), out.len()) }
}

pub fn open((t, j, l, solo): RawSettings) -> Opened {
    unsafe { trabeculon_open(t, j, l, solo) }
}

/// One number a pair.
fn numbers(lent: &Lent) -> Vec<u32> {
    lent.pairs.iter().map(|pair| pair.number()).collect()
}

pub fn step(lent: &Lent, flat: &Flat, event: Event) -> Stepped {
    let (list, Event { kind, key, stamp }) = (numbers(lent), event);
    let (pairs, length) = (list.as_ptr(), list.len());
    unsafe { trabeculon_step(*flat, pairs, length, lent.ts, lent.n, kind, key, at(stamp)) }
}

pub fn distance(lent: &Lent, flat: &Flat, stamp: u64) -> Asked {
    let list = numbers(lent);
    let (pairs, length) = (list.as_ptr(), list.len());
    unsafe { trabeculon_distance(*flat, pairs, length, lent.ts, lent.n, at(stamp)) }
}

/// The row is lent, and its states are written there.
pub fn row_step(lent: &Lent, row: &mut [Flat], board: Board, event: Event) -> Told {
    let (list, Event { kind, key, stamp }) = (numbers(lent), event);
    let (pairs, length, stamp) = (list.as_ptr(), list.len(), at(stamp));
    let (states, count) = (row.as_mut_ptr(), row.len());
    unsafe {
        trabeculon_row_step(states, count, pairs, length, lent.ts, lent.n, board, kind, key, stamp)
    }
}

pub fn row_distance(lent: &Lent, row: &[Flat], board: Board, stamp: u64) -> Asked {
    let list = numbers(lent);
    let (pairs, length, stamp) = (list.as_ptr(), list.len(), at(stamp));
    let (states, count) = (row.as_ptr(), row.len());
    unsafe { trabeculon_row_distance(states, count, pairs, length, lent.ts, lent.n, board, stamp) }
}

pub fn reader_fresh() -> FlatReader {
    unsafe { trabeculon_reader_fresh() }
}

/// The reader afterwards takes the place of the one before; the run that its pairs live in
/// is lent with it, of any length.
pub fn reader_piece(
    reader: &mut FlatReader,
    list: &mut [u32],
    piece: &[u8],
    out: &mut [u8],
) -> Answer {
    let (pairs, pairs_len) = (list.as_mut_ptr(), list.len());
    let (bytes, run) = (piece.as_ptr(), out.as_mut_ptr());
    let (piece_len, out_len) = (piece.len(), out.len());
    let read = unsafe {
        trabeculon_reader_piece(*reader, pairs, pairs_len, bytes, piece_len, run, out_len)
    };
    *reader = read.reader;
    read.answer
}

pub fn reader_end(reader: &mut FlatReader, list: &[u32]) -> Answer {
    let read = unsafe { trabeculon_reader_end(*reader, list.as_ptr(), list.len()) };
    *reader = read.reader;
    read.answer
}
