//! The readers of a log in pieces, each as its caller keeps it.

use std::marker::PhantomData;

use trabeculon_model::log::Answer;
use trabeculon_model::pieces::{
    end_numbers, fresh_numbers, piece_numbers, FlatReader, Kept as Numbered, PieceRead, Run, Wrong,
    EMPTY,
};
use trabeculon_plain::pieces;

// So that the library with the symbols plain_reader_... is linked.
use trabeculon_face as _;

// Both are called by their C symbols, the Rust one too.
extern "C" {
    fn trabeculon_reader_fresh() -> FlatReader;
    fn trabeculon_reader_piece(
        reader: FlatReader,
        list: *mut u32,
        list_len: usize,
        piece: *const u8,
        piece_len: usize,
        out: *mut u8,
        out_len: usize,
    ) -> PieceRead;
    fn trabeculon_reader_end(reader: FlatReader, list: *const u32, list_len: usize) -> PieceRead;

    fn plain_reader_fresh() -> FlatReader;
    fn plain_reader_piece(
        reader: FlatReader,
        list: *mut u32,
        list_len: usize,
        piece: *const u8,
        piece_len: usize,
        out: *mut u8,
        out_len: usize,
    ) -> PieceRead;
    fn plain_reader_end(reader: FlatReader, list: *const u32, list_len: usize) -> PieceRead;
}

pub trait Kept {
    fn fresh() -> Self;
    fn piece(&mut self, piece: &[u8], out: &mut [u8]) -> Answer;
    fn end(&mut self) -> Answer;
}

/// A reader with the C face, in safe clothes; its numbers may be any.
pub trait Face {
    fn fresh() -> FlatReader;
    fn piece(reader: FlatReader, run: &mut Run, piece: &[u8], out: &mut [u8]) -> PieceRead;
    fn end(reader: FlatReader, run: &Run) -> PieceRead;
}

/// The proved library.
pub struct Library;

impl Face for Library {
    fn fresh() -> FlatReader {
        unsafe { trabeculon_reader_fresh() }
    }

    #[inline]
    fn piece(reader: FlatReader, run: &mut Run, piece: &[u8], out: &mut [u8]) -> PieceRead {
        let (list, many) = (run.as_mut_ptr(), run.len());
        let (bytes, words) = (piece.as_ptr(), out.as_mut_ptr());
        let (length, room) = (piece.len(), out.len());
        // Sound: both pairs are a slice's own pointer and length, and don't overlap.
        unsafe { trabeculon_reader_piece(reader, list, many, bytes, length, words, room) }
    }

    fn end(reader: FlatReader, run: &Run) -> PieceRead {
        unsafe { trabeculon_reader_end(reader, run.as_ptr(), run.len()) }
    }
}

/// The plain Rust reader with the same face.
pub struct SameFace;

impl Face for SameFace {
    fn fresh() -> FlatReader {
        unsafe { plain_reader_fresh() }
    }

    #[inline]
    fn piece(reader: FlatReader, run: &mut Run, piece: &[u8], out: &mut [u8]) -> PieceRead {
        let (list, many) = (run.as_mut_ptr(), run.len());
        let (bytes, words) = (piece.as_ptr(), out.as_mut_ptr());
        let (length, room) = (piece.len(), out.len());
        // Sound: as above.
        unsafe { plain_reader_piece(reader, list, many, bytes, length, words, room) }
    }

    fn end(reader: FlatReader, run: &Run) -> PieceRead {
        unsafe { plain_reader_end(reader, run.as_ptr(), run.len()) }
    }
}

pub struct Model;

impl Face for Model {
    fn fresh() -> FlatReader {
        fresh_numbers()
    }

    fn piece(reader: FlatReader, run: &mut Run, piece: &[u8], out: &mut [u8]) -> PieceRead {
        let mut kept = Numbered { reader, run: *run };
        let answer = piece_numbers(Wrong::default(), &mut kept, piece, out);
        *run = kept.run;
        PieceRead { reader: kept.reader, answer }
    }

    fn end(reader: FlatReader, run: &Run) -> PieceRead {
        let mut kept = Numbered { reader, run: *run };
        let answer = end_numbers(Wrong::default(), &mut kept);
        PieceRead { reader: kept.reader, answer }
    }
}

/// The numbers of such a reader, kept by its caller.
pub struct Numbers<F> {
    reader: FlatReader,
    run: Run,
    face: PhantomData<F>,
}

impl<F: Face> Kept for Numbers<F> {
    fn fresh() -> Numbers<F> {
        Numbers { reader: F::fresh(), run: EMPTY, face: PhantomData }
    }

    #[inline]
    fn piece(&mut self, piece: &[u8], out: &mut [u8]) -> Answer {
        let read = F::piece(self.reader, &mut self.run, piece, out);
        self.reader = read.reader;
        read.answer
    }

    fn end(&mut self) -> Answer {
        let read = F::end(self.reader, &self.run);
        self.reader = read.reader;
        read.answer
    }
}

/// The plain Rust reader whose fields are private.
pub struct Private(pieces::Reader, Run);

impl Kept for Private {
    fn fresh() -> Private {
        Private(pieces::fresh(), EMPTY)
    }

    #[inline]
    fn piece(&mut self, piece: &[u8], out: &mut [u8]) -> Answer {
        let read = pieces::piece(self.0, &mut self.1, piece, out);
        self.0 = read.reader;
        read.answer
    }

    fn end(&mut self) -> Answer {
        let read = pieces::end(self.0);
        self.0 = read.reader;
        read.answer
    }
}
