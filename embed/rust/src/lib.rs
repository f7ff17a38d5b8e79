//! The display map of a text editor: a text under folds, inlays, blocks, tabs and a width, as rows of cells.
//!
//! What the calls do is proved. This crate is not: it is a safe layer over `displaymap.h`, which says what each call
//! does. Offsets count bytes of the text, columns cells, and rows count from 0.
mod raw;

use raw::{Change, Handle, Place, NO_ROW, OK, UNKNOWN_ID};
use std::{fmt, ops::Range, ptr};

/// Why a call did nothing.
#[derive(Clone, Copy, Debug, PartialEq, Eq)]
pub enum Error {
    /// The line, the edit or the question is refused, with the number that a script prints after `!`.
    Refused(u32),
    NoMemory,
    /// The display had 4,294,967,295 events: open the text anew.
    JournalFull,
    /// The bytes aren't UTF-8.
    NotUtf8,
}

impl fmt::Display for Error {
    fn fmt(&self, f: &mut fmt::Formatter) -> fmt::Result {
        match self {
            Error::Refused(number) => write!(f, "refused as {number}"),
            Error::NoMemory => write!(f, "out of memory"),
            Error::JournalFull => write!(f, "the journal is full"),
            Error::NotUtf8 => write!(f, "the bytes aren't UTF-8"),
        }
    }
}

impl std::error::Error for Error {}

/// The side on which a place or an offset is taken, where two fit.
#[derive(Clone, Copy, Debug, PartialEq, Eq)]
pub enum Bias {
    Left,
    Right,
}

/// A row of the display, and a column of cells in it.
#[derive(Clone, Copy, Debug, PartialEq, Eq)]
pub struct Spot {
    pub row: u32,
    pub column: u32,
}

#[derive(Clone, Copy, Debug, PartialEq, Eq)]
pub enum Kind {
    /// A line's first row.
    Head,
    /// A row that continues a line.
    More,
    /// A row of a block.
    Block,
}

#[derive(Clone, Debug, PartialEq, Eq)]
pub struct Row {
    pub kind: Kind,
    pub text: String,
}

/// What a piece of a row comes from.
#[derive(Clone, Copy, Debug, PartialEq, Eq)]
pub enum PieceKind {
    /// Bytes of the text without a tab.
    Text,
    /// One tab of the text.
    Tab,
    /// Part of the inlay of this id.
    Inlay(u32),
    /// What is shown of a fold, or of folds that are joined.
    Placeholder,
    /// A line of the block of this id.
    Block(u32),
    /// The spaces before a row that continues a line.
    Indent,
}

/// A piece of a row: its text as it is printed, the cells that it takes, and the offsets of the text that it goes over.
#[derive(Clone, Debug, PartialEq, Eq)]
pub struct Piece {
    pub kind: PieceKind,
    pub text: String,
    pub cells: u32,
    pub range: Range<u32>,
}

/// The rows in a range made place for `count` others, which begin where the range does.
#[derive(Clone, Debug, PartialEq, Eq)]
pub struct RowChange {
    pub replaced: Range<u32>,
    pub count: u32,
}

impl RowChange {
    /// Whether no row changed.
    pub fn is_nothing(&self) -> bool {
        self.replaced.is_empty() && self.count == 0
    }
}

/// An open display.
pub struct DisplayMap {
    handle: Handle,
}

fn checked(status: u32) -> Result<(), Error> {
    match status {
        OK => Ok(()),
        17 => Err(Error::NoMemory),
        18 => Err(Error::JournalFull),
        19 => Err(Error::NotUtf8),
        number => Err(Error::Refused(number)),
    }
}

fn piece_kind(piece: &raw::Piece) -> PieceKind {
    match piece.kind {
        0 => PieceKind::Text,
        1 => PieceKind::Tab,
        2 => PieceKind::Inlay(piece.id),
        3 => PieceKind::Placeholder,
        4 => PieceKind::Block(piece.id),
        _ => PieceKind::Indent,
    }
}

impl DisplayMap {
    /// Opens a text of UTF-8, in which each CR LF and each lone CR becomes a LF.
    pub fn open(text: &[u8]) -> Result<DisplayMap, Error> {
        let mut map = DisplayMap {
            handle: Handle {
                open: false,
                at: ptr::null_mut(),
            },
        };
        checked(unsafe { raw::displaymap_open(&mut map.handle, text.as_ptr(), text.len()) })?;
        Ok(map)
    }

    /// The last answer.
    fn answer(&mut self) -> String {
        let length = unsafe { raw::displaymap_answer(&mut self.handle, 0, ptr::null_mut(), 0) };
        let mut bytes = vec![0; length];
        unsafe { raw::displaymap_answer(&mut self.handle, 0, bytes.as_mut_ptr(), length) };
        String::from_utf8_lossy(&bytes).into_owned()
    }

    /// Does what a line of a script asks, and returns its answer, each line of it with a LF.
    pub fn line(&mut self, line: &[u8]) -> Result<String, Error> {
        checked(unsafe { raw::displaymap_line(&mut self.handle, line.as_ptr(), line.len()) })?;
        Ok(self.answer())
    }

    /// Replaces a range of the text.
    pub fn edit(&mut self, range: Range<u32>, text: &str) -> Result<(), Error> {
        let Range { start, end } = range;
        checked(unsafe {
            raw::displaymap_edit(&mut self.handle, start, end, text.as_ptr(), text.len())
        })
    }

    /// How many bytes the text has.
    pub fn text_len(&mut self) -> Result<u32, Error> {
        let mut bytes = 0;
        checked(unsafe { raw::displaymap_text_len(&mut self.handle, &mut bytes) })?;
        Ok(bytes)
    }

    /// The text in a range, whose ends have to be boundaries of characters, in order.
    pub fn slice(&mut self, range: Range<u32>) -> Result<String, Error> {
        let Range { start, end } = range;
        checked(unsafe { raw::displaymap_slice(&mut self.handle, start, end) })?;
        Ok(self.answer())
    }

    /// Adds a mark at an offset of the text, which each edit moves. It is before what is put in at its offset for `Left`,
    /// and after that for `Right`.
    pub fn add_mark(&mut self, id: u32, offset: u32, bias: Bias) -> Result<(), Error> {
        let right = bias == Bias::Right;
        checked(unsafe { raw::displaymap_add_mark(&mut self.handle, id, offset, right) })
    }

    /// Takes the mark of this id away.
    pub fn remove_mark(&mut self, id: u32) -> Result<(), Error> {
        checked(unsafe { raw::displaymap_remove_mark(&mut self.handle, id) })
    }

    /// The offset of the mark of this id; `None` where there is none.
    pub fn mark(&mut self, id: u32) -> Result<Option<u32>, Error> {
        let mut offset = 0;
        let status = unsafe { raw::displaymap_mark(&mut self.handle, id, &mut offset) };
        if status == UNKNOWN_ID {
            return Ok(None);
        }
        checked(status)?;
        Ok(Some(offset))
    }

    /// Wraps up to so many runs of lines that wait, and returns whether a line may still wait.
    pub fn wrap(&mut self, runs: u32) -> Result<bool, Error> {
        let mut waits = false;
        checked(unsafe { raw::displaymap_wrap(&mut self.handle, runs, &mut waits) })?;
        Ok(waits)
    }

    /// How many rows there are.
    pub fn row_count(&mut self) -> Result<u32, Error> {
        let mut count = 0;
        checked(unsafe { raw::displaymap_row_count(&mut self.handle, &mut count) })?;
        Ok(count)
    }

    /// The row of this number; `None` past the last.
    pub fn row(&mut self, row: u32) -> Result<Option<Row>, Error> {
        let mut letter = 0;
        let status = unsafe { raw::displaymap_row(&mut self.handle, row, &mut letter) };
        if status == NO_ROW {
            return Ok(None);
        }
        checked(status)?;
        let kind = match u8::try_from(letter) {
            Ok(b't') => Kind::Head,
            Ok(b'w') => Kind::More,
            _ => Kind::Block,
        };
        let text = self.answer();
        Ok(Some(Row { kind, text }))
    }

    /// Up to `count` rows from number `first` on, as the lines that a script prints for them.
    pub fn rows(&mut self, first: u32, count: u32) -> Result<String, Error> {
        checked(unsafe { raw::displaymap_rows(&mut self.handle, first, count) })?;
        Ok(self.answer())
    }

    /// The pieces of the row of this number; `None` past the last.
    pub fn pieces(&mut self, row: u32) -> Result<Option<Vec<Piece>>, Error> {
        let mut found: Vec<raw::Piece> = Vec::new();
        let mut count = 16;
        while count > found.len() {
            found.resize(count, raw::Piece::default());
            let (out, room) = (found.as_mut_ptr(), found.len());
            let status =
                unsafe { raw::displaymap_pieces(&mut self.handle, row, out, room, &mut count) };
            if status == NO_ROW {
                return Ok(None);
            }
            checked(status)?;
        }
        found.truncate(count);
        let answer = self.answer();
        let mut rest = answer.as_str();
        let mut pieces = Vec::new();
        for piece in &found {
            let (text, after) = rest.split_at(piece.bytes);
            rest = after;
            pieces.push(Piece {
                kind: piece_kind(piece),
                text: text.to_string(),
                cells: piece.cells,
                range: piece.start..piece.end,
            });
        }
        Ok(Some(pieces))
    }

    /// The rows that changed since this was last asked, by changes and by wrapping, in one piece. The range counts the rows
    /// of then. Rows outside of it look as they did, but may be further on by now. At first no row makes place for all.
    pub fn changed_rows(&mut self) -> Result<RowChange, Error> {
        let mut change = Change {
            from: 0,
            to: 0,
            count: 0,
        };
        checked(unsafe { raw::displaymap_changed_rows(&mut self.handle, &mut change) })?;
        let Change { from, to, count } = change;
        let replaced = from..to;
        Ok(RowChange { replaced, count })
    }

    /// Where an offset is shown.
    pub fn show(&mut self, offset: u32, bias: Bias) -> Result<Spot, Error> {
        let mut place = Place { row: 0, column: 0 };
        let right = bias == Bias::Right;
        checked(unsafe { raw::displaymap_show(&mut self.handle, offset, right, &mut place) })?;
        let Place { row, column } = place;
        Ok(Spot { row, column })
    }

    /// The nearest spot at which some offset is shown.
    pub fn clip(&mut self, spot: Spot, bias: Bias) -> Result<Spot, Error> {
        let mut place = Place { row: 0, column: 0 };
        let right = bias == Bias::Right;
        let Spot { row, column } = spot;
        checked(unsafe { raw::displaymap_clip(&mut self.handle, row, column, right, &mut place) })?;
        let Place { row, column } = place;
        Ok(Spot { row, column })
    }

    /// The offset that the nearest such spot shows: the least for left, the greatest for right.
    pub fn back(&mut self, spot: Spot, bias: Bias) -> Result<u32, Error> {
        let mut offset = 0;
        let right = bias == Bias::Right;
        let Spot { row, column } = spot;
        checked(unsafe {
            raw::displaymap_back(&mut self.handle, row, column, right, &mut offset)
        })?;
        Ok(offset)
    }
}

impl Drop for DisplayMap {
    fn drop(&mut self) {
        unsafe { raw::displaymap_close(&mut self.handle) }
    }
}
