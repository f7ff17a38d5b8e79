//! The sessions of the repository, and worked rows.
use displaymap::{Bias, DisplayMap, Error, Kind, Piece, PieceKind, Row, RowChange, Spot};
use std::{fs, path::Path};

const TEXT: &[u8] = b"fn main() {\n\tlet total = 1;\n}\n";

/// What the program prints for a script, whose lines are read in the second form.
fn played(text: &[u8], script: &[u8]) -> Result<String, Error> {
    let mut map = DisplayMap::open(text)?;
    let mut output = String::new();
    let lines = script.split(|byte| *byte == b'\n');
    let mut lines = lines.filter(|line| !line.is_empty()).peekable();
    lines.next_if(|line| *line == br#"{"script":2}"#);
    for line in lines {
        match map.line(line) {
            Ok(answer) => output += &answer,
            Err(Error::Refused(number)) => output += &format!("! {number}\n"),
            Err(error) => return Err(error),
        }
    }
    Ok(output)
}

/// The sessions with `peek` print the numbers of versions, of which a display of this crate has one alone.
#[test]
fn sessions_print_what_the_program_prints() -> Result<(), Box<dyn std::error::Error>> {
    let folder = Path::new(env!("CARGO_MANIFEST_DIR")).join("../../crates/sessions/data");
    let mut count = 0;
    for entry in fs::read_dir(folder)? {
        let session = entry?.path();
        let script = fs::read(session.join("script"))?;
        if String::from_utf8_lossy(&script).contains("\"peek\"") {
            continue;
        }
        let output = fs::read_to_string(session.join("output"))?;
        let text = fs::read(session.join("text"))?;
        assert_eq!(played(&text, &script)?, output, "{}", session.display());
        count += 1;
    }
    assert!(count >= 10, "{count} sessions");
    Ok(())
}

#[test]
fn a_fold_hides_a_range() -> Result<(), Error> {
    let mut map = DisplayMap::open(TEXT)?;
    map.line(br#"{"fold":[1,11,28]}"#)?;
    map.edit(3..7, "run")?;
    assert!(!map.wrap(9)?);
    assert_eq!(map.row_count()?, 2);
    let text = "fn run() {⋯}".to_string();
    let kind = Kind::Head;
    assert_eq!(map.row(0)?, Some(Row { kind, text }));
    assert_eq!(map.rows(0, 9)?, "0 t|fn run() {⋯}\n1 t|\n");
    assert_eq!(map.row(2)?, None);
    Ok(())
}

#[test]
fn offsets_lead_to_spots_and_back() -> Result<(), Error> {
    let mut map = DisplayMap::open(TEXT)?;
    let spot = Spot { row: 1, column: 4 };
    assert_eq!(map.show(13, Bias::Left)?, spot);
    assert_eq!(map.back(spot, Bias::Right)?, 13);
    assert_eq!(map.clip(Spot { row: 1, column: 2 }, Bias::Right)?, spot);
    assert_eq!(map.show(31, Bias::Left), Err(Error::Refused(2)));
    Ok(())
}

fn piece(kind: PieceKind, text: &str, cells: u32, range: std::ops::Range<u32>) -> Piece {
    let text = text.to_string();
    Piece {
        kind,
        text,
        cells,
        range,
    }
}

#[test]
fn a_row_has_pieces() -> Result<(), Error> {
    let mut map = DisplayMap::open(TEXT)?;
    map.line(br#"{"inlay":[7,22,"right",": T"]}"#)?;
    map.line(br#"{"fold":[1,25,26]}"#)?;
    map.line(br#"{"block":[3,"above",2,["end"]]}"#)?;
    let wanted = vec![
        piece(PieceKind::Tab, "    ", 4, 12..13),
        piece(PieceKind::Text, "let total", 9, 13..22),
        piece(PieceKind::Inlay(7), ": T", 3, 22..22),
        piece(PieceKind::Text, " = ", 3, 22..25),
        piece(PieceKind::Placeholder, "⋯", 1, 25..26),
        piece(PieceKind::Text, ";", 1, 26..27),
    ];
    assert_eq!(map.pieces(1)?, Some(wanted));
    assert_eq!(
        map.pieces(2)?,
        Some(vec![piece(PieceKind::Block(3), "end", 3, 28..28)])
    );
    assert_eq!(map.pieces(4)?, Some(Vec::new()));
    assert_eq!(map.pieces(5)?, None);
    map.edit(0..0, &"\t".repeat(40))?;
    assert_eq!(map.pieces(0)?.map(|pieces| pieces.len()), Some(41));
    Ok(())
}

/// What a host has drawn: it reads the rows that changed, and keeps the others.
fn redraw(map: &mut DisplayMap, drawn: &mut Vec<String>) -> Result<RowChange, Error> {
    let change = map.changed_rows()?;
    let RowChange { replaced, count } = change.clone();
    let rows = map.rows(replaced.start, count)?;
    let texts = rows.lines().filter_map(|row| row.split_once('|'));
    let texts: Vec<String> = texts.map(|(_, text)| text.to_string()).collect();
    assert_eq!(texts.len(), count as usize);
    drawn.splice(replaced.start as usize..replaced.end as usize, texts);
    Ok(change)
}

#[test]
fn a_host_draws_the_rows_that_changed() -> Result<(), Error> {
    let mut map = DisplayMap::open(b"one\ntwo three four\nfive\nsix")?;
    let mut drawn = Vec::new();
    let replaced = |replaced, count| RowChange { replaced, count };
    map.wrap(9)?;
    assert_eq!(redraw(&mut map, &mut drawn)?, replaced(0..0, 4));
    assert_eq!(drawn, ["one", "two three four", "five", "six"]);
    assert!(redraw(&mut map, &mut drawn)?.is_nothing());
    map.edit(4..7, "2")?;
    map.wrap(9)?;
    assert_eq!(redraw(&mut map, &mut drawn)?, replaced(1..2, 1));
    assert_eq!(drawn, ["one", "2 three four", "five", "six"]);
    map.line(br#"{"block":[1,"below",1,["a","b"]]}"#)?;
    assert_eq!(redraw(&mut map, &mut drawn)?, replaced(2..2, 2));
    assert_eq!(drawn, ["one", "2 three four", "a", "b", "five", "six"]);
    map.line(br#"{"width":6}"#)?;
    assert!(redraw(&mut map, &mut drawn)?.is_nothing());
    map.wrap(9)?;
    assert_eq!(redraw(&mut map, &mut drawn)?, replaced(0..6, 8));
    let narrow = ["one", "2 ", "three ", "four", "a", "b", "five", "six"];
    assert_eq!(drawn, narrow);
    map.line(br#"{"fold":[1,17,21]}"#)?;
    map.wrap(9)?;
    assert_eq!(redraw(&mut map, &mut drawn)?, replaced(6..7, 1));
    assert_eq!(drawn[6..], ["⋯", "six"]);
    map.line(br#"{"unblock":1}"#)?;
    assert_eq!(redraw(&mut map, &mut drawn)?, replaced(4..6, 0));
    assert_eq!(drawn, ["one", "2 ", "three ", "four", "⋯", "six"]);
    Ok(())
}

#[test]
fn the_text_is_read_back() -> Result<(), Error> {
    let mut map = DisplayMap::open("a⋯\r\nb".as_bytes())?;
    map.edit(5..5, "\r")?;
    assert_eq!(map.text_len()?, 7);
    assert_eq!(map.slice(0..7)?, "a⋯\n\nb");
    assert_eq!(map.slice(1..4)?, "⋯");
    assert_eq!(map.slice(1..3), Err(Error::Refused(2)));
    assert_eq!(map.slice(4..1), Err(Error::Refused(2)));
    assert_eq!(map.slice(0..8), Err(Error::Refused(2)));
    Ok(())
}

#[test]
fn marks_move_with_edits() -> Result<(), Error> {
    let mut map = DisplayMap::open(TEXT)?;
    map.add_mark(1, 13, Bias::Left)?;
    map.add_mark(2, 13, Bias::Right)?;
    assert_eq!(map.add_mark(2, 0, Bias::Left), Err(Error::Refused(3)));
    assert_eq!(map.add_mark(3, 31, Bias::Left), Err(Error::Refused(2)));
    map.edit(13..13, "ab")?;
    map.line(br#"{"edit":[[0,3,""]]}"#)?;
    assert_eq!((map.mark(1)?, map.mark(2)?), (Some(10), Some(12)));
    map.remove_mark(1)?;
    assert_eq!(map.mark(1)?, None);
    assert_eq!(map.remove_mark(1), Err(Error::Refused(4)));
    Ok(())
}

#[test]
fn bytes_that_are_no_text_are_refused() {
    assert_eq!(DisplayMap::open(b"\xff").err(), Some(Error::NotUtf8));
}
