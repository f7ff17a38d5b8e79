//! What a Rust programmer would write by hand: a whole text wrapped at 80 cells with the usual crates. It opens no session, keeps
//! nothing and prints no row, only how many there are.
//!
//!     baseline wrap FILE        by the rules of the program
//!     baseline textwrap FILE    by textwrap
use std::process::ExitCode;
use unicode_segmentation::UnicodeSegmentation;
use unicode_width::UnicodeWidthStr;

const WIDTH: u32 = 80;
const TAB: u32 = 4;

/// A grapheme cluster of a line.
struct Cluster {
    cells: u32,
    is_blank: bool,
    is_wide: bool,
}

fn clusters(line: &str) -> Vec<Cluster> {
    let mut found = Vec::new();
    let mut column = 0;
    for text in line.graphemes(true) {
        let is_tab = text == "\t";
        let cells = if is_tab {
            if column < 256 { TAB - column % TAB } else { 1 }
        } else {
            UnicodeWidthStr::width(text) as u32
        };
        column += cells;
        found.push(Cluster {
            cells,
            is_blank: is_tab || text == " ",
            is_wide: cells >= 2 && !is_tab,
        });
    }
    found
}

/// How many blank clusters a line begins with, and the cells by which its other rows are indented.
fn indent(line: &[Cluster]) -> (usize, u32) {
    let lead = line.iter().take_while(|it| it.is_blank).count();
    let cells = line[..lead].iter().map(|it| it.cells).sum();
    (lead, if lead < line.len() && 2 * cells <= WIDTH { cells } else { 0 })
}

/// Where the row that begins at a cluster ends.
fn row_end(line: &[Cluster], start: usize, lead: usize, room: u32) -> usize {
    let (mut at, mut used, mut used_without_blanks) = (start, 0, 0);
    let (mut best, mut last) = (None, start + 1);
    while at < line.len() {
        used += line[at].cells;
        if !line[at].is_blank {
            used_without_blanks = used;
        }
        if used_without_blanks > room && used > room {
            break;
        }
        at += 1;
        if used <= room {
            last = at;
        }
        let may_break = at == line.len()
            || at > lead
                && !line[at].is_blank
                && (line[at - 1].is_blank || line[at].is_wide || line[at - 1].is_wide);
        if may_break && used_without_blanks <= room {
            best = Some(at);
        }
    }
    best.unwrap_or(last)
}

fn rows(line: &str) -> usize {
    let line = clusters(line);
    let (lead, indent) = indent(&line);
    let (mut start, mut count) = (row_end(&line, 0, lead, WIDTH), 1);
    while start < line.len() {
        start = row_end(&line, start, lead, WIDTH - indent);
        count += 1;
    }
    count
}

fn main() -> ExitCode {
    let words: Vec<String> = std::env::args().collect();
    let [_, task, path] = words.as_slice() else {
        return ExitCode::from(2);
    };
    let Ok(text) = std::fs::read_to_string(path) else {
        return ExitCode::from(3);
    };
    let lines = text.split('\n');
    let count: usize = match task.as_str() {
        "wrap" => lines.map(rows).sum(),
        "textwrap" => lines.map(|line| textwrap::wrap(line, WIDTH as usize).len()).sum(),
        _ => return ExitCode::from(2),
    };
    println!("{count} rows");
    ExitCode::SUCCESS
}
