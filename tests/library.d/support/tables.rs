//! Tables as texts: a row a line, its columns parted by ` | `. Empty lines and lines with `#` at
//! their beginning are no rows.
use std::alloc::Global;
use std::test::Fail;

/// What stands in the place of a column that a row lacks.
const NO_COLUMN: &str = "(no column)";

/// What the rows of a table say.
pub trait Rows {
    /// Whether what a row with these columns says is so.
    fn is_so(&self, columns: [&str; 5]) -> bool;
}

/// Whether the line of a table is a row.
fn is_row(line: &str) -> bool {
    match line.as_bytes().first() {
        Some(b'#') | None => false,
        Some(_) => true,
    }
}

/// The columns of a row. The last one has all that is left.
fn columns(line: &str) -> [&str; 5] {
    let mut columns = [NO_COLUMN; 5];
    let mut rest = Some(line);
    for place in 0..5usize {
        if let Some(text) = rest {
            let (column, left) = match text.split_once(" | ") {
                Some((column, left)) if place < 4 => (column, Some(left)),
                _ => (text, None),
            };
            columns[place] = column;
            rest = left;
        }
    }
    columns
}

/// The first row of the table that is not so; or a note, where the table has not so many rows.
fn wrong_row<'a, R: Rows>(rows: &R, table: &'a str, count: usize) -> Option<&'a str> {
    let mut found = 0usize;
    for line in table.lines() {
        if is_row(line) {
            if !rows.is_so(columns(line)) {
                return Some(line);
            }
            found = found.saturating_add(1);
        }
    }
    if found == count {
        None
    } else {
        Some("another number of rows")
    }
}

/// Fails with the first row of the table that is not so, or where the table has not so many rows.
pub fn rows_hold<R: Rows>(rows: &R, table: &str, count: usize) -> Result<(), Fail> {
    match wrong_row(rows, table, count) {
        Some(row) => Err(Fail::new(row)),
        None => Ok(()),
    }
}

/// What the next byte of a text with escapes is.
#[derive(Clone, Copy)]
enum Next {
    Plain,
    Escaped,
    High,
    Low(u8),
    Wrong,
}

/// The number of a digit to the base 16.
fn digit(byte: u8) -> Option<u8> {
    match byte {
        b'0'..=b'9' => Some(byte.wrapping_sub(b'0')),
        b'A'..=b'F' => Some(byte.wrapping_sub(b'A' - 10)),
        _ => None,
    }
}

/// What the byte after this one is, and the byte that ends here.
fn step(next: Next, byte: u8) -> (Next, Option<u8>) {
    match (next, byte) {
        (Next::Plain, b'\\') => (Next::Escaped, None),
        (Next::Plain, _) => (Next::Plain, Some(byte)),
        (Next::Escaped, b'n') => (Next::Plain, Some(b'\n')),
        (Next::Escaped, b'\\') => (Next::Plain, Some(b'\\')),
        (Next::Escaped, b'x') => (Next::High, None),
        (Next::High, _) => match digit(byte) {
            Some(high) => (Next::Low(high), None),
            None => (Next::Wrong, None),
        },
        (Next::Low(high), _) => match digit(byte) {
            Some(low) => (Next::Plain, Some(high.wrapping_mul(16).wrapping_add(low))),
            None => (Next::Wrong, None),
        },
        _ => (Next::Wrong, None),
    }
}

/// The bytes of a text in which `\n` is a line feed, `\\` a backslash and `\xNN` a byte; none where
/// another escape stands there, or memory runs out.
pub fn bytes_of(alloc: Global, text: &str) -> Option<Vec<u8>> {
    let mut bytes = Vec::new(alloc);
    let mut next = Next::Plain;
    for &byte in text.as_bytes() {
        let (after, ended) = step(next, byte);
        next = after;
        if let Some(ended) = ended {
            bytes.push(ended).ok()?;
        }
    }
    match next {
        Next::Plain => Some(bytes),
        _ => None,
    }
}
