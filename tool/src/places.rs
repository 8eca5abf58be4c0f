//! Places in a text: the line and the column, and the line shown with a caret under the place.

/// The most cells of a line that are shown before the place, and behind it.
const BEFORE: usize = 60;
const BEHIND: usize = 40;

/// What stands where a line is cut.
const CUT: &str = "...";

/// Where a place lies: line and column from 1, counted in bytes, and the line's first place and end.
#[derive(Clone, Copy, Debug, PartialEq, Eq)]
pub struct Spot {
    pub line: usize,
    pub column: usize,
    start: usize,
    end: usize,
}

/// A line as it is shown, and the line under it with the caret.
#[derive(Debug, PartialEq, Eq)]
pub struct Excerpt {
    pub line: String,
    pub caret: String,
}

/// Finds the line of a place. CR, LF and CRLF end a line and belong to it; the text's end is a place too.
pub fn spot(text: &[u8], place: usize) -> Spot {
    let place = place.min(text.len());
    let (mut line, mut start) = (1, 0);
    loop {
        let (end, next) = line_end(text, start);
        if place < next || next == end {
            return Spot { line, column: place - start + 1, start, end };
        }
        line += 1;
        start = next;
    }
}

/// Where the line that starts here ends, and where the next one starts: the same place where the text ends first.
fn line_end(text: &[u8], start: usize) -> (usize, usize) {
    let mut end = start;
    while let Some(byte) = text.get(end) {
        match byte {
            b'\r' if text.get(end + 1) == Some(&b'\n') => return (end, end + 2),
            b'\r' | b'\n' => return (end, end + 1),
            _ => end += 1,
        }
    }
    (end, end)
}

/// Shows the line of a spot. A line that is too long is cut to a window round the place.
pub fn excerpt(text: &[u8], spot: &Spot) -> Excerpt {
    let line = text.get(spot.start..spot.end).unwrap_or(&[]);
    let (before, behind) = line.split_at((spot.column - 1).min(line.len()));
    let (before, behind) = (cells(before), cells(behind));
    if width(&before) + width(&behind) <= BEFORE + BEHIND {
        return Excerpt { line: before.concat() + &behind.concat(), caret: caret(width(&before)) };
    }
    let from = before.len() - fitting(before.iter().rev(), BEFORE);
    let to = fitting(behind.iter(), BEHIND);
    let opening = if from > 0 { CUT } else { "" };
    let closing = if to < behind.len() { CUT } else { "" };
    let (before, behind) = (&before[from..], &behind[..to]);
    Excerpt {
        line: format!("{opening}{}{}{closing}", before.concat(), behind.concat()),
        caret: caret(opening.len() + width(before)),
    }
}

/// A caret behind so many blanks.
fn caret(blanks: usize) -> String {
    " ".repeat(blanks) + "^"
}

/// How many of the cells, from the first on, fit into so many columns.
fn fitting<'a>(cells: impl Iterator<Item = &'a String>, columns: usize) -> usize {
    let mut left = columns;
    let fits = |cell: &&String| {
        let taken = cell.chars().count();
        let fits = taken <= left;
        left = left.saturating_sub(taken);
        fits
    };
    cells.take_while(fits).count()
}

/// The bytes of a line as they are shown: the sign ∈ as itself, a tab as four blanks, any other byte
/// that is not printable as `\xHH`.
fn cells(bytes: &[u8]) -> Vec<String> {
    let mut cells = Vec::new();
    let mut rest = bytes;
    while let Some((first, behind)) = rest.split_first() {
        if let Some(behind) = rest.strip_prefix("∈".as_bytes()) {
            cells.push("∈".to_string());
            rest = behind;
            continue;
        }
        cells.push(match first {
            b'\t' => "    ".to_string(),
            b' '..=b'~' => char::from(*first).to_string(),
            _ => format!("\\x{first:02X}"),
        });
        rest = behind;
    }
    cells
}

/// How many columns cells take.
fn width(cells: &[String]) -> usize {
    cells.iter().map(|cell| cell.chars().count()).sum()
}

#[cfg(test)]
mod tests {
    use super::*;

    fn at(text: &str, place: usize) -> (usize, usize) {
        let found = spot(text.as_bytes(), place);
        (found.line, found.column)
    }

    fn shown(text: &[u8], place: usize) -> (String, String) {
        let found = excerpt(text, &spot(text, place));
        (found.line, found.caret)
    }

    #[test]
    fn lines_and_columns_count_from_one() {
        assert_eq!(at("abc", 0), (1, 1));
        assert_eq!(at("abc", 2), (1, 3));
        assert_eq!(at("a\nbc", 2), (2, 1));
        assert_eq!(at("a\nbc", 3), (2, 2));
    }

    #[test]
    fn the_texts_end_is_a_place() {
        assert_eq!(at("", 0), (1, 1));
        assert_eq!(at("abc", 3), (1, 4));
        assert_eq!(at("abc\n", 4), (2, 1));
        assert_eq!(at("abc\r", 4), (2, 1));
        assert_eq!(at("abc\r\n", 5), (2, 1));
        assert_eq!(at("abc", 99), (1, 4));
    }

    #[test]
    fn every_line_end_counts_once_and_belongs_to_its_line() {
        assert_eq!(at("a\rb", 2), (2, 1));
        assert_eq!(at("a\r\nb", 3), (2, 1));
        assert_eq!(at("a\n\rb", 3), (3, 1));
        assert_eq!(at("a\n\nb", 3), (3, 1));
        assert_eq!(at("a\r\rb", 3), (3, 1));
        assert_eq!(at("a\r\n\r\nb", 5), (3, 1));
        assert_eq!(at("a\nb", 1), (1, 2));
        assert_eq!(at("a\r\nb", 1), (1, 2));
        assert_eq!(at("a\r\nb", 2), (1, 3));
    }

    #[test]
    fn the_caret_stands_under_the_place() {
        assert_eq!(shown(b"one\n  two = <5>\nthree", 12), ("  two = <5>".into(), "        ^".into()));
        assert_eq!(shown(b"abc", 3), ("abc".into(), "   ^".into()));
        assert_eq!(shown(b"abc\n", 4), ("".into(), "^".into()));
        assert_eq!(shown(b"ab\r\ncd", 3), ("ab".into(), "  ^".into()));
    }

    #[test]
    fn odd_bytes_keep_the_caret_in_place() {
        assert_eq!(shown(b"\tx", 1), ("    x".into(), "    ^".into()));
        assert_eq!(shown(b"\t\tx", 1), ("        x".into(), "    ^".into()));
        assert_eq!(shown(b"a\x00\xFFz", 3), ("a\\x00\\xFFz".into(), "         ^".into()));
        assert_eq!(shown(b"a\x00z", 1), ("a\\x00z".into(), " ^".into()));
        assert_eq!(shown("A ∈ {?".as_bytes(), 7), ("A ∈ {?".into(), "     ^".into()));
        assert_eq!(shown("A ∈ {".as_bytes(), 2), ("A ∈ {".into(), "  ^".into()));
        assert_eq!(shown("∈".as_bytes(), 1), ("\\xE2\\x88\\x88".into(), "    ^".into()));
    }

    #[test]
    fn a_long_line_is_cut_round_the_place() {
        let whole = "x".repeat(100);
        assert_eq!(shown(whole.as_bytes(), 99), (whole.clone(), " ".repeat(99) + "^"));
        let long = "x".repeat(500);
        let (line, caret) = shown(long.as_bytes(), 250);
        assert_eq!(line, format!("...{}...", "x".repeat(100)));
        assert_eq!(caret, " ".repeat(63) + "^");
        let (line, caret) = shown(long.as_bytes(), 10);
        assert_eq!(line, format!("{}...", "x".repeat(50)));
        assert_eq!(caret, " ".repeat(10) + "^");
        let (line, caret) = shown(long.as_bytes(), 500);
        assert_eq!(line, format!("...{}", "x".repeat(60)));
        assert_eq!(caret, " ".repeat(63) + "^");
    }

    #[test]
    fn a_wide_cell_is_never_halved() {
        let zeros = vec![0u8; 200];
        let (line, caret) = shown(&zeros, 100);
        assert_eq!(line, format!("...{}...", "\\x00".repeat(25)));
        assert_eq!(caret, " ".repeat(63) + "^");
    }
}
