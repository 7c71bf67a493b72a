//! The lines of a script of edits, from bytes as they come. The script may have any length, and so may
//! each of its lines.

use std::mem;
use std::ops::Range;

/// The longest line that the desk program looks at; a longer one has the form of no edit.
pub const LINE_MOST: usize = 200;

/// A line of a script: of a longer one than [`LINE_MOST`] one byte more.
#[derive(Clone, Debug, Default, PartialEq, Eq)]
pub struct Line {
    /// Its bytes, without the newline.
    pub bytes: Vec<u8>,
    /// Whether a newline ends it.
    pub ended: bool,
}

impl Line {
    /// Whether there is more of the line than any edit has.
    #[must_use]
    pub fn is_long(&self) -> bool {
        self.bytes.len() > LINE_MOST
    }

    /// The line's fields.
    #[must_use]
    pub fn fields(&self) -> Vec<&[u8]> {
        self.bytes.split(|&byte| byte == b'\t').collect()
    }

    /// Where the fields stand.
    #[must_use]
    pub fn places(&self) -> Vec<Range<usize>> {
        let mut from = 0;
        let place = |field: &[u8]| {
            let at = from..from + field.len();
            from = at.end + 1;
            at
        };
        self.fields().into_iter().map(place).collect()
    }
}

/// The line that is under way.
#[derive(Default)]
pub struct Lines {
    line: Line,
}

impl Lines {
    /// Takes the next bytes, and hands out each line that ends among them.
    pub fn take(&mut self, bytes: &[u8], mut each: impl FnMut(Line)) {
        for piece in bytes.split_inclusive(|&byte| byte == b'\n') {
            let text = piece.strip_suffix(b"\n").unwrap_or(piece);
            let room = (LINE_MOST + 1).saturating_sub(self.line.bytes.len());
            let kept = text.len().min(room);
            self.line.bytes.extend_from_slice(&text[..kept]);
            if text.len() < piece.len() {
                self.line.ended = true;
                each(mem::take(&mut self.line));
            }
        }
    }

    /// What is left when the script has ended: a line without a newline.
    #[must_use]
    pub fn end(self) -> Option<Line> {
        Some(self.line).filter(|line| !line.bytes.is_empty())
    }
}

#[cfg(test)]
mod tests {
    use super::*;

    /// The lines of a script that comes so many bytes at a time.
    fn lines(script: &[u8], at_a_time: usize) -> Vec<(Vec<u8>, bool)> {
        let (mut lines, mut all) = (Lines::default(), Vec::new());
        for bytes in script.chunks(at_a_time) {
            lines.take(bytes, |line| all.push((line.bytes, line.ended)));
        }
        all.extend(lines.end().map(|line| (line.bytes, line.ended)));
        all
    }

    #[test]
    fn lines_end_at_newlines_alone() {
        for at_a_time in 1..12 {
            assert_eq!(
                lines(b"list\n\n\0\xff\r\nlist", at_a_time),
                [
                    (b"list".to_vec(), true),
                    (Vec::new(), true),
                    (b"\0\xff\r".to_vec(), true),
                    (b"list".to_vec(), false)
                ]
            );
            assert_eq!(lines(b"list\n", at_a_time).len(), 1);
        }
    }

    #[test]
    fn fields_have_places() {
        let bytes = b"add\t\tx".to_vec();
        let line = Line { bytes, ended: true };
        assert_eq!(line.fields(), [&b"add"[..], b"", b"x"]);
        assert_eq!(line.places(), [0..3, 4..4, 5..6]);
    }

    #[test]
    fn no_line_is_kept_whole_that_is_long() {
        for (length, kept) in [(200, 200), (201, 201), (202, 201), (100_000, 201)] {
            let script = [vec![b'x'; length], b"\n".to_vec()].concat();
            for at_a_time in [1, 7, 8_192, script.len()] {
                assert_eq!(lines(&script, at_a_time), [(vec![b'x'; kept], true)]);
            }
        }
    }
}
