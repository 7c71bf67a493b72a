//! The desk program's answers, printed as they come: `ok`, `refusal` with its number and what it
//! carries, or a listing.

use crate::command::{Failure, Streams};
use crate::Refusal;
use std::io::{BufRead, BufReader, Read};
use std::path::Path;
use std::str;

/// More than any line of an answer has.
const LINE_MOST: u64 = 1_024;

/// What an answer says.
#[derive(Clone, Copy, Debug, PartialEq, Eq)]
pub enum Answer {
    /// The edit is accepted.
    Accepted,
    /// It is refused.
    Refused(Refusal),
    /// The listing that was asked for.
    Listing,
    /// Words that are no answer; they are printed all the same.
    Other,
}

/// The answers that a program writes.
pub struct Answers<R> {
    from: BufReader<R>,
}

impl<R: Read> Answers<R> {
    /// The answers that come from there.
    pub fn new(from: R) -> Self {
        Answers {
            from: BufReader::new(from),
        }
    }

    /// Prints the next answer, and gives what it says; nothing behind the last one.
    ///
    /// # Errors
    ///
    /// The program cannot be read, or the answer not be printed.
    pub fn next(
        &mut self,
        program: &Path,
        streams: &mut Streams,
    ) -> Result<Option<Answer>, Failure> {
        let line = match self.line(program, streams)? {
            Some(line) => line,
            None => return Ok(None),
        };
        let words: Vec<&str> = str::from_utf8(&line)
            .map(|line| line.trim_end_matches('\n').split('\t').collect())
            .unwrap_or_default();
        Ok(Some(match words[..] {
            ["ok"] => Answer::Accepted,
            ["refusal", number, carries] => match (number.parse(), carries.parse()) {
                (Ok(number), Ok(carries)) => Answer::Refused(Refusal::new(number, carries)),
                _ => Answer::Other,
            },
            ["plan", _, pieces] => {
                for _ in 0..pieces.parse().unwrap_or(0_usize) {
                    if self.line(program, streams)?.is_none() {
                        break;
                    }
                }
                Answer::Listing
            }
            _ => Answer::Other,
        }))
    }

    /// Prints a line, and gives its beginning.
    fn line(&mut self, program: &Path, streams: &mut Streams) -> Result<Option<Vec<u8>>, Failure> {
        let mut beginning = None;
        loop {
            let mut piece = Vec::new();
            let mut some = Read::by_ref(&mut self.from).take(LINE_MOST);
            some.read_until(b'\n', &mut piece)
                .map_err(|error| Failure::of(program, &error))?;
            if piece.is_empty() {
                return Ok(beginning);
            }
            streams.print(&piece)?;
            let ended = piece.ends_with(b"\n");
            beginning = beginning.or(Some(piece));
            if ended {
                return Ok(beginning);
            }
        }
    }
}

#[cfg(test)]
mod tests {
    use super::*;

    /// What the answers say, and what is printed of them.
    fn said(bytes: &[u8]) -> (Vec<Answer>, Vec<u8>) {
        let (mut out, mut err) = (Vec::new(), Vec::new());
        let mut streams = Streams {
            out: &mut out,
            err: &mut err,
            colour: false,
            progress: false,
        };
        let mut answers = Answers::new(bytes);
        let mut all = Vec::new();
        while let Some(answer) = answers.next(Path::new("desk"), &mut streams).unwrap() {
            all.push(answer);
        }
        (all, out)
    }

    #[test]
    fn answers_are_told_apart() {
        let bytes = b"ok\nplan\t1\t2\npiece\t1\npiece\t2\nrefusal\t7\t12\nplan\t0\t0\nok\n";
        let (answers, printed) = said(bytes);
        assert_eq!(
            answers,
            [
                Answer::Accepted,
                Answer::Listing,
                Answer::Refused(Refusal::new(7, 12)),
                Answer::Listing,
                Answer::Accepted
            ]
        );
        assert_eq!(printed, bytes);
    }

    /// Whatever comes is printed, also what is cut short or no answer.
    #[test]
    fn everything_is_printed() {
        let long = [b"refusal\t8\t".repeat(1_000), b"\nok".to_vec()].concat();
        for (bytes, answers) in [
            (&b""[..], &[][..]),
            (b"\n", &[Answer::Other]),
            (b"\xff\nok\n", &[Answer::Other, Answer::Accepted]),
            (b"plan\t1\t3\npiece", &[Answer::Listing]),
            (b"plan\t1\t-3\nok\n", &[Answer::Listing, Answer::Accepted]),
            (b"refusal\t256\t0\n", &[Answer::Other]),
            (b"refusal\t8\n", &[Answer::Other]),
            (&long, &[Answer::Other, Answer::Accepted]),
        ] {
            assert_eq!(said(bytes), (answers.to_vec(), bytes.to_vec()));
        }
    }
}
