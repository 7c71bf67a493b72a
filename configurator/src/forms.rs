//! The forms that lines have in a timing sheet, and in a table for a verdict: the word that a line
//! begins with, and what stands behind it. By them a line that the library or the table's reader has
//! refused is looked at; they refuse nothing themselves.

use crate::quoted::TIMES;

/// The longest sheet that is accepted: document 01, "Sizes". A table may be as long.
pub const SHEET_MOST: usize = 16_384;

/// What kind of text a line stands in.
#[derive(Clone, Copy, Debug, PartialEq, Eq)]
pub enum Text {
    /// A timing sheet.
    Sheet,
    /// A table of costs and pieces, for a verdict.
    Table,
}

/// The form of a line.
#[derive(Clone, Copy, Debug, PartialEq, Eq)]
pub struct Form {
    /// The word that it begins with.
    pub word: &'static str,
    /// How many names stand behind the word.
    pub names: usize,
    /// How many numbers stand behind the names.
    pub numbers: usize,
}

impl Form {
    const fn new(word: &'static str, names: usize, numbers: usize) -> Self {
        Form {
            word,
            names,
            numbers,
        }
    }

    /// The fields of the line, its word among them.
    #[must_use]
    pub const fn fields(self) -> usize {
        1 + self.names + self.numbers
    }
}

/// A sheet's forms, in its order.
const SHEET: [Form; 4] = [
    Form::new("machine", 0, 2),
    Form::new("cost", 0, 9),
    Form::new("part", 1, 6),
    Form::new("fit", 2, 0),
];

/// A table's forms, in its order.
const TABLE: [Form; 4] = [
    Form::new("cost", 0, 9),
    Form::new("whole", 0, 6),
    Form::new("first", 0, 6),
    Form::new("last", 0, 6),
];

impl Text {
    /// Which text some bytes are, by the first word in them: a table begins with its costs.
    ///
    /// ```
    /// use configurator::forms::Text;
    ///
    /// assert_eq!(Text::of(b"\n Cost 0 0\n"), Text::Table);
    /// assert_eq!(Text::of(b"machine\t2\t1\n"), Text::Sheet);
    /// ```
    #[must_use]
    pub fn of(bytes: &[u8]) -> Self {
        let mut words = bytes.split(u8::is_ascii_whitespace);
        match words.find(|word| !word.is_empty()) {
            Some(word) if word.eq_ignore_ascii_case(b"cost") => Text::Table,
            _ => Text::Sheet,
        }
    }

    /// The forms that a line with so many lines above it may have.
    #[must_use]
    pub fn forms(self, above: usize) -> &'static [Form] {
        match (self, above) {
            (Text::Sheet, 0) => &SHEET[..1],
            (Text::Sheet, 1) => &SHEET[1..2],
            (Text::Sheet, _) => &SHEET[2..],
            (Text::Table, 0) => &TABLE[..1],
            (Text::Table, _) => &TABLE[1..],
        }
    }

    /// The form that a word stands for, wherever it stands and in whichever case it is written.
    #[must_use]
    pub fn form_of(self, word: &[u8]) -> Option<Form> {
        let forms = match self {
            Text::Sheet => &SHEET,
            Text::Table => &TABLE,
        };
        let named = |form: &&Form| form.word.as_bytes().eq_ignore_ascii_case(word);
        forms.iter().find(named).copied()
    }

    /// What the times of a line are called.
    #[must_use]
    pub fn times(self) -> [&'static str; 6] {
        let mut names = TIMES;
        if self == Text::Table {
            names[0] = "x";
        }
        names
    }

    /// The names between a line's word and its times.
    #[must_use]
    pub const fn names_before_times(self) -> usize {
        match self {
            Text::Sheet => 1,
            Text::Table => 0,
        }
    }
}

/// What is wrong with a name's form, and what to do.
#[must_use]
pub fn name_fault(name: &[u8]) -> Option<(&'static str, &'static str)> {
    let letter = |byte: &u8| byte.is_ascii_alphanumeric() || matches!(byte, b'-' | b'.');
    if name.is_empty() {
        Some(("a name is missing here", "write the name"))
    } else if name.len() > 24 {
        Some(("a name has at most 24 letters", "choose a shorter name"))
    } else if !name.iter().all(letter) {
        let why = "a name has ASCII letters, digits, hyphens and full stops only";
        Some((why, "choose a name of these, the same wherever it stands"))
    } else {
        None
    }
}

/// What is wrong with a number's form, and what to do.
#[must_use]
pub fn number_fault(number: &[u8]) -> Option<(&'static str, &'static str)> {
    if number.is_empty() {
        Some((
            "a number is missing here",
            "write the number, 0 if there is none",
        ))
    } else if !number.iter().all(u8::is_ascii_digit) {
        let why = "a number has the digits 0 to 9 only";
        Some((
            why,
            "write a whole number of ticks, without sign, point or comma",
        ))
    } else if number.len() > 7 {
        let why = "a number has at most 7 digits";
        Some((why, "take a longer tick for the whole sheet"))
    } else if number.len() > 1 && number[0] == b'0' {
        Some(("a number has no leading 0", "take the leading 0 away"))
    } else {
        None
    }
}
