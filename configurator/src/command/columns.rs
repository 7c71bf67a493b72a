//! Tables of text: columns as wide as their widest field, names to the left, figures to the right.

use unicode_width::UnicodeWidthStr;

/// The columns of a terminal that a text takes: a letter of some scripts takes two.
///
/// ```
/// use configurator::command::columns::width;
///
/// assert_eq!((width("jaw"), width("µs"), width("封口")), (3, 2, 4));
/// ```
#[must_use]
pub fn width(text: &str) -> usize {
    text.width()
}

/// The lines of a table, the header first. A header that begins with `<` is a column of names, set to
/// the left.
///
/// ```
/// use configurator::command::columns::lines;
///
/// let rows = [["cutter", "420"], ["封口", "64"]].map(|row| row.map(str::to_owned).to_vec());
/// assert_eq!(lines(&["<task", "budget"], &rows), ["task    budget", "cutter     420", "封口        64"]);
/// ```
#[must_use]
pub fn lines(head: &[&str], rows: &[Vec<String>]) -> Vec<String> {
    let named: Vec<bool> = head.iter().map(|name| name.starts_with('<')).collect();
    let head: Vec<String> = head.iter().map(|name| name.replace('<', "")).collect();
    let widest = |at: usize| {
        let fields = rows.iter().chain([&head]).filter_map(|row| row.get(at));
        fields.map(|field| width(field)).max().unwrap_or(0)
    };
    let widths: Vec<usize> = (0..head.len()).map(widest).collect();
    let line = |row: &Vec<String>| {
        let fields = row.iter().zip(&widths).zip(&named);
        let fields: Vec<String> = fields
            .map(|((field, widest), &named)| {
                let blanks = " ".repeat(widest - width(field));
                if named {
                    format!("{field}{blanks}")
                } else {
                    format!("{blanks}{field}")
                }
            })
            .collect();
        fields.join("  ").trim_end().to_owned()
    };
    [&head].into_iter().chain(rows).map(line).collect()
}
