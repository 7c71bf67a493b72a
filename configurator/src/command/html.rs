//! Text and tables inside a page, and inside its drawings.

use std::fmt::Write;

/// A text with what HTML would take for its own escaped.
///
/// ```
/// use configurator::command::html::escaped;
///
/// assert_eq!(escaped("a < \"b\" & 'c'"), "a &lt; &quot;b&quot; &amp; &#39;c&#39;");
/// ```
#[must_use]
pub fn escaped(text: &str) -> String {
    let mut safe = String::with_capacity(text.len());
    for c in text.chars() {
        match c {
            '&' => safe.push_str("&amp;"),
            '<' => safe.push_str("&lt;"),
            '>' => safe.push_str("&gt;"),
            '"' => safe.push_str("&quot;"),
            '\'' => safe.push_str("&#39;"),
            '\0'..='\u{8}' | '\u{b}'..='\u{1f}' | '\u{7f}' => safe.push('\u{fffd}'),
            _ => safe.push(c),
        }
    }
    safe
}

/// A paragraph: a sentence with its first letter great and what it quotes set as such.
///
/// ```
/// use configurator::command::html::sentence;
///
/// assert_eq!(sentence("", "no part `a<b` above"), "<p>No part <code>a&lt;b</code> above.</p>\n");
/// ```
#[must_use]
pub fn sentence(before: &str, words: &str) -> String {
    let words = capital(words);
    let parts: Vec<String> = words.split('`').map(escaped).collect();
    let quoted = parts.iter().enumerate().map(|(at, part)| match at % 2 {
        0 => part.clone(),
        _ => format!("<code>{part}</code>"),
    });
    format!("<p>{before}{}.</p>\n", quoted.collect::<String>())
}

/// Words with their first letter great.
#[must_use]
pub fn capital(words: &str) -> String {
    let mut letters = words.chars();
    let first = letters.next().map(|c| c.to_ascii_uppercase());
    first.into_iter().chain(letters).collect()
}

/// Rows of a table that belong together, under a title if they have one.
pub struct Group {
    /// The title, or nothing.
    pub title: String,
    /// The rows.
    pub rows: Vec<Vec<String>>,
}

impl Group {
    /// Rows without a title.
    #[must_use]
    pub fn untitled(rows: Vec<Vec<String>>) -> Self {
        Group {
            title: String::new(),
            rows,
        }
    }
}

/// A table in a box of its own, in which it can be moved sideways where the screen is narrow. A header
/// that begins with `<` is a column of names, set to the left; a field that begins with `*` is new.
///
/// ```
/// use configurator::command::html::{table, Group};
///
/// let rows = vec![vec!["a&b".to_owned(), "420".to_owned()]];
/// assert!(table(&["<task", "budget"], &[Group::untitled(rows)])
///     .contains("<tr><td class=\"name\">a&amp;b</td><td class=\"n\">420</td></tr>"));
/// ```
#[must_use]
pub fn table(head: &[&str], groups: &[Group]) -> String {
    let class = |at: usize| match (head[at].starts_with('<'), at) {
        (true, 0) => "name",
        (true, _) => "t",
        (false, _) => "n",
    };
    let mut html = "<div class=\"scroll\" tabindex=\"0\">\n<table>\n<thead><tr>".to_owned();
    for (at, name) in head.iter().enumerate() {
        let name = escaped(name.trim_start_matches('<'));
        let _ = write!(html, "<th class=\"{}\">{name}</th>", class(at));
    }
    html.push_str("</tr></thead>\n");
    for group in groups {
        html.push_str("<tbody>\n");
        if !group.title.is_empty() {
            let (span, title) = (head.len(), escaped(&group.title));
            let _ = writeln!(
                html,
                "<tr class=\"group\"><th colspan=\"{span}\"><span>{title}</span></th></tr>"
            );
        }
        for row in &group.rows {
            html.push_str("<tr>");
            for (at, field) in row.iter().enumerate() {
                let (field, new) = (escaped(field), field.starts_with('*'));
                let new = if new { " new" } else { "" };
                let _ = write!(html, "<td class=\"{}{new}\">{field}</td>", class(at));
            }
            html.push_str("</tr>\n");
        }
        html.push_str("</tbody>\n");
    }
    html + "</table>\n</div>\n"
}

/// A table with a title over it and what its times are in, if it has rows.
pub fn section(body: &mut String, title: &str, unit: &str, head: &[&str], groups: &[Group]) {
    if groups.iter().any(|group| !group.rows.is_empty()) {
        let _ = writeln!(
            body,
            "<h2>{title} <small>times in {}</small></h2>\n{}",
            escaped(unit),
            table(head, groups)
        );
    }
}
