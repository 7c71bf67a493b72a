//! The frame of a page for a browser: its head, its looks, and what it came from. It needs no network and
//! no script.

use super::files::SHEET_MOST;
use super::html::escaped;
use crate::origin;
use std::fmt::Write;

/// A page.
pub struct Page<'a> {
    /// Its title.
    pub title: String,
    /// What it says, as HTML.
    pub body: String,
    /// What comes from the library, as the beginning of a sentence: `The plan comes`.
    pub source: &'a str,
    /// What the sheets that it is about are called, and their bytes.
    pub sheets: &'a [(&'a str, &'a [u8])],
    /// How its drawings are laid out.
    pub rows: Rows,
}

/// How the rows of drawings are laid out.
#[derive(Clone, Copy, Debug, PartialEq, Eq)]
pub enum Rows {
    /// A bar stands between its label and its figures, and on a phone below them.
    Lines,
    /// A bar stands below its label and its figures: where two drawings stand side by side.
    Stacked,
}

impl Page<'_> {
    /// The whole page. The policy forbids the browser to fetch or run anything.
    #[must_use]
    pub fn text(&self) -> String {
        format!(
            "<!DOCTYPE html>\n<html lang=\"en\">\n<head>\n<meta charset=\"utf-8\">\n\
             <meta http-equiv=\"Content-Security-Policy\" content=\"default-src 'none'; style-src 'unsafe-inline'\">\n\
             <meta name=\"viewport\" content=\"width=device-width, initial-scale=1\">\n\
             <title>{}</title>\n<style>\n{}</style>\n</head>\n<body>\n{}\
             <footer>\n<p>{} from a proved library. What this page came from:</p>\n{}\
             <p>{}: commit <code>{}</code></p>\n\
             <p>libspardimple.a: SHA-256 <code>{}</code></p>\n</footer>\n\
             </body>\n</html>\n",
            escaped(&self.title),
            self.looks(),
            self.body,
            self.source,
            self.digests(),
            origin::PROGRAM,
            origin::COMMIT,
            origin::ARCHIVE
        )
    }

    fn looks(&self) -> String {
        let (all, stacked) = (include_str!("page.css"), include_str!("stacked.css"));
        match self.rows {
            Rows::Lines => format!("{all}@media screen and (max-width: 860px) {{\n{stacked}}}\n"),
            Rows::Stacked => format!("{all}{stacked}{}", include_str!("beside.css")),
        }
    }

    /// The digest of each sheet that was read whole.
    fn digests(&self) -> String {
        let mut html = String::new();
        for (name, sheet) in self.sheets {
            if sheet.len() <= SHEET_MOST {
                let (name, digest) = (escaped(name), origin::digest(sheet));
                let _ = writeln!(html, "<p>{name}: SHA-256 <code>{digest}</code></p>");
            }
        }
        html
    }
}
