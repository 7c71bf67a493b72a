//! The pages of `report` and `diff`.

use super::command::{root, spardimple};
use std::fs;
use std::path::{Path, PathBuf};

/// Writes the page of a sheet and gives back its path and its text.
pub fn page(folder: &Path, name: &str, sheet: &Path, status: i32) -> (PathBuf, String) {
    let path = folder.join(format!("{name}.html"));
    let words = [
        "report".as_ref(),
        sheet.as_os_str(),
        "-o".as_ref(),
        path.as_os_str(),
    ];
    assert_eq!(spardimple(&words).status.code(), Some(status), "{name}");
    let page = fs::read_to_string(&path).unwrap();
    (path, page)
}

/// The page of an example.
pub fn example(folder: &Path, name: &str, status: i32) -> (PathBuf, String) {
    let sheet = root(&format!("examples/{name}.sheet"));
    page(folder, name, &sheet, status)
}

/// The page of a sheet that is made here. Its file's name is a long one too.
pub fn made(folder: &Path, name: &str, sheet: &str, status: i32) -> (PathBuf, String) {
    page(
        folder,
        name,
        &called(folder, &name.repeat(30), sheet),
        status,
    )
}

/// A sheet that is made here, in a file of that name.
fn called(folder: &Path, name: &str, sheet: &str) -> PathBuf {
    let path = folder.join(format!("{name}.sheet"));
    fs::write(&path, sheet).unwrap();
    path
}

/// The same under a long name, which begins so.
fn long_named(folder: &Path, name: &str, sheet: &str) -> PathBuf {
    let letters = name.chars().cycle().take(180).collect::<String>();
    called(folder, &letters, sheet)
}

/// Writes the page of what moved between two sheets and gives back its path and its text.
pub fn moved(folder: &Path, name: &str, sheets: [&Path; 2], status: i32) -> (PathBuf, String) {
    let path = folder.join(format!("{name}.html"));
    let mut words = vec!["diff".as_ref()];
    words.extend(sheets.map(Path::as_os_str));
    words.extend(["--page".as_ref(), path.as_os_str()]);
    let done = spardimple(&words);
    assert_eq!(done.status.code(), Some(status), "{name}");
    assert!(done.stdout.is_empty() && done.stderr.is_empty(), "{name}");
    let page = fs::read_to_string(&path).unwrap();
    (path, page)
}

/// The page of what moved between two examples.
pub fn moved_examples(folder: &Path, names: [&str; 2], status: i32) -> (PathBuf, String) {
    let [first, second] = names.map(|name| root(&format!("examples/{name}.sheet")));
    moved(folder, &names.join("-to-"), [&first, &second], status)
}

/// The page of what moved between two sheets that are made here.
pub fn made_moved(folder: &Path, name: &str, sheets: [&str; 2], status: i32) -> (PathBuf, String) {
    let first = long_named(folder, &format!("{name}-was-"), sheets[0]);
    let second = long_named(folder, &format!("{name}-now-"), sheets[1]);
    moved(folder, name, [&first, &second], status)
}

/// Looks that a page needs nothing else: no script and no network. Its elements are closed in order.
pub fn assert_alone(page: &str) {
    for word in [
        "<script",
        "src=",
        "href=",
        "url(http",
        "@import",
        "http-equiv=\"refresh",
    ] {
        assert!(!page.contains(word), "{word}");
    }
    assert!(closed(page));
}

/// Whether a page's elements are closed in order. Its comments, scripts and attributes are few enough
/// for this: there are none of the first two, and no attribute has an angle.
fn closed(page: &str) -> bool {
    let mut open: Vec<&str> = Vec::new();
    for tag in page.split('<').skip(1) {
        let tag = &tag[..tag.find('>').expect("a tag ends")];
        let name = tag
            .trim_start_matches('/')
            .split([' ', '/'])
            .next()
            .unwrap();
        if tag.starts_with('/') {
            if open.pop() != Some(name) {
                return false;
            }
        } else if !tag.ends_with('/') && !tag.starts_with('!') && name != "meta" {
            open.push(name);
        }
    }
    open.is_empty()
}

/// How many drawings of all cores a page has.
pub fn drawings(page: &str) -> usize {
    page.matches("<div class=\"charts\"").count()
}

/// How many bars a page has.
pub fn bars(page: &str) -> usize {
    page.matches("<svg class=\"piece ").count() - page.matches("<span><svg class=\"piece ").count()
}

/// How many drawings of demand a page has.
pub fn curves(page: &str) -> usize {
    page.matches("<div class=\"plot\"").count()
}

/// How many cores these are of.
pub fn figures(page: &str) -> usize {
    page.matches("<figure class=\"demand\">").count()
}
