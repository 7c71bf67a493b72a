//! Where listings go, and that none of them takes another file's place.

use super::Wanted;
use crate::command::{files, Failure};
use crate::origin;
use std::collections::HashMap;
use std::fs;
use std::iter;
use std::path::{Path, PathBuf};

/// Where a sheet's listing goes, by its name below the folder of the sheets.
#[must_use]
pub fn listing(out: &Path, name: &Path) -> PathBuf {
    out.join(name.with_extension("listing"))
}

/// Looks that nothing that is written would overwrite a sheet, by whichever name, nor another sheet's listing: links
/// in the folder of the listings can make two places one.
///
/// # Errors
///
/// One would.
pub(super) fn look(folder: &Path, names: &[PathBuf], wanted: &Wanted) -> Result<(), Failure> {
    let identity = |path: &Path| files::identity(fs::metadata(path));
    let sheets: Vec<PathBuf> = names.iter().map(|name| folder.join(name)).collect();
    let known: HashMap<_, _> = (sheets.iter())
        .filter_map(|sheet| Some((identity(sheet)?, sheet)))
        .collect();
    let listings = || names.iter().map(|name| wanted.listing(name));
    let origins = listings().filter(|_| wanted.origins);
    let origins = origins.map(|listing| origin::place(&listing));
    let out = iter::once(wanted.out.to_owned());
    for written in out.chain(listings()).chain(origins) {
        if let Some(sheet) = identity(&written).and_then(|there| known.get(&there)) {
            return Err(files::overwrites(&written, sheet));
        }
    }
    let mut places = HashMap::new();
    for (written, sheet) in listings().zip(&sheets) {
        if let Some(other) = places.insert(place(&written), sheet) {
            return Err(Failure::wrong_use(format!(
                "{}: this would be the listing of {} and of {}; choose another place for the output",
                files::shown(&written),
                files::shown(other),
                files::shown(sheet)
            )));
        }
    }
    Ok(())
}

/// The place that a name stands for: links are followed as far as there is anything.
fn place(path: &Path) -> PathBuf {
    if let Ok(place) = fs::canonicalize(path) {
        return place;
    }
    match (path.parent(), path.file_name()) {
        (Some(folder), Some(name)) => place(folder).join(name),
        _ => path.to_owned(),
    }
}
