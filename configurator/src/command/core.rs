//! One core that is asked about, for `verdict` and `why`: its records and costs, as two files of bytes
//! or as a table of text; and what is told of it where the library refuses it.

use super::files::{self, Lent};
use super::json::{self, Asked, Fields};
use super::{cli, lent, table, Failure};
use crate::explain;
use crate::forms::Text;
use crate::{Answer, Refusal, UnknownNumber};
use clap::ArgMatches;
use std::path::{Path, PathBuf};

/// Where a core's pieces and costs are.
pub enum Core {
    /// In two files of bytes: the records, and the costs.
    Bytes(PathBuf, PathBuf),
    /// In a table of text.
    Table(PathBuf),
}

/// What the library said about a core, and how the answer as JSON begins.
pub struct Heard<T> {
    /// The answer, or what is told of its refusal.
    pub answer: Result<T, Refused>,
    /// The command and the files, as JSON.
    pub begun: Fields,
}

/// A refused core.
pub struct Refused {
    /// The messages, one for each file that is wrong.
    pub said: Vec<String>,
    /// The refusal as JSON.
    pub fields: Fields,
}

impl Core {
    /// The core that the options `--table FILE` or `--records RECORDS COSTS` name, if there is one.
    #[must_use]
    pub fn named(given: &ArgMatches) -> Option<Self> {
        if let Some(table) = cli::path(given, "table") {
            return Some(Core::Table(table));
        }
        let mut files = given.get_many::<PathBuf>("records")?.cloned();
        Some(Core::Bytes(files.next()?, files.next()?))
    }

    /// The files, with what each is.
    #[must_use]
    pub fn files(&self) -> Vec<Asked<'_>> {
        match self {
            Core::Bytes(records, costs) => vec![
                Asked::new("records", records, None),
                Asked::new("costs", costs, None),
            ],
            Core::Table(table) => vec![Asked::new("table", table, None)],
        }
    }

    /// How the core is called in messages.
    #[must_use]
    pub fn name(&self) -> String {
        match self {
            Core::Bytes(path, _) | Core::Table(path) => files::shown(path),
        }
    }

    /// Asks the library about the core.
    ///
    /// # Errors
    ///
    /// A file cannot be read, or the library answers a number that stands for nothing.
    pub fn ask<T>(
        &self,
        command: &str,
        library: impl Fn(&[u8], &[u8]) -> Result<Result<T, Refusal>, UnknownNumber>,
    ) -> Result<Heard<T>, Failure> {
        match self {
            Core::Bytes(records, costs) => of_bytes(command, records, costs, library),
            Core::Table(table) => of_table(command, table, library),
        }
    }
}

/// What the library says about two files of bytes.
fn of_bytes<T>(
    command: &str,
    records: &Path,
    costs: &Path,
    library: impl Fn(&[u8], &[u8]) -> Result<Result<T, Refusal>, UnknownNumber>,
) -> Result<Heard<T>, Failure> {
    files::one_standard([records, costs], "files")?;
    let (lent_records, lent_costs) = (files::records(records)?, files::costs(costs)?);
    let answer = match library(&lent_records.bytes, &lent_costs.bytes)? {
        Ok(answer) => Ok(answer),
        Err(refusal) => {
            let wrong = lent::wrong(refusal, &lent_records, &lent_costs)?;
            let file = |of_costs| files::shown(if of_costs { costs } else { records });
            Err(Refused::in_bytes(refusal, &wrong, file))
        }
    };
    let asked = [
        Asked::new("records", records, whole(&lent_records)),
        Asked::new("costs", costs, whole(&lent_costs)),
    ];
    Ok(Heard {
        answer,
        begun: json::begun(command, &asked),
    })
}

/// The bytes of a file that was read whole.
fn whole(lent: &Lent) -> Option<&[u8]> {
    (lent.length == u64::try_from(lent.bytes.len()).ok()).then_some(&lent.bytes[..])
}

/// What the library says about a table.
fn of_table<T>(
    command: &str,
    path: &Path,
    library: impl Fn(&[u8], &[u8]) -> Result<Result<T, Refusal>, UnknownNumber>,
) -> Result<Heard<T>, Failure> {
    let (name, bytes) = (files::shown(path), files::sheet(path)?);
    let answer = table::ask(&bytes, library)?.map_err(|refusal| {
        let why = explain::refused_in(Text::Table, refusal, &bytes, &|above| above + 1);
        Refused {
            said: vec![why.message(&name)],
            fields: json::refused(&name, &why),
        }
    });
    let asked = [Asked::new("table", path, Some(&bytes))];
    Ok(Heard {
        answer,
        begun: json::begun(command, &asked),
    })
}

impl Refused {
    /// The refusal of two files of bytes, of which one or both are wrong.
    fn in_bytes(refusal: Refusal, wrong: &[lent::Wrong], file: impl Fn(bool) -> String) -> Self {
        let (mut said, mut whys, mut remedies) = (Vec::new(), Vec::new(), Vec::new());
        for wrong in wrong {
            let (file, why, remedy) = (file(wrong.costs), &wrong.why, &wrong.remedy);
            let refused = Answer::Refused(refusal);
            said.push(format!("{file}: {refused}\n  {why}\n  to do: {remedy}"));
            whys.push(format!("{file}: {why}"));
            remedies.push(remedy.clone());
        }
        remedies.dedup();
        let sentences = [refusal.meaning(), whys.join("; "), remedies.join("; ")];
        Refused {
            said,
            fields: json::refusal(refusal, None, sentences.map(Some)),
        }
    }
}
