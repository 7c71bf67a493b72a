//! The tasks that the desk holds, in their order. The desk program answers a refusal with a place in that
//! order; here the name at that place is looked up, and the tasks are written as a sheet again.

use super::script::Line;
use crate::quoted::Sheet;
use crate::text;

/// The tasks, the sheet's first and then those added.
#[derive(Clone, Debug, Default, PartialEq, Eq)]
pub struct Held {
    /// The lines of the machine and the costs.
    head: String,
    tasks: Vec<Task>,
}

/// A task's name and its times, as they stand in an edit.
#[derive(Clone, Debug, PartialEq, Eq)]
struct Task {
    name: Vec<u8>,
    times: Vec<u8>,
}

impl Held {
    /// The tasks of a sheet.
    #[must_use]
    pub fn of(sheet: &Sheet) -> Self {
        let times = |task| {
            let part = sheet.part_of(task);
            part.map_or_else(String::new, |part| part.times.join("\t"))
        };
        let tasks = sheet.fits.iter().map(|fit| Task {
            name: fit.task.into(),
            times: times(fit.task).into(),
        });
        Held {
            head: sheet.head(),
            tasks: tasks.collect(),
        }
    }

    /// The tasks after an edit, if it is accepted.
    #[must_use]
    pub fn after(&self, edit: &Line) -> Self {
        let mut after = self.clone();
        let fields = edit.fields();
        let times = || fields.get(2..).unwrap_or_default().join(&b'\t');
        match fields[..] {
            [b"add", name, ..] => after.tasks.push(Task {
                name: name.to_vec(),
                times: times(),
            }),
            [b"withdraw", name] => after.tasks.retain(|held| held.name != name),
            [b"retime", name, ..] => {
                for held in after.tasks.iter_mut().filter(|held| held.name == name) {
                    held.times = times();
                }
            }
            _ => {}
        }
        after
    }

    /// A sheet of these tasks, each with a part of its own.
    #[must_use]
    pub fn sheet(&self) -> Vec<u8> {
        let mut sheet = self.head.clone().into_bytes();
        for Task { name, times } in &self.tasks {
            sheet.extend([&b"part\t"[..], name, b"\t", times, b"\n"].concat());
        }
        for Task { name, .. } in &self.tasks {
            sheet.extend([&b"fit\t"[..], name, b"\t", name, b"\n"].concat());
        }
        sheet
    }

    /// How many there are.
    #[must_use]
    pub fn count(&self) -> usize {
        self.tasks.len()
    }

    /// The name at a place, from 1.
    #[must_use]
    pub fn at(&self, place: u32) -> Option<&[u8]> {
        let at = usize::try_from(place).ok()?.checked_sub(1)?;
        self.tasks.get(at).map(|task| &task.name[..])
    }

    /// The names, for people.
    pub fn shown(&self) -> impl Iterator<Item = String> + '_ {
        self.tasks.iter().map(|task| text::shown(&task.name))
    }
}

#[cfg(test)]
mod tests {
    use super::*;

    #[test]
    fn names_follow_accepted_edits() {
        let mut held = Held::default();
        for (edit, names) in [
            ("add\ta\t1\t1\t1\t0\t0\t0", &["a"][..]),
            ("add\tb\t1\t1\t1\t0\t0\t0", &["a", "b"]),
            ("add\tc\t1\t1\t1\t0\t0\t0", &["a", "b", "c"]),
            ("retime\tb\t1\t1\t1\t0\t0\t0", &["a", "b", "c"]),
            ("withdraw\tb", &["a", "c"]),
            ("list", &["a", "c"]),
            ("add\tb\t1\t1\t1\t0\t0\t0", &["a", "c", "b"]),
        ] {
            held = held.after(&Line {
                bytes: edit.as_bytes().to_vec(),
                ended: true,
            });
            assert_eq!(held.shown().collect::<Vec<_>>(), names, "{edit}");
        }
        assert_eq!(held.at(3), Some(&b"b"[..]));
        assert_eq!((held.at(0), held.at(4)), (None, None));
    }

    /// The sheet has the times that the tasks have after all edits.
    #[test]
    fn held_tasks_are_a_sheet() {
        let sheet = "machine\t2\t1\ncost\t0\t0\t0\t0\t0\t0\t0\t0\t0\npart\tp\t6\t10\t10\t0\t0\t1\n\
                     fit\ta\tp\nfit\tb\tp\n";
        let mut held = Held::of(&Sheet::parse(sheet.as_bytes()).unwrap());
        for edit in [
            "retime\tb\t1\t2\t3\t4\t5\t6",
            "withdraw\ta",
            "add\tc\t7\t8\t9\t0\t0\t0",
        ] {
            held = held.after(&Line {
                bytes: edit.as_bytes().to_vec(),
                ended: true,
            });
        }
        let after = "machine\t2\t1\ncost\t0\t0\t0\t0\t0\t0\t0\t0\t0\npart\tb\t1\t2\t3\t4\t5\t6\n\
                     part\tc\t7\t8\t9\t0\t0\t0\nfit\tb\tb\nfit\tc\tc\n";
        assert_eq!(held.sheet(), after.as_bytes());
    }
}
