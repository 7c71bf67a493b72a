//! Why an edit was refused, for people. The refusal is the desk program's; what stands here looks at
//! the edit's words and at the names of the tasks for what it is about.

use super::form;
use super::held::Held;
use super::script::Line;
use crate::command::show::counted;
use crate::explain::{self, Explained};
use crate::fault::{nearest, Fault};
use crate::text::shown;
use crate::Refusal;
use std::fmt::Write;

/// What to do about 7: an edit changes tasks alone.
const MAKE_ROOM: &str = "withdraw a task, or retime one to less work (C) or more time (D, T); \
                         cores and grain are changed in the sheet";

/// The refusal of the edit with that number, over the tasks that are held.
#[must_use]
pub fn of(refusal: Refusal, number: usize, edit: &Line, held: &Held) -> Explained {
    let name = edit.fields().get(1).map(|name| shown(name));
    let name = name.unwrap_or_default();
    let named = |why| Some(at_name(edit, why));
    let fault = match refusal.number() {
        3 => form::times(edit),
        4 => named(format!(
            "a task `{name}` is held already; `retime` gives it other times"
        )),
        5 => {
            let hint = nearest("task", &name, held.shown());
            named(format!("no task `{name}` is held{hint}"))
        }
        6 => named(format!(
            "{} are held already",
            counted(held.count(), "task")
        )),
        7 => Some(stuck(refusal, edit, held)),
        8 => form::fault(edit),
        _ => None,
    };
    // the edit is no line of a sheet
    let mut explained = explain::refused(refusal, b"");
    explained.to_do = fault.as_ref().and_then(|fault| fault.to_do);
    let (part, why) = fault.map_or((0..0, None), |fault| (fault.part, Some(fault.why)));
    let line = explain::Line::cut(number, &edit.bytes, part.start, part.end);
    (explained.line, explained.why) = (Some(line), why);
    if refusal.number() == 7 {
        let after = held.after(edit);
        if let Some(name) = after.at(refusal.carries()) {
            let _ = write!(explained.meaning, ", `{}`", shown(name));
        }
        explained.no_room = explain::no_room(refusal, &after.sheet()).unwrap_or_default();
    }
    explained
}

/// 7: what the task's place counts, which the meaning has. The edit's own name is at fault if it is the
/// task that has no room.
fn stuck(refusal: Refusal, edit: &Line, held: &Held) -> Fault {
    let after = held.after(edit);
    let fewer = if after.count() < held.count() {
        ", placed afresh, and fewer can need more room"
    } else {
        ""
    };
    let tasks = counted(after.count(), "task");
    let why = format!("after this edit there would be {tasks}{fewer}; the plan stays as it was");
    let fault = if after.at(refusal.carries()) == edit.fields().get(1).copied() {
        at_name(edit, why)
    } else {
        Fault::new(0..0, why)
    };
    fault.with(MAKE_ROOM)
}

/// A fault of the name behind the edit's word.
fn at_name(edit: &Line, why: String) -> Fault {
    let place = edit.places().get(1).cloned();
    Fault::new(place.unwrap_or_default(), why)
}

#[cfg(test)]
mod tests {
    use super::*;

    fn line(text: &str) -> Line {
        Line {
            bytes: text.as_bytes().to_vec(),
            ended: true,
        }
    }

    /// The desk with these tasks.
    fn desk(names: &[&str]) -> Held {
        names.iter().fold(Held::default(), |held, name| {
            held.after(&line(&format!("add\t{name}")))
        })
    }

    /// What is wrong with an edit, over the tasks `panel` and `reject`.
    fn why(number: u8, carries: u32, edit: &str) -> (String, String) {
        let held = desk(&["panel", "reject"]);
        let explained = of(Refusal::new(number, carries), 1, &line(edit), &held);
        (
            explained.line.unwrap().fault,
            explained.why.unwrap_or_default(),
        )
    }

    /// Each edit with the words at fault in it, and why.
    fn faults(number: u8, edits: &[[&str; 3]]) {
        for [edit, part, words] in edits {
            let found = why(number, 0, edit);
            assert_eq!(found, ((*part).to_owned(), (*words).to_owned()), "{edit}");
        }
    }

    #[test]
    fn faults_of_tasks() {
        let times = "1\t1\t1\t0\t0\t0";
        let (panel, dosing) = (
            &*format!("add\tpanel\t{times}"),
            &*format!("retime\tdosing\t{times}"),
        );
        let wrong = "add\tx\t12\t10\t10\t0\t0\t0";
        faults(3, &[[wrong, "12⇥10", "C is 12 here and D is 10"]]);
        let taken = "a task `panel` is held already; `retime` gives it other times";
        faults(4, &[[panel, "panel", taken]]);
        let near = "no task `Reject` is held; `reject` is a different task";
        faults(5, &[["withdraw\tReject", "Reject", near]]);
        faults(5, &[[dosing, "dosing", "no task `dosing` is held"]]);
        faults(6, &[[panel, "panel", "2 tasks are held already"]]);
    }

    /// The task that has no room is named, also where it is another one than the edit's.
    #[test]
    fn no_room() {
        let held = desk(&["panel", "reject"]);
        let stays = "; the plan stays as it was";
        for (edit, place, meaning, fault, why) in [
            ("add\tx\t1\t1\t1\t0\t0\t0", 3, "3, `x`", "x", "3 tasks"),
            ("add\tx\t1\t1\t1\t0\t0\t0", 1, "1, `panel`", "", "3 tasks"),
            (
                "retime\treject\t1\t1\t1\t0\t0\t0",
                2,
                "2, `reject`",
                "reject",
                "2 tasks",
            ),
            (
                "withdraw\tpanel",
                1,
                "1, `reject`",
                "",
                "1 task, placed afresh, and fewer can need more room",
            ),
        ] {
            let explained = of(Refusal::new(7, place), 1, &line(edit), &held);
            assert_eq!(explained.to_do, Some(MAKE_ROOM));
            assert_eq!(
                explained.meaning,
                format!("no core has room for task {meaning}")
            );
            assert_eq!(explained.line.unwrap().fault, fault);
            let why = format!("after this edit there would be {why}{stays}");
            assert_eq!(explained.why, Some(why));
        }
    }

    /// Any refusal of any line has a message.
    #[test]
    fn nothing_is_too_odd() {
        for bytes in [
            &b""[..],
            b"\t",
            b"\0",
            b"add",
            b"add\t",
            b"\xff\t\xff",
            &[b' '; 201],
            &[0xff; 201],
        ] {
            for ended in [true, false] {
                let edit = Line {
                    bytes: bytes.to_vec(),
                    ended,
                };
                for number in 0..=11 {
                    for carries in [0, 1, u32::MAX] {
                        let refusal = Refusal::new(number, carries);
                        let message = of(refusal, 1, &edit, &desk(&["a"])).message("edit");
                        assert!(message.starts_with(&format!("edit:1: refused ({number}): ")));
                        assert!(message.chars().count() < 1_000, "{message}");
                    }
                }
            }
        }
    }
}
