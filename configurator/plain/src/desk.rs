//! The three edits, and scripts of them: document 01, "Edits on a held plan". Each edit plans
//! afresh.

use crate::listing;
use crate::refusal::Refusal;
use crate::sheet::{self, numbers, Sheet};
use crate::task::{formed, Task, Times, TASKS_MOST};
use crate::verdict::Way;
use crate::walk::{walk, Plan};

/// A held plan: what it is made from, and its rows.
#[derive(Clone, Debug, PartialEq, Eq)]
pub struct Desk {
    /// The machine, the costs and the task list.
    pub sheet: Sheet,
    /// The plan of the walk over these.
    pub plan: Plan,
}

/// An edit.
#[derive(Clone, Copy, Debug, PartialEq, Eq)]
pub enum Edit<'a> {
    /// A task more, at the end of the task list.
    Add(&'a [u8], Times),
    /// The task of that name goes.
    Withdraw(&'a [u8]),
    /// The task of that name gets other times and keeps its place in the list.
    Retime(&'a [u8], Times),
}

impl Desk {
    /// Begins a held plan.
    ///
    /// # Errors
    ///
    /// 7 where the walk sticks.
    pub fn begin(sheet: Sheet, way: Way) -> Result<Self, Refusal> {
        let plan = walk(&sheet, way)?;
        Ok(Desk { sheet, plan })
    }

    /// Does an edit. A refusal leaves the held plan as it is.
    ///
    /// # Errors
    ///
    /// The state's own faults first, then the edit's: 8, 3, 4 or 5, 6, 7. All but 7 carry 0.
    pub fn edit(&mut self, edit: Edit<'_>, way: Way) -> Result<(), Refusal> {
        let refused = |number| Refusal::new(number, 0);
        if let Some(number) = fault(&self.sheet) {
            return Err(refused(number));
        }
        let tasks = edited(&self.sheet.tasks, edit).map_err(refused)?;
        *self = Desk::begin(
            Sheet {
                tasks,
                ..self.sheet.clone()
            },
            way,
        )?;
        Ok(())
    }
}

/// The refusal number of a state made by hand that breaks a rule for its machine, costs or task
/// list: 1, 2, 6, then at its first bad task 8, 3 or 4.
#[must_use]
pub fn fault(sheet: &Sheet) -> Option<u8> {
    if !sheet.machine.sized() {
        return Some(1);
    }
    if !sheet.costs.sized() {
        return Some(2);
    }
    if sheet.tasks.len() > TASKS_MOST {
        return Some(6);
    }
    (0..sheet.tasks.len()).find_map(|place| {
        let task = &sheet.tasks[place];
        if !formed(&task.name) {
            Some(8)
        } else if !task.times.sized() {
            Some(3)
        } else if position(&sheet.tasks[..place], &task.name).is_some() {
            Some(4)
        } else {
            None
        }
    })
}

/// The task list after an edit, or the number of its refusal.
fn edited(tasks: &[Task], edit: Edit<'_>) -> Result<Vec<Task>, u8> {
    let (name, times) = match edit {
        Edit::Add(name, times) | Edit::Retime(name, times) => (name, Some(times)),
        Edit::Withdraw(name) => (name, None),
    };
    if !formed(name) {
        return Err(8);
    }
    if times.map_or(false, |times| !times.sized()) {
        return Err(3);
    }
    let place = position(tasks, name);
    let mut tasks = tasks.to_vec();
    match edit {
        Edit::Add(name, times) => {
            if place.is_some() {
                return Err(4);
            }
            if tasks.len() == TASKS_MOST {
                return Err(6);
            }
            tasks.push(Task {
                name: name.to_vec(),
                times,
            });
        }
        Edit::Withdraw(_) => {
            tasks.remove(place.ok_or(5)?);
        }
        Edit::Retime(_, times) => tasks[place.ok_or(5)?].times = times,
    }
    Ok(tasks)
}

/// The place of the task of that name.
fn position(tasks: &[Task], name: &[u8]) -> Option<usize> {
    tasks.iter().position(|task| task.name == name)
}

/// Plays a script over a sheet: one answer a line, `ok`, `refusal` with number and carry, or the
/// listing. A line of another form is `refusal 8 0`, and so is a last line without its newline. A
/// refused sheet is the one answer and nothing is played.
#[must_use]
pub fn play(bytes: &[u8], script: &[u8], way: Way) -> Vec<u8> {
    let begun = sheet::read(bytes).and_then(|sheet| Desk::begin(sheet, way));
    let mut desk = match begun {
        Ok(desk) => desk,
        Err(refusal) => return refusal_line(refusal),
    };
    script
        .split_inclusive(|&byte| byte == b'\n')
        .flat_map(|line| match command(line) {
            Some(Command::List) => listing::of_plan(&desk.sheet, &desk.plan),
            Some(Command::Edit(edit)) => match desk.edit(edit, way) {
                Ok(()) => b"ok\n".to_vec(),
                Err(refusal) => refusal_line(refusal),
            },
            None => refusal_line(Refusal::new(8, 0)),
        })
        .collect()
}

/// A line of a script.
enum Command<'a> {
    List,
    Edit(Edit<'a>),
}

/// The command that a line of a script spells, its newline with it.
fn command(line: &[u8]) -> Option<Command<'_>> {
    let line = line.strip_suffix(b"\n")?;
    let fields: Vec<&[u8]> = line.split(|&byte| byte == b'\t').collect();
    let times = |fields: &[&[u8]]| numbers(fields).map(Times::from_numbers);
    Some(match fields.as_slice() {
        [b"list"] => Command::List,
        [b"withdraw", name] => Command::Edit(Edit::Withdraw(name)),
        [b"add", name, rest @ ..] => Command::Edit(Edit::Add(name, times(rest)?)),
        [b"retime", name, rest @ ..] => Command::Edit(Edit::Retime(name, times(rest)?)),
        _ => return None,
    })
}

/// A refusal as a script's answer.
#[must_use]
pub fn refusal_line(refusal: Refusal) -> Vec<u8> {
    let Refusal { number, carries } = refusal;
    format!("refusal\t{number}\t{carries}\n").into_bytes()
}
