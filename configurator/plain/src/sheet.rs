//! Reading a timing sheet: document 01, "Sheet" and "Refusal numbers".

use crate::piece::Costs;
use crate::refusal::Refusal;
use crate::task::{formed, Machine, Name, Task, Times, TASKS_MOST};

/// The most bytes of a sheet.
pub const SHEET_MOST: usize = 16_384;

/// What a sheet says, and all that a plan is made from.
#[derive(Clone, Debug, PartialEq, Eq)]
pub struct Sheet {
    /// The cores and the grain.
    pub machine: Machine,
    /// The nine cost constants.
    pub costs: Costs,
    /// The task list.
    pub tasks: Vec<Task>,
}

/// Reads a sheet.
///
/// # Errors
///
/// 9 first, then the refusal of the first bad line from the top, with that line. A missing line is
/// 8 where it should stand.
///
/// ```
/// use plain::sheet;
/// use plain::refusal::Refusal;
///
/// assert_eq!(sheet::read(b""), Err(Refusal::new(8, 1)));
/// assert_eq!(sheet::read(b"machine\t0\t1\n"), Err(Refusal::new(1, 1)));
/// assert_eq!(sheet::read(b"machine\t2\t1\n"), Err(Refusal::new(8, 2)));
/// ```
pub fn read(bytes: &[u8]) -> Result<Sheet, Refusal> {
    if bytes.len() > SHEET_MOST {
        return Err(Refusal::new(9, 0));
    }
    let mut above = Above::default();
    let mut place = 1;
    for line in bytes.split_inclusive(|&byte| byte == b'\n') {
        above
            .read_line(line)
            .map_err(|number| Refusal::new(number, place))?;
        place += 1;
    }
    match (above.machine, above.costs) {
        (Some(machine), Some(costs)) => Ok(Sheet {
            machine,
            costs,
            tasks: above.tasks,
        }),
        _ => Err(Refusal::new(8, place)),
    }
}

/// What stands above a line.
#[derive(Default)]
struct Above {
    machine: Option<Machine>,
    costs: Option<Costs>,
    parts: Vec<(Name, Times)>,
    tasks: Vec<Task>,
}

impl Above {
    /// Reads the next line, its newline with it, or says the number of the refusal: 8, then 1, 2
    /// or 3, then 4, then 5, then 6.
    fn read_line(&mut self, line: &[u8]) -> Result<(), u8> {
        let line = line.strip_suffix(b"\n").ok_or(8)?;
        let fields: Vec<&[u8]> = line.split(|&byte| byte == b'\t').collect();
        match (fields.as_slice(), self.machine, self.costs) {
            ([b"machine", numbers @ ..], None, _) => self.read_machine(numbers),
            ([b"cost", numbers @ ..], Some(_), None) => self.read_costs(numbers),
            ([b"part", name, numbers @ ..], _, Some(_)) if self.tasks.is_empty() => {
                self.read_part(name, numbers)
            }
            ([b"fit", task, part], _, Some(_)) => self.read_fit(task, part),
            _ => Err(8),
        }
    }

    fn read_machine(&mut self, fields: &[&[u8]]) -> Result<(), u8> {
        let [cores, grain] = numbers(fields).ok_or(8)?;
        let machine = Machine { cores, grain };
        if !machine.sized() {
            return Err(1);
        }
        self.machine = Some(machine);
        Ok(())
    }

    fn read_costs(&mut self, fields: &[&[u8]]) -> Result<(), u8> {
        let costs = Costs::from_numbers(numbers(fields).ok_or(8)?);
        if !costs.sized() {
            return Err(2);
        }
        self.costs = Some(costs);
        Ok(())
    }

    fn read_part(&mut self, name: &[u8], fields: &[&[u8]]) -> Result<(), u8> {
        let times = Times::from_numbers(numbers(fields).ok_or(8)?);
        if !formed(name) {
            return Err(8);
        }
        if !times.sized() {
            return Err(3);
        }
        if self.parts.iter().any(|(above, _)| above == name) {
            return Err(4);
        }
        if self.parts.len() == TASKS_MOST {
            return Err(6);
        }
        self.parts.push((name.to_vec(), times));
        Ok(())
    }

    fn read_fit(&mut self, task: &[u8], part: &[u8]) -> Result<(), u8> {
        if !formed(task) || !formed(part) {
            return Err(8);
        }
        if self.tasks.iter().any(|above| above.name == task) {
            return Err(4);
        }
        let same_part = self.parts.iter().find(|(above, _)| above == part);
        let (_, times) = same_part.ok_or(5)?;
        if self.tasks.len() == TASKS_MOST {
            return Err(6);
        }
        self.tasks.push(Task {
            name: task.to_vec(),
            times: *times,
        });
        Ok(())
    }
}

/// Exactly N numbers, if each field is one.
#[must_use]
pub fn numbers<const N: usize>(fields: &[&[u8]]) -> Option<[u64; N]> {
    let numbers: Option<Vec<u64>> = fields.iter().map(|field| number(field)).collect();
    numbers?.try_into().ok()
}

/// A number as a sheet writes it: decimal, 1 to 7 digits, no leading zero but for 0 itself.
fn number(field: &[u8]) -> Option<u64> {
    let digits = (1..=7).contains(&field.len()) && field.iter().all(u8::is_ascii_digit);
    if !digits || (field[0] == b'0' && field.len() > 1) {
        return None;
    }
    let value = |above: u64, &digit: &u8| above * 10 + u64::from(digit - b'0');
    Some(field.iter().fold(0, value))
}
