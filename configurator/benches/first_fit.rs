//! First fit without splits: the tasks in packing order, each whole on the first core that passes
//! with it, by the library's own verdict. It goes back to every core, which the walk never does.

use std::fmt::Write;

use configurator::quoted::{number, Sheet};
use configurator::{plan, verdict, Answer};

use crate::loads::Load;

/// How many sheets of each workload the walk plans, and how many first fit.
pub fn table(loads: &[Load]) -> String {
    let mut text = "| workload | sheets | the walk | first fit |\n|---|---|---|---|\n".to_owned();
    for load in loads {
        let count = |planned: fn(&[u8]) -> bool| {
            let planned = load.sheets.iter().filter(|sheet| planned(sheet));
            planned.count()
        };
        let _ = writeln!(
            text,
            "| {} | {} | {} | {} |",
            load.name,
            load.sheets.len(),
            count(|sheet| plan(sheet).unwrap().is_ok()),
            count(fits)
        );
    }
    text
}

/// Whether first fit plans a sheet.
fn fits(sheet: &[u8]) -> bool {
    let sheet = Sheet::parse(sheet).expect("the sheet is accepted");
    let numbers = |texts: &[&str]| -> Vec<u64> {
        let numbers = texts.iter().map(|text| number(text).unwrap().into());
        numbers.collect()
    };
    let bytes = |numbers: &[u64]| -> Vec<u8> {
        let bytes = numbers.iter().map(|&number| (number as u32).to_le_bytes());
        bytes.flatten().collect()
    };
    let costs = bytes(&numbers(&sheet.costs));
    let mut tasks: Vec<Vec<u64>> = (sheet.fits.iter())
        .map(|fit| numbers(&sheet.part_of(fit.task).expect("the part is there").times))
        .collect();
    // greater C/D first; the sort keeps the order of those that are equal
    tasks.sort_by(|a, b| (b[0] * a[1]).cmp(&(a[0] * b[1])));
    let mut cores = vec![Vec::new(); sheet.cores];
    tasks.iter().all(|task| {
        let record = [bytes(&[0]), bytes(task)].concat();
        let with = |core: &Vec<u8>| [&core[..], &record].concat();
        let passes = |core: &&mut Vec<u8>| verdict(&with(core), &costs) == Ok(Answer::Passes);
        let core = cores.iter_mut().find(passes);
        core.map(|core| *core = with(core)).is_some()
    })
}
