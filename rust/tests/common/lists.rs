//! Lists of open tasks, written from documents 01 and 02 alone: which of them the pairs allow, and the load of each. Bit j
//! of a list's number stands for task j.

use super::sheet::Sheet;

/// The most tasks whose lists are all looked at; 16 tasks have 65,536 lists.
pub const MOST_LISTED: usize = 16;

/// The lists that the pairs allow, essential or empty: one that holds a pair's sender holds its receiver. No list holds
/// a task that a pair names and the sheet does not have.
pub fn is_allowed(sheet: &Sheet, list: usize) -> bool {
    let known = |task: u16| usize::from(task) < sheet.tasks.len();
    let holds = |task: u16| known(task) && list >> task & 1 == 1;
    let mut pairs = sheet.pairs.iter();
    pairs.all(|&(sender, receiver)| !holds(sender) || holds(receiver))
}

/// The essential lists: from 1 on, those that the pairs allow.
pub fn essential(sheet: &Sheet) -> Vec<usize> {
    let lists = 1..1 << sheet.tasks.len();
    lists.filter(|&list| is_allowed(sheet, list)).collect()
}

/// E plus the w of every task of the list.
pub fn load(sheet: &Sheet, list: usize) -> i64 {
    let held = (0..).zip(&sheet.tasks);
    let held = held.filter(|&(task, _): &(usize, _)| list >> task & 1 == 1);
    i64::from(sheet.end_load) + held.map(|(_, &w)| i64::from(w)).sum::<i64>()
}

/// The load of every list, from the empty one on.
pub fn loads(sheet: &Sheet) -> Vec<i64> {
    let mut loads = Vec::with_capacity(1 << sheet.tasks.len());
    loads.push(sheet.end_load.into());
    for &w in &sheet.tasks {
        // The next lists are those so far with this task.
        for list in 0..loads.len() {
            loads.push(loads[list] + i64::from(w));
        }
    }
    loads
}

/// Some essential list has a load below zero.
pub fn some_essential_is_too_light(sheet: &Sheet) -> bool {
    let mut lists = (0..).zip(loads(sheet)).skip(1);
    lists.any(|(list, load)| load < 0 && is_allowed(sheet, list))
}

/// The least end load with which no essential list has a load below zero; it may be more than a sheet can state.
pub fn least_end_load(sheet: &Sheet) -> i64 {
    let mut lightest = i64::from(sheet.end_load);
    for (list, load) in (0..).zip(loads(sheet)) {
        if load < lightest && is_allowed(sheet, list) {
            lightest = load;
        }
    }
    i64::from(sheet.end_load) - lightest
}
