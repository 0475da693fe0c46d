//! A plain reading of a task sheet, written from documents 01 and 02 alone: each number has its own test, and the first
//! that applies, in the order in which they are tested, is the answer.

use super::lists::{some_essential_is_too_light, MOST_LISTED};
use super::orders::some_order;
use super::sheet::{Door, Rule, Sheet};
use super::tested::{all_applying, first_applying, READING};

/// A sheet has at least the kind, the end load and the seven contents lines.
const HEAD: usize = 46;

/// Fewest entries, most entries and bytes of one entry of bodies 1 to 6; body 7 has P times P entries.
const BODIES: [(usize, usize, usize); 6] = [
    (1, 12, 2),
    (1, 64, 10),
    (1, 16, 2),
    (0, 32, 4),
    (0, 32, 10),
    (1, 64, 4),
];
const DISTANCE: usize = 2;

/// N and P of a sheet that reads, or the number it is refused with.
pub fn reading(sheet: &[u8]) -> Result<(u64, u64), u32> {
    let mut asked = Asked::of(sheet);
    match first_applying(&READING, |number| asked.applies(number)) {
        Some(number) => Err(number),
        None => Ok((asked.count(1).into(), asked.count(6).into())),
    }
}

/// Every number that applies to the sheet, in the order in which they are tested.
///
/// This decides more than the answer does. A number applies only by what is there: nothing is said of a field that
/// the sheet is too short for, and the bodies stand where the numbers of entries put them, whatever the offsets are.
/// Nothing is said of 16 for more than 16 tasks, whose lists are too many to look at; 12 applies there.
pub fn faults(sheet: &[u8]) -> Vec<u32> {
    let mut asked = Asked::of(sheet);
    all_applying(&READING, |number| asked.applies(number))
}

/// The lists of a sheet whose head is whole; entries that the sheet is too short for are left out.
pub fn decode(sheet: &[u8]) -> Sheet {
    Asked::of(sheet).decode()
}

/// A sheet that is asked about one number after the other; its lists are taken apart at most once.
struct Asked<'a> {
    bytes: &'a [u8],
    lists: Option<Sheet>,
}

impl Asked<'_> {
    fn of(bytes: &[u8]) -> Asked<'_> {
        Asked { bytes, lists: None }
    }

    fn applies(&mut self, number: u32) -> bool {
        match number {
            10 => self.bytes.len() < HEAD,
            11 => self.number(0).is_some_and(|kind| kind != 1),
            12 => (1..=7).any(|body| self.count_is_outside(body)),
            13 => (1..=7).any(|body| self.line_is_wrong(body)) || self.length_is_wrong(),
            _ if self.bytes.len() < HEAD => false,
            14 => self.something_is_out_of_range(),
            15 => self.some_task_has_no_door(),
            16 => self.some_essential_list_is_too_light(),
            17 => !some_order(self.count(1).into(), &self.lists().pairs),
            _ => panic!("reading never answers {number}"),
        }
    }

    /// The 16-bit number at a byte, if the sheet has both its bytes.
    fn number(&self, at: usize) -> Option<u16> {
        let bytes = self.bytes.get(at..at + 2)?;
        Some(u16::from(bytes[0]) + 256 * u16::from(bytes[1]))
    }

    /// A field of a contents line: 0 body number, 1 offset, 2 number of entries.
    fn line(&self, body: usize, field: usize) -> Option<u16> {
        self.number(4 + 6 * (body - 1) + 2 * field)
    }

    /// The number of entries of a body, 0 if the sheet ends before it is told.
    fn count(&self, body: usize) -> u16 {
        self.line(body, 2).unwrap_or(0)
    }

    fn entry_bytes(body: usize) -> usize {
        BODIES
            .get(body - 1)
            .map_or(DISTANCE, |&(_, _, bytes)| bytes)
    }

    /// Body 1 starts at byte 46, each next body where the one before ends; body 8 stands for the sheet's end.
    fn start(&self, body: usize) -> usize {
        let before = (1..body).map(|b| usize::from(self.count(b)) * Self::entry_bytes(b));
        HEAD + before.sum::<usize>()
    }

    fn count_is_outside(&self, body: usize) -> bool {
        let Some(count) = self.line(body, 2) else {
            return false;
        };
        let count = usize::from(count);
        match BODIES.get(body - 1) {
            Some(&(fewest, most, _)) => count < fewest || count > most,
            None => count != usize::from(self.count(6)) * usize::from(self.count(6)),
        }
    }

    fn line_is_wrong(&self, body: usize) -> bool {
        let wrong = |told: Option<u16>, due: usize| told.is_some_and(|t| usize::from(t) != due);
        wrong(self.line(body, 0), body) || wrong(self.line(body, 1), self.start(body))
    }

    fn length_is_wrong(&self) -> bool {
        self.bytes.len() >= HEAD && self.bytes.len() != self.start(8)
    }

    fn something_is_out_of_range(&mut self) -> bool {
        let (tasks, doors, points) = (self.count(1), self.count(2), self.count(6));
        let watched_end = 1u64.checked_shl(tasks.into()).unwrap_or(u64::MAX);
        let lists = self.lists();
        let bad_door = |d: &Door| d.task >= tasks || d.arrival >= points || d.departure >= points;
        let bad_start = |&point: &u16| point >= points;
        let bad_pair = |&(sender, receiver): &(u16, u16)| sender >= tasks || receiver >= tasks;
        let bad_rule = |r: &Rule| {
            r.door >= doors || u64::from(r.watched) >= watched_end || r.least < 1 || r.least > 12
        };
        lists.doors.iter().any(bad_door)
            || lists.starts.iter().any(bad_start)
            || lists.pairs.iter().any(bad_pair)
            || lists.rules.iter().any(bad_rule)
    }

    fn some_task_has_no_door(&mut self) -> bool {
        let tasks = self.count(1);
        let lists = self.lists();
        (0..tasks).any(|task| lists.doors.iter().all(|door| door.task != task))
    }

    fn some_essential_list_is_too_light(&mut self) -> bool {
        let listed = usize::from(self.count(1)) <= MOST_LISTED;
        listed && some_essential_is_too_light(self.lists())
    }

    fn lists(&mut self) -> &Sheet {
        if self.lists.is_none() {
            self.lists = Some(self.decode());
        }
        self.lists.as_ref().expect("decoded just now")
    }

    /// The whole entries of a body that lie in the sheet.
    fn entries(&self, body: usize) -> impl Iterator<Item = &[u8]> {
        let end = self.start(body + 1).min(self.bytes.len());
        let start = self.start(body).min(end);
        self.bytes[start..end].chunks_exact(Self::entry_bytes(body))
    }

    fn decode(&self) -> Sheet {
        let u16_at = |e: &[u8], at: usize| u16::from_le_bytes([e[at], e[at + 1]]);
        let u32_at =
            |e: &[u8], at: usize| u32::from_le_bytes([e[at], e[at + 1], e[at + 2], e[at + 3]]);
        let door = |e: &[u8]| Door {
            task: u16_at(e, 0),
            arrival: u16_at(e, 2),
            departure: u16_at(e, 4),
            work: u32_at(e, 6),
        };
        let rule = |e: &[u8]| Rule {
            door: u16_at(e, 0),
            watched: u16_at(e, 2),
            least: u16_at(e, 4),
            charge: u32_at(e, 6),
        };
        Sheet {
            kind: u16_at(self.bytes, 0),
            end_load: u16_at(self.bytes, 2),
            tasks: self.entries(1).map(|e| u16_at(e, 0) as i16).collect(),
            doors: self.entries(2).map(door).collect(),
            starts: self.entries(3).map(|e| u16_at(e, 0)).collect(),
            pairs: self
                .entries(4)
                .map(|e| (u16_at(e, 0), u16_at(e, 2)))
                .collect(),
            rules: self.entries(5).map(rule).collect(),
            points: self.entries(6).map(|e| u32_at(e, 0)).collect(),
            distances: self.entries(7).map(|e| u16_at(e, 0)).collect(),
        }
    }
}
