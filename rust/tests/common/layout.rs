//! The layout of a task sheet: how the fields of a `Sheet` become bytes, and where each of them then stands.

use super::sheet::Sheet;
use std::fmt;

/// Kind, end load and seven contents lines.
pub const HEAD: usize = 46;
const LINES_AT: usize = 4;
const LINE: usize = 6;

/// One number of a sheet: body 0 is the head, and there the entry is the contents line, or 0 before the lines.
#[derive(Clone, Copy, Debug, PartialEq)]
pub struct Field {
    pub body: usize,
    pub entry: usize,
    pub name: &'static str,
    pub at: usize,
    pub width: usize,
}

impl fmt::Display for Field {
    fn fmt(&self, f: &mut fmt::Formatter<'_>) -> fmt::Result {
        write!(f, "body {} entry {} {}", self.body, self.entry, self.name)
    }
}

impl Field {
    pub fn get(&self, bytes: &[u8]) -> u32 {
        let mut wide = [0; 4];
        wide[..self.width].copy_from_slice(&bytes[self.at..self.at + self.width]);
        u32::from_le_bytes(wide)
    }

    /// Puts as many low bytes of the value as the field is wide.
    pub fn put(&self, bytes: &mut [u8], value: u32) {
        bytes[self.at..self.at + self.width].copy_from_slice(&value.to_le_bytes()[..self.width]);
    }

    pub fn most(&self) -> u32 {
        u32::MAX >> (32 - 8 * self.width)
    }
}

pub const KIND: Field = head_field(0, "kind", 0);
pub const END_LOAD: Field = head_field(0, "end load", 2);

/// The three fields of contents line `line`, 1 to 7.
pub const fn body_number(line: usize) -> Field {
    head_field(line, "body number", LINES_AT + LINE * (line - 1))
}

pub const fn offset(line: usize) -> Field {
    head_field(line, "offset", LINES_AT + LINE * (line - 1) + 2)
}

pub const fn entries(line: usize) -> Field {
    head_field(line, "entries", LINES_AT + LINE * (line - 1) + 4)
}

const fn head_field(entry: usize, name: &'static str, at: usize) -> Field {
    Field {
        body: 0,
        entry,
        name,
        at,
        width: 2,
    }
}

/// A sheet's bytes and the place of every field in them.
pub struct Written {
    pub bytes: Vec<u8>,
    pub fields: Vec<Field>,
    body: usize,
}

impl Written {
    fn head(kind: u16, end_load: u16) -> Written {
        let mut bytes = vec![0; HEAD];
        KIND.put(&mut bytes, kind.into());
        END_LOAD.put(&mut bytes, end_load.into());
        Written {
            bytes,
            fields: vec![KIND, END_LOAD],
            body: 0,
        }
    }

    /// Begins the next body where the one before ends, and fills in its contents line.
    fn begin_body(&mut self, count: usize) {
        self.body += 1;
        let line = [
            body_number(self.body),
            offset(self.body),
            entries(self.body),
        ];
        line[0].put(&mut self.bytes, self.body as u32);
        let end = self.bytes.len() as u32;
        line[1].put(&mut self.bytes, end);
        line[2].put(&mut self.bytes, count as u32);
        self.fields.extend(line);
    }

    fn add(&mut self, entry: usize, name: &'static str, width: usize, value: u32) {
        self.fields.push(Field {
            body: self.body,
            entry,
            name,
            at: self.bytes.len(),
            width,
        });
        self.bytes.extend(&value.to_le_bytes()[..width]);
    }
}

impl Sheet {
    pub fn encode(&self) -> Vec<u8> {
        self.written().bytes
    }

    pub fn written(&self) -> Written {
        let mut out = Written::head(self.kind, self.end_load);
        out.begin_body(self.tasks.len());
        for (i, &w) in self.tasks.iter().enumerate() {
            out.add(i, "load change", 2, w as u16 as u32);
        }
        out.begin_body(self.doors.len());
        for (i, door) in self.doors.iter().enumerate() {
            out.add(i, "task", 2, door.task.into());
            out.add(i, "arrival point", 2, door.arrival.into());
            out.add(i, "departure point", 2, door.departure.into());
            out.add(i, "work", 4, door.work);
        }
        out.begin_body(self.starts.len());
        for (i, &point) in self.starts.iter().enumerate() {
            out.add(i, "point", 2, point.into());
        }
        out.begin_body(self.pairs.len());
        for (i, &(sender, receiver)) in self.pairs.iter().enumerate() {
            out.add(i, "sender task", 2, sender.into());
            out.add(i, "receiver task", 2, receiver.into());
        }
        out.begin_body(self.rules.len());
        for (i, rule) in self.rules.iter().enumerate() {
            out.add(i, "door", 2, rule.door.into());
            out.add(i, "watched tasks", 2, rule.watched.into());
            out.add(i, "least count", 2, rule.least.into());
            out.add(i, "charge", 4, rule.charge);
        }
        out.begin_body(self.points.len());
        for (i, &end_cost) in self.points.iter().enumerate() {
            out.add(i, "end cost", 4, end_cost);
        }
        out.begin_body(self.distances.len());
        for (i, &distance) in self.distances.iter().enumerate() {
            out.add(i, "distance", 2, distance.into());
        }
        out
    }
}
