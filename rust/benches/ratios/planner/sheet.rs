//! Reading a task sheet in Rust: 10 to 15, then 17, then 16, each body in one pass.

pub const MAX_TASKS: usize = 12;
pub const DOOR_BYTES: usize = 10;
pub const RULE_BYTES: usize = 10;
const HEAD_BYTES: usize = 46;

/// The fewest and the most entries of each body before the distances.
const LIMITS: [(u32, u32); 6] = [(1, 12), (1, 64), (1, 16), (0, 32), (0, 32), (1, 64)];
/// The bytes of an entry of each body.
const SIZES: [usize; 7] = [2, DOOR_BYTES, 2, 4, RULE_BYTES, 4, 2];

/// A sheet that reads: its bodies, and for each task the set of its receivers.
pub struct Sheet<'a> {
    pub end_load: u32,
    pub ntasks: usize,
    pub npoints: usize,
    pub tasks: &'a [u8],
    pub doors: &'a [u8],
    pub starts: &'a [u8],
    pub rules: &'a [u8],
    pub points: &'a [u8],
    pub distances: &'a [u8],
    pub receivers: [u16; 16],
}

pub fn u16_at(bytes: &[u8], at: usize) -> u32 {
    u16::from_le_bytes([bytes[at], bytes[at + 1]]).into()
}

pub fn u32_at(bytes: &[u8], at: usize) -> u32 {
    u32::from_le_bytes([bytes[at], bytes[at + 1], bytes[at + 2], bytes[at + 3]])
}

/// Of contents line `i`: body number, offset and number of entries.
fn line(bytes: &[u8], i: usize) -> [u32; 3] {
    [0, 2, 4].map(|at| u16_at(bytes, 4 + 6 * i + at))
}

impl<'a> Sheet<'a> {
    pub fn read(bytes: &'a [u8]) -> Result<Sheet<'a>, u32> {
        if bytes.len() < HEAD_BYTES {
            return Err(10);
        }
        if u16_at(bytes, 0) != 1 {
            return Err(11);
        }
        let entries = entries(bytes)?;
        let sheet = Sheet::of_bodies(bytes, &entries, bodies(bytes, &entries)?)?;
        if sheet.has_no_order() {
            return Err(17);
        }
        if sheet.is_too_light() {
            return Err(16);
        }
        Ok(sheet)
    }

    /// 14 and 15: nothing out of range, and a door for each task.
    fn of_bodies(
        bytes: &'a [u8],
        entries: &[u32; 7],
        bodies: [&'a [u8]; 7],
    ) -> Result<Sheet<'a>, u32> {
        let [tasks, doors, starts, pairs, rules, points, distances] = bodies;
        let [ntasks, ndoors, _, _, _, npoints, _] = *entries;
        let mut bad = false;
        let mut served: u64 = 0;
        for door in doors.chunks_exact(DOOR_BYTES) {
            let task = u16_at(door, 0);
            bad |= task >= ntasks || u16_at(door, 2) >= npoints || u16_at(door, 4) >= npoints;
            served |= 1 << (task & 63);
        }
        for start in starts.chunks_exact(2) {
            bad |= u16_at(start, 0) >= npoints;
        }
        let mut receivers = [0; 16];
        for pair in pairs.chunks_exact(4) {
            let (sender, receiver) = (u16_at(pair, 0), u16_at(pair, 2));
            bad |= sender >= ntasks || receiver >= ntasks;
            receivers[sender as usize & 15] |= 1 << (receiver & 15);
        }
        for rule in rules.chunks_exact(RULE_BYTES) {
            let least = u16_at(rule, 4);
            bad |= u16_at(rule, 0) >= ndoors || u16_at(rule, 2) >> ntasks != 0;
            bad |= !(1..=MAX_TASKS as u32).contains(&least);
        }
        if bad {
            return Err(14);
        }
        if served != (1 << ntasks) - 1 {
            return Err(15);
        }
        Ok(Sheet {
            end_load: u16_at(bytes, 2),
            ntasks: ntasks as usize,
            npoints: npoints as usize,
            tasks,
            doors,
            starts,
            rules,
            points,
            distances,
            receivers,
        })
    }

    pub fn full(&self) -> u32 {
        (1 << self.ntasks) - 1
    }

    pub fn load_change(&self, task: usize) -> i32 {
        (u16_at(self.tasks, 2 * task) as i16).into()
    }

    pub fn door(&self, door: usize) -> &[u8] {
        &self.doors[door * DOOR_BYTES..][..DOOR_BYTES]
    }

    pub fn start_point(&self, start: usize) -> usize {
        u16_at(self.starts, 2 * start) as usize
    }

    pub fn distance(&self, from: usize, to: usize) -> u32 {
        u16_at(self.distances, 2 * (from * self.npoints + to))
    }

    /// The load while an essential list is open.
    pub fn load(&self, list: u32) -> u32 {
        self.signed_load(list) as u32
    }

    fn signed_load(&self, list: u32) -> i32 {
        let tasks = (0..self.ntasks).filter(|task| list >> task & 1 == 1);
        let changes: i32 = tasks.map(|task| self.load_change(task)).sum();
        self.end_load as i32 + changes
    }

    /// The receivers of the tasks in a list.
    pub fn receivers_of(&self, list: u32) -> u32 {
        let of = |task: usize| self.receivers[task] & 0u16.wrapping_sub((list >> task & 1) as u16);
        (0..16).fold(0, |set, task| set | of(task)).into()
    }

    fn has_no_order(&self) -> bool {
        let mut left = self.full();
        while left != 0 {
            let staying = left & self.receivers_of(left);
            if staying == left {
                return true;
            }
            left = staying;
        }
        false
    }

    /// Whether some essential list has a load below zero. None has unless the lightest list of all is below zero.
    fn is_too_light(&self) -> bool {
        let negative = (0..self.ntasks).map(|task| self.load_change(task).min(0));
        let lightest = self.end_load as i32 + negative.sum::<i32>();
        let is_essential = |list: u32| self.receivers_of(list) & !list == 0;
        let is_light = |list: u32| self.signed_load(list) < 0 && is_essential(list);
        lightest < 0 && (1..=self.full()).any(is_light)
    }
}

fn entries(bytes: &[u8]) -> Result<[u32; 7], u32> {
    let entries = [0, 1, 2, 3, 4, 5, 6].map(|i| line(bytes, i)[2]);
    let within = |(&count, (fewest, most)): (&u32, (u32, u32))| fewest <= count && count <= most;
    let all_within = entries.iter().zip(LIMITS).all(within);
    if all_within && entries[6] == entries[5] * entries[5] {
        Ok(entries)
    } else {
        Err(12)
    }
}

fn bodies<'a>(bytes: &'a [u8], entries: &[u32; 7]) -> Result<[&'a [u8]; 7], u32> {
    let mut bodies = [bytes; 7];
    let mut at = HEAD_BYTES;
    for i in 0..7 {
        let [body, offset, _] = line(bytes, i);
        let end = at + entries[i] as usize * SIZES[i];
        if body as usize != i + 1 || offset as usize != at {
            return Err(13);
        }
        bodies[i] = bytes.get(at..end).ok_or(13u32)?;
        at = end;
    }
    if at == bytes.len() {
        Ok(bodies)
    } else {
        Err(13)
    }
}
