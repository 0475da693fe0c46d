//! Planning by a recursion over the open list and the point, which keeps each figure that it has found, for sheets with
//! more rounds than can be tried. The tests of planning compare it with the enumeration.

use super::lists::is_allowed;
use super::plan::Plan;
use super::rounds::Due;
use super::sheet::{Rule, Sheet};

/// Plans a sheet that reads.
pub fn recurse(sheet: &Sheet) -> Due {
    Finishing::of(sheet).due()
}

/// Plans a sheet that reads, and counts the solutions that cost as little as any.
pub fn recurse_and_count(sheet: &Sheet) -> (Due, u64) {
    let mut finishing = Finishing::of(sheet);
    let due = finishing.due();
    let solutions = finishing.solutions_at(due.plan.cost);
    (due, solutions)
}

struct Finishing<'a> {
    sheet: &'a Sheet,
    /// The rules on each door.
    rules: Vec<Vec<Rule>>,
    /// What was found, for each list and point.
    found: Vec<Option<u64>>,
}

impl Finishing<'_> {
    fn of(sheet: &Sheet) -> Finishing<'_> {
        let doors = 0..sheet.doors.len();
        let on = |door| {
            let rules = sheet.rules.iter().copied();
            rules.filter(move |rule| usize::from(rule.door) == door)
        };
        Finishing {
            sheet,
            rules: doors.map(|door| on(door).collect()).collect(),
            found: vec![None; sheet.points.len() << sheet.tasks.len()],
        }
    }

    fn due(&mut self) -> Due {
        let lists = 0..1 << self.sheet.tasks.len();
        let cells = lists.flat_map(|list| self.row(list)).collect();
        let plan = self.cheapest();
        Due { plan, cells }
    }

    /// The cells of a list: nothing where the pairs do not allow it.
    fn row(&mut self, list: usize) -> Vec<Option<u64>> {
        let allowed = is_allowed(self.sheet, list);
        let points = 0..self.sheet.points.len();
        let cell = |point| allowed.then(|| self.cost(list, point));
        points.map(cell).collect()
    }

    /// The cost to finish from the point with the list open.
    fn cost(&mut self, list: usize, point: usize) -> u64 {
        if list == 0 {
            return self.sheet.points[point].into();
        }
        let cell = list * self.sheet.points.len() + point;
        if let Some(cost) = self.found[cell] {
            return cost;
        }
        let load = self.load(list);
        let mut least = u64::MAX;
        for door in 0..self.sheet.doors.len() {
            if self.may_be_next(list, door) {
                least = least.min(self.cost_by(list, load, point, door));
            }
        }
        self.found[cell] = Some(least);
        least
    }

    /// The same with this door as the next one.
    fn cost_by(&mut self, list: usize, load: u64, point: usize, number: usize) -> u64 {
        let door = self.sheet.doors[number];
        let to = point * self.sheet.points.len() + usize::from(door.arrival);
        let leg = u64::from(self.sheet.distances[to]) * load;
        let applies = |rule: &&Rule| {
            let watched = list & usize::from(rule.watched);
            watched.count_ones() >= u32::from(rule.least)
        };
        let charges = self.rules[number].iter().filter(applies);
        let charge: u64 = charges.map(|rule| u64::from(rule.charge)).sum();
        let rest = self.cost(list & !(1 << door.task), door.departure.into());
        leg + u64::from(door.work) + charge + rest
    }

    fn load(&self, list: usize) -> u64 {
        let open = |&(task, _): &(usize, &i16)| list >> task & 1 == 1;
        let changes = self.sheet.tasks.iter().enumerate().filter(open);
        let change: i64 = changes.map(|(_, &w)| i64::from(w)).sum();
        let load = i64::from(self.sheet.end_load) + change;
        load.try_into().expect("no load below zero")
    }

    /// The door's task is open, and no sender that it waits for is.
    fn may_be_next(&self, list: usize, door: usize) -> bool {
        let task = self.sheet.doors[door].task;
        let open = |task: u16| list >> task & 1 == 1;
        let mut pairs = self.sheet.pairs.iter();
        open(task) && !pairs.any(|&(sender, receiver)| receiver == task && open(sender))
    }

    /// From the first start with the least cost, at each step the first door by which the cost to finish is reached.
    fn cheapest(&mut self) -> Plan {
        let mut list = (1 << self.sheet.tasks.len()) - 1;
        let points = self.sheet.starts.iter().map(|&point| usize::from(point));
        let costs: Vec<u64> = points.map(|point| self.cost(list, point)).collect();
        let cost = *costs.iter().min().expect("a sheet has a start");
        let start = costs.iter().position(|&c| c == cost).expect("it is there");
        let mut point = usize::from(self.sheet.starts[start]);
        let mut doors = Vec::new();
        while list != 0 {
            let (cost, load) = (self.cost(list, point), self.load(list));
            let mut all_doors = 0..self.sheet.doors.len();
            let door = all_doors.find(|&door| {
                self.may_be_next(list, door) && self.cost_by(list, load, point, door) == cost
            });
            let door = door.expect("some door reaches the least cost");
            doors.push(door as u16);
            list &= !(1 << self.sheet.doors[door].task);
            point = self.sheet.doors[door].departure.into();
        }
        Plan::of(start as u16, &doors, cost)
    }

    /// How many solutions cost this, the least.
    fn solutions_at(&mut self, cost: u64) -> u64 {
        let full_list = (1 << self.sheet.tasks.len()) - 1;
        let mut counted = vec![None; self.found.len()];
        let mut solutions = 0;
        for &point in &self.sheet.starts {
            if self.cost(full_list, point.into()) == cost {
                solutions += self.ways(full_list, point.into(), &mut counted);
            }
        }
        solutions
    }

    /// How many ways to finish from the point with the list open cost as little as any. Twelve tasks have fewer than
    /// 2^29 orders and, with 64 doors, fewer than 2^29 choices of doors, so 64 bits hold the ways from 16 starts.
    fn ways(&mut self, list: usize, point: usize, counted: &mut [Option<u64>]) -> u64 {
        if list == 0 {
            return 1;
        }
        let cell = list * self.sheet.points.len() + point;
        if let Some(ways) = counted[cell] {
            return ways;
        }
        let (cost, load) = (self.cost(list, point), self.load(list));
        let mut ways = 0;
        for number in 0..self.sheet.doors.len() {
            if self.may_be_next(list, number) && self.cost_by(list, load, point, number) == cost {
                let door = self.sheet.doors[number];
                ways += self.ways(list & !(1 << door.task), door.departure.into(), counted);
            }
        }
        counted[cell] = Some(ways);
        ways
    }
}
