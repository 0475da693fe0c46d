//! Two rounds in a made-up town, which stand in `examples/` as files. Lengths are in decametres, loads in kilograms.

use super::sheet::{Door, Rule, Sheet};

/// East and north of the depot's main gate.
type Place = (i32, i32);

/// A one-way street: from east of the canal the way back to its west is longer.
const CANAL: i32 = 60;
const DETOUR: i32 = 25;

/// Streets run east and north.
fn distance(from: Place, to: Place) -> i32 {
    let detour = if from.0 > CANAL && to.0 <= CANAL {
        DETOUR
    } else {
        0
    };
    (from.0 - to.0).abs() + (from.1 - to.1).abs() + detour
}

/// What a round is made of; what it costs to end somewhere is the way back to the main gate with the end load.
struct Round<'a> {
    end_load: u16,
    tasks: &'a [i16],
    /// Task, arrival point, departure point, work.
    doors: &'a [(u16, u16, u16, u32)],
    starts: &'a [u16],
    pairs: &'a [(u16, u16)],
    /// Door, watched tasks, least count, charge.
    rules: &'a [(u16, &'a [u16], u16, u32)],
    places: &'a [Place],
}

impl Round<'_> {
    fn sheet(&self) -> Sheet {
        let doors = self.doors.iter();
        let doors = doors.map(|&(task, arrival, departure, work)| Door {
            task,
            arrival,
            departure,
            work,
        });
        let rules = self.rules.iter();
        let rules = rules.map(|&(door, watched, least, charge)| Rule {
            door,
            watched: watched.iter().map(|task| 1 << task).sum(),
            least,
            charge,
        });
        let gate = self.places[0];
        let home = |&place| distance(place, gate) as u32 * u32::from(self.end_load);
        let from = |&from| self.places.iter().map(move |&to| distance(from, to) as u16);
        Sheet {
            kind: 1,
            end_load: self.end_load,
            tasks: self.tasks.to_vec(),
            doors: doors.collect(),
            starts: self.starts.to_vec(),
            pairs: self.pairs.to_vec(),
            rules: rules.collect(),
            points: self.places.iter().map(home).collect(),
            distances: self.places.iter().flat_map(from).collect(),
        }
    }
}

/// Eight tasks and sixteen points: 4,096 cells, as many as the print program has.
pub fn eight() -> Sheet {
    Round {
        end_load: 2_400,
        // Five deliveries; empties (2), a returned parcel (4) and scrap (7) are picked up.
        tasks: &[120, 80, -60, 200, -40, 15, 90, -25],
        doors: &[
            (0, 2, 2, 60_000),
            (0, 3, 3, 45_000), // at the back, quicker
            (1, 4, 4, 50_000),
            (2, 5, 6, 90_000), // in by the yard, out by the lane
            (3, 7, 7, 240_000),
            (3, 8, 8, 180_000), // by the ramp
            (4, 9, 9, 20_000),
            (5, 10, 10, 15_000),
            (5, 11, 11, 15_000),
            (6, 12, 13, 70_000),
            (7, 14, 14, 30_000),
            (7, 15, 15, 10_000),
        ],
        starts: &[0, 1],
        // The parcel of 4 goes to 6, the empties of 2 are told to 5, and 7 takes what 3 leaves behind.
        pairs: &[(4, 6), (2, 5), (3, 7)],
        rules: &[
            (4, &[0, 1, 6], 2, 150_000), // goods that stand in the way of the furniture
            (5, &[0, 1, 6], 1, 60_000),
            (3, &[3], 1, 120_000), // the furniture has to be out before the empties come in
            (9, &[1, 7], 2, 35_000),
        ],
        places: &[
            (0, 0),
            (4, -6),
            (22, 15),
            (25, 18),
            (40, 52),
            (55, 30),
            (58, 36),
            (75, 20),
            (79, 24),
            (90, 61),
            (33, -28),
            (38, -31),
            (84, -12),
            (88, -9),
            (102, 34),
            (98, 40),
        ],
    }
    .sheet()
}

/// Twelve tasks and 24 points, a full day: 98,304 cells.
pub fn twelve() -> Sheet {
    Round {
        end_load: 2_650,
        // Eight deliveries, four pick-ups.
        tasks: &[150, 45, -80, 60, 210, -35, 30, 95, -120, 20, 75, -15],
        doors: &[
            (0, 2, 2, 70_000),
            (0, 3, 3, 50_000),
            (1, 4, 4, 25_000),
            (2, 5, 6, 90_000),
            (3, 7, 7, 40_000),
            (3, 8, 8, 40_000),
            (4, 9, 9, 260_000),
            (4, 10, 11, 190_000),
            (5, 12, 12, 20_000),
            (6, 13, 13, 15_000),
            (7, 14, 14, 80_000),
            (7, 15, 15, 65_000),
            (8, 16, 17, 110_000),
            (9, 18, 18, 15_000),
            (9, 19, 19, 15_000),
            (10, 20, 21, 55_000),
            (11, 22, 22, 10_000),
            (11, 23, 23, 30_000),
        ],
        starts: &[0, 1, 0],
        pairs: &[(2, 6), (5, 10), (8, 9), (4, 11), (0, 8)],
        rules: &[
            (6, &[0, 1, 3, 7], 2, 160_000),
            (7, &[0, 1, 3, 7], 3, 80_000),
            (3, &[4], 1, 130_000),
            (12, &[1, 3, 7, 10], 1, 45_000),
            (15, &[6, 9], 2, 30_000),
        ],
        places: &[
            (0, 0),
            (4, -6),
            (18, 22),
            (21, 26),
            (35, 48),
            (52, 31),
            (57, 38),
            (44, -15),
            (47, -19),
            (76, 18),
            (80, 23),
            (82, 27),
            (95, 58),
            (29, -34),
            (70, -28),
            (73, -31),
            (108, 12),
            (111, 17),
            (63, 66),
            (59, 70),
            (87, -8),
            (92, -5),
            (120, 40),
            (116, 47),
        ],
    }
    .sheet()
}
