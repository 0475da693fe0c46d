//! Small random sheets against the plain enumeration, with layers of just enough cells, too few and more.

use super::calls::{check, check_own_room, expect, layer_cells, Layers};
use crate::common::lists::least_end_load;
use crate::common::lively::small;
use crate::common::pricing::{tied_starts, EVEN, ODD};
use crate::common::reading::reading;
use crate::common::rng::Rng;
use crate::common::rounds::{enumerate, Due};
use crate::common::sheet::Sheet;
use crate::common::tally::Times;
use crate::common::valid::{valid, SMALL};

/// How many sheets were priced, and how many of them had several cheapest starts, some of these at different points, an
/// even and an odd number of tasks, lists that the pairs do not allow, and an end load for which the old 16 refused them.
#[derive(Debug, Default)]
struct Met {
    priced: usize,
    starts_tied: usize,
    points_tied: usize,
    even: usize,
    odd: usize,
    lists_left_out: usize,
    taken_aboard: usize,
}

impl Met {
    fn add(&mut self, sheet: &Sheet, due: &Due, starts: usize) {
        let tied = tied_starts(due, &sheet.starts);
        assert_eq!(tied.len(), starts, "{sheet:?}");
        self.priced += 1;
        self.starts_tied += usize::from(starts > 1);
        self.points_tied += usize::from(tied.iter().any(|&point| point != tied[0]));
        self.even += usize::from(sheet.tasks.len() % 2 == EVEN);
        self.odd += usize::from(sheet.tasks.len() % 2 == ODD);
        self.lists_left_out += usize::from(due.cells.contains(&None));
        self.taken_aboard += usize::from(sheet.old_16_applies());
    }
}

/// Prices a sheet that reads in layers of every length.
fn price_in_layers(rng: &mut Rng, sheet: &[u8], due: &Due, times: &mut Times, seed: u64) {
    let cells = layer_cells(due);
    let more = |rng: &mut Rng| cells + rng.below(70);
    for (number, even, odd) in [
        (0, cells, cells),
        (22, cells - 1, cells),
        (22, cells, cells - 1),
        (22, cells - 1, cells - 1),
        (22, more(rng), 0),
        (22, 0, more(rng)),
        (22, 0, 0),
        (22, rng.below(cells), more(rng)),
        (22, more(rng), rng.below(cells)),
        (0, more(rng), cells),
        (0, cells, more(rng)),
        (0, more(rng), more(rng)),
    ] {
        let layers = Layers::noise(rng, even, odd);
        expect(number, sheet, Ok(due), &layers, format_args!("seed {seed}"));
        times.add(number);
    }
}

/// Now and then a pair that no order keeps beside the others, or an end load that is too small.
fn some_sheet(rng: &mut Rng) -> Sheet {
    if rng.one_in(20) {
        return valid(rng, SMALL);
    }
    let mut sheet = small(rng);
    if rng.one_in(12) {
        let any = rng.below(sheet.tasks.len()) as u16;
        let (sender, receiver) = sheet.pairs.first().copied().unwrap_or((any, any));
        sheet.pairs.push((receiver, sender));
    }
    if rng.one_in(12) {
        sheet.end_load = (least_end_load(&sheet) - 1).max(0) as u16;
    }
    sheet
}

#[test]
fn small_random_sheets() {
    let (mut met, mut times) = (Met::default(), Times::default());
    for seed in 0..4_000 {
        let mut rng = Rng::new(seed);
        let sheet = some_sheet(&mut rng);
        let bytes = sheet.encode();
        let case = format_args!("seed {seed}");
        match reading(&bytes) {
            Ok(_) => {
                let (due, ties) = enumerate(&sheet);
                met.add(&sheet, &due, ties.starts);
                price_in_layers(&mut rng, &bytes, &due, &mut times, seed);
                check_own_room(&bytes, Ok(&due), case);
            }
            Err(number) => {
                let (even, odd) = (rng.below(50), rng.below(50));
                let layers = Layers::noise(&mut rng, even, odd);
                times.add(check(&bytes, Err(number), &layers, case));
                check_own_room(&bytes, Err(number), case);
            }
        }
    }
    times.assert_each("answered", &[0, 16, 17, 22], 100);
    assert!(met.priced >= 1_000, "{met:?}");
    assert!(met.starts_tied >= 100, "{met:?}");
    assert!(met.points_tied >= 100, "{met:?}");
    assert!(met.even.min(met.odd) >= 300, "{met:?}");
    assert!(met.lists_left_out >= 300, "{met:?}");
    assert!(met.taken_aboard >= 100, "{met:?}");
}
