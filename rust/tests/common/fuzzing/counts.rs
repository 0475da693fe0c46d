//! How often each call gave each of its numbers, and what of it was asked for.

use super::calls::Call;
use super::case::Case;
use super::compare::Outcome;
use crate::common::pricing::tied_starts;
use crate::common::tested::ACCEPTED;
use std::collections::BTreeMap;

/// The calls that the shares below are of.
const OF_CALLS: u64 = 10_000_000;
const SHARE_OF_EACH_NUMBER: u64 = 10_000;
const SHARE_PLANNED: u64 = 300_000;
const SHARE_TIED: u64 = 20_000;
const SHARE_LONG: u64 = 1_000;
const SHARE_TAKEN_ABOARD: u64 = 50_000;
const SHARE_PRICED: u64 = 300_000;
const SHARE_STARTS_TIED: u64 = 20_000;
const SHARE_ACCEPTED: u64 = 300_000;

/// The fewest tasks of a long round.
const LONG: usize = 6;

#[derive(Clone, Debug, Default)]
pub struct Counts {
    answers: BTreeMap<(Call, u32), u64>,
    /// Planned, with several solutions that cost as little as any.
    pub tied: u64,
    /// Planned, with six tasks or more.
    pub long: u64,
    /// Planned, with an end load for which the old 16 refused it: crates are taken aboard in the round.
    pub taken_aboard: u64,
    /// Priced, with several starts from which it costs as little as from any.
    pub starts_tied: u64,
    /// Calls after which something was not as is due.
    pub differences: u64,
}

impl Counts {
    pub fn add(&mut self, call: Call, case: &Case, outcome: &Outcome) {
        let Ok(number) = *outcome else {
            self.differences += 1;
            return;
        };
        *self.answers.entry((call, number)).or_default() += 1;
        let (Ok(solved), ACCEPTED) = (&case.solved, number) else {
            return;
        };
        match call {
            Call::Plan => {
                self.tied += u64::from(solved.cheapest > 1);
                self.long += u64::from(solved.sheet.tasks.len() >= LONG);
                self.taken_aboard += u64::from(solved.sheet.old_16_applies());
            }
            Call::Price => {
                let starts = tied_starts(&solved.due, &solved.sheet.starts);
                self.starts_tied += u64::from(starts.len() > 1);
            }
            _ => {}
        }
    }

    pub fn add_all(&mut self, others: &Counts) {
        for (&answer, times) in &others.answers {
            *self.answers.entry(answer).or_default() += times;
        }
        self.tied += others.tied;
        self.long += others.long;
        self.taken_aboard += others.taken_aboard;
        self.starts_tied += others.starts_tied;
        self.differences += others.differences;
    }

    pub fn of(&self, call: Call, number: u32) -> u64 {
        self.answers.get(&(call, number)).copied().unwrap_or(0)
    }

    pub fn calls(&self) -> u64 {
        self.answers.values().sum::<u64>() + self.differences
    }

    pub fn planned(&self) -> u64 {
        self.of(Call::Plan, ACCEPTED)
    }

    pub fn priced(&self) -> u64 {
        self.of(Call::Price, ACCEPTED)
    }

    pub fn accepted(&self) -> u64 {
        self.of(Call::Validate, ACCEPTED)
    }

    /// What was met less often than its share of the calls, or not at all.
    pub fn too_few(&self) -> Vec<String> {
        let calls = self.calls();
        let mut shares = self.shares();
        shares.retain(|&(_, met, share)| met == 0 || met * OF_CALLS < share * calls);
        let told = |(name, met, share)| {
            format!("{name}: {met} in {calls} calls, fewer than {share} in {OF_CALLS}")
        };
        shares.into_iter().map(told).collect()
    }

    /// What was asked for: its name, how often it was met, and its share.
    fn shares(&self) -> Vec<(String, u64, u64)> {
        let of_numbers = Call::ALL.into_iter().flat_map(|call| {
            let share = move |number| {
                let name = format!("{} {number}", call.name());
                (name, self.of(call, number), SHARE_OF_EACH_NUMBER)
            };
            call.numbers().into_iter().map(share)
        });
        let others = [
            ("planned", self.planned(), SHARE_PLANNED),
            ("planned with a tie", self.tied, SHARE_TIED),
            ("planned with six tasks or more", self.long, SHARE_LONG),
            (
                "planned though the lightest list of tasks is below zero",
                self.taken_aboard,
                SHARE_TAKEN_ABOARD,
            ),
            ("priced", self.priced(), SHARE_PRICED),
            (
                "priced with tied starts",
                self.starts_tied,
                SHARE_STARTS_TIED,
            ),
            ("accepted", self.accepted(), SHARE_ACCEPTED),
        ];
        let others = others.map(|(name, met, share)| (name.to_string(), met, share));
        of_numbers.chain(others).collect()
    }
}
