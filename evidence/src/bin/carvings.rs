//! `carvings N SEED`: N slices of random sound tables, each beside two carvings of the same table, for the inside and then
//! for the outside, all by the engine (order 14). The renumbering between the two tables that are left is found and
//! checked. The first slice that is not two carvings is shown.

use evidence::arguments;
use evidence::call::Call;
use evidence::carvings::{Outcome, Refusals, Trial};
use evidence::memories::{self, Kind};
use evidence::model::floats::Hyperplane;
use evidence::model::memory::{Lent, Memory};
use evidence::random::Random;
use evidence::seeded;
use std::collections::BTreeMap;
use std::process::ExitCode;

const SAME_NUMBERS: &str = "taken, all elements with the same numbers";
const OTHER_NUMBERS: &str = "taken, some with other numbers";
const OTHER_ORDER: &str = "taken, some with other numbers, and a boundary in another order";
const FLUSH: &str = "taken and flush";
const WARNED: &str = "taken, with a warning";
const REFUSED_ALIKE: &str = "refused, the carvings by the same number";
const REFUSED_OTHERWISE: &str = "refused, the carvings by another number";

/// What a run has to meet.
const OUTCOMES: [&str; 7] = [SAME_NUMBERS, OTHER_NUMBERS, OTHER_ORDER, FLUSH, WARNED, REFUSED_ALIKE, REFUSED_OTHERWISE];

#[derive(Default)]
struct Met {
    slices: u64,
    left_out: u64,
    outcomes: BTreeMap<&'static str, u64>,
    refusals: BTreeMap<Refusals, Example>,
}

/// How often, and where the smallest table was met.
struct Example {
    times: u64,
    counts: Vec<u16>,
    step: u64,
}

fn main() -> ExitCode {
    seeded::run("carvings N SEED", compare, report)
}

/// Each step is a slice of one memory; a memory stands for some steps.
fn compare(n: u64, seed: u64, met: &mut Met) -> Result<(), String> {
    let mut r = Random::new(seed);
    let (mut lent, mut left) = (Lent::new(Memory::clear()), 0);
    while met.slices < n {
        if left == 0 {
            let kind = r.pick(&[Kind::Session, Kind::Strange, Kind::TakenApart, Kind::TwoRings]);
            lent = Lent::new(memories::memory(&mut r, kind));
            left = memories::steps(&mut r, kind);
        }
        left -= 1;
        if r.one_in(8) {
            lent = crowded(&mut r, lent);
        }
        lent = compare_step(&mut r, lent, met)?;
    }
    Ok(())
}

fn crowded(r: &mut Random, lent: Lent) -> Lent {
    match lent.table() {
        Ok(table) => Lent::new(memories::crowded(r, table)),
        Err(_) => lent,
    }
}

/// Gives what one of the three cuts leaves.
fn compare_step(r: &mut Random, lent: Lent, met: &mut Met) -> Result<Lent, String> {
    let Some((divider, root)) = spoken_of(r, &lent) else {
        met.left_out += 1;
        return Ok(lent);
    };
    let trial = Trial::new(lent.memory(), divider, root);
    let outcome = trial.outcome().map_err(|line| {
        format!("step {}: does not hold: {line}\n{divider:?}, root {root}\n{}", met.step(), trial.shown())
    })?;
    met.enter(outcome, lent.memory());
    let left = r.pick(&[&trial.slice, &trial.first, &trial.second]);
    Ok(Lent::new(left.memory.clone()))
}

/// Order 14 speaks of sound tables, finite dividers and roots that are no corners. Now and then the last hyperplane again.
fn spoken_of(r: &mut Random, lent: &Lent) -> Option<(Hyperplane, u16)> {
    let table = lent.table().ok()?;
    let Call::Cut { divider, root, .. } = arguments::cut(r, Some(table)) else { return None };
    let divider = table.hyperplanes.last().copied().filter(|_| r.one_in(4)).unwrap_or(divider);
    let root = table.in_use(root)?;
    let is_spoken_of = divider.distance.is_finite() && table.element(root)?.rank() > 0;
    is_spoken_of.then_some((divider, root))
}

impl Met {
    fn step(&self) -> u64 {
        self.slices + self.left_out
    }

    fn enter(&mut self, outcome: Outcome, before: &Memory) {
        match outcome {
            Outcome::Taken { is_flush, has_warning, same_numbers, same_orders } => {
                self.count(if same_numbers { SAME_NUMBERS } else { OTHER_NUMBERS });
                if !same_orders {
                    self.count(OTHER_ORDER);
                }
                if is_flush {
                    self.count(FLUSH);
                }
                if has_warning {
                    self.count(WARNED);
                }
            }
            Outcome::Refused(refusals) => {
                self.count(if refusals.0 == refusals.2 { REFUSED_ALIKE } else { REFUSED_OTHERWISE });
                self.refused(refusals, before);
            }
        }
        self.slices += 1;
    }

    fn count(&mut self, outcome: &'static str) {
        *self.outcomes.entry(outcome).or_default() += 1;
    }

    fn refused(&mut self, refusals: Refusals, before: &Memory) {
        let step = self.step();
        let new = || Example { times: 0, counts: before.counts.clone(), step };
        let example = self.refusals.entry(refusals).or_insert_with(new);
        if before.counts[1..] < example.counts[1..] {
            *example = Example { times: example.times, ..new() };
        }
        example.times += 1;
    }
}

/// How often each outcome was met. One that was never met makes the run fail.
fn report(n: u64, met: &Met) -> bool {
    let unmet = OUTCOMES.iter().filter(|outcome| !seeded::is_met(met.outcomes.get(*outcome), outcome)).count();
    for ((slice, carving, number), Example { times, counts, step }) in &met.refusals {
        let numbers = format!("refused {slice}, the {carving} carving {number}");
        println!("{times:>12}  {numbers}; smallest table {counts:?}, at step {step}");
    }
    println!("{n} slices and their carvings, no difference; {} cuts that order 14 does not speak of", met.left_out);
    unmet == 0
}
