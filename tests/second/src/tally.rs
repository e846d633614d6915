//! What was seen, the table printed at the end, and what should have been seen but was not.

use crate::call::{Answer, Call};
use crate::damage::Damage;
use crate::model::{Notes, Sought, StepKind};
use std::fmt::Write;

/// The numbers 0 to 9 that each call can answer, calls in the order of `Call::NAMES`.
const POSSIBLE: [&[usize]; 7] = [
    &[0, 1, 2],
    &[0, 1, 2, 3, 4, 7],
    &[0, 1, 2, 3, 4, 5, 6],
    &[0, 1, 2, 3, 4, 7],
    &[0, 1, 2, 3, 4, 7],
    &[0, 1, 2, 3, 8],
    &[0, 1, 2, 3, 9],
];

/// The calls that search for a key, as places in `Call::NAMES`.
const SEARCHING: [usize; 4] = [1, 2, 3, 4];

pub const WORK_NAMES: [&str; 5] = [
    "histories",
    "big stores",
    "arbitrary stores",
    "damages",
    "demand 3",
];

/// Demand 3: cases of both kinds, and how near the first kind came to its bound.
#[derive(Default)]
pub struct Demand3 {
    pub emptied: u64,
    pub overfull: u64,
    pub no_claim: u64,
    pub most_steps: u64,
    pub bound_then: u64,
}

impl Demand3 {
    /// Keeps the largest ratio of steps to bound.
    pub fn emptied_after(&mut self, steps: u64, bound: u64) {
        self.emptied += 1;
        if self.bound_then == 0 || steps * self.bound_then > self.most_steps * bound {
            (self.most_steps, self.bound_then) = (steps, bound);
        }
    }
}

#[derive(Default)]
pub struct Tally {
    pub calls: u64,
    numbers: [[u64; 10]; 7],
    steps: [u64; 5],
    sought: [[u64; 4]; 7],
    pub damages: [u64; Damage::ALL.len()],
    pub sound_checks: u64,
    pub map_answers: u64,
    pub demand3: Demand3,
    pub work: [u64; WORK_NAMES.len()],
}

impl Tally {
    pub fn count(&mut self, call: Call, answer: &Answer, notes: &Notes) {
        self.calls += 1;
        self.numbers[call.index()][answer.number as usize] += 1;
        for (sum, steps) in self.steps.iter_mut().zip(notes.steps) {
            *sum += u64::from(steps);
        }
        if let Some(sought) = notes.sought {
            self.sought[call.index()][sought as usize] += 1;
        }
    }

    /// Everything that can happen and was never seen.
    pub fn never_seen(&self) -> Vec<String> {
        let mut missing = Vec::new();
        for (call, possible) in POSSIBLE.iter().enumerate() {
            for number in possible.iter() {
                note_zero(
                    &mut missing,
                    self.numbers[call][*number],
                    &format!("{} answering {number}", Call::NAMES[call]),
                );
            }
        }
        for (count, name) in self.steps.iter().zip(StepKind::NAMES) {
            note_zero(&mut missing, *count, &format!("step {name}"));
        }
        for call in SEARCHING {
            for (count, place) in self.sought[call].iter().zip(Sought::NAMES) {
                let name = format!("{} of a key in place: {place}", Call::NAMES[call]);
                note_zero(&mut missing, *count, &name);
            }
        }
        for (count, damage) in self.damages.iter().zip(Damage::ALL) {
            note_zero(&mut missing, *count, &format!("damage: {}", damage.name()));
        }
        note_zero(&mut missing, self.demand3.emptied, "demand 3, first half");
        note_zero(&mut missing, self.demand3.overfull, "demand 3, second half");
        missing
    }

    pub fn table(&self) -> String {
        let mut out = String::new();
        self.write_table(&mut out)
            .expect("writing to a string does not fail");
        out
    }

    fn write_table(&self, out: &mut String) -> std::fmt::Result {
        writeln!(out, "calls compared: {}", self.calls)?;
        for (count, name) in self.work.iter().zip(WORK_NAMES) {
            writeln!(out, "  in {name}: {count}")?;
        }
        self.write_numbers(out)?;
        writeln!(out, "steps by kind")?;
        for (count, name) in self.steps.iter().zip(StepKind::NAMES) {
            writeln!(out, "  {name}: {count}")?;
        }
        self.write_places(out)?;
        writeln!(out, "checks of drawn sound stores: {}", self.sound_checks)?;
        writeln!(out, "damages seen refused 9")?;
        for (count, damage) in self.damages.iter().zip(Damage::ALL) {
            writeln!(out, "  {}: {count}", damage.name())?;
        }
        writeln!(
            out,
            "answers also compared with a plain map: {}",
            self.map_answers
        )?;
        self.write_demand3(out)
    }

    fn write_numbers(&self, out: &mut String) -> std::fmt::Result {
        write!(out, "answers{:>10}", "all")?;
        for number in 0..10 {
            write!(out, "{number:>9}")?;
        }
        writeln!(out)?;
        for (call, counts) in self.numbers.iter().enumerate() {
            write!(
                out,
                "  {:<7}{:>8}",
                Call::NAMES[call],
                counts.iter().sum::<u64>()
            )?;
            for (number, count) in counts.iter().enumerate() {
                if POSSIBLE[call].contains(&number) {
                    write!(out, "{count:>9}")?;
                } else {
                    write!(out, "{:>9}", "-")?;
                }
            }
            writeln!(out)?;
        }
        Ok(())
    }

    fn write_places(&self, out: &mut String) -> std::fmt::Result {
        write!(out, "key in   ")?;
        for place in Sought::NAMES {
            write!(out, "{place:>9}")?;
        }
        writeln!(out)?;
        for call in SEARCHING {
            write!(out, "  {:<7}", Call::NAMES[call])?;
            for count in self.sought[call] {
                write!(out, "{count:>9}")?;
            }
            writeln!(out)?;
        }
        Ok(())
    }

    fn write_demand3(&self, out: &mut String) -> std::fmt::Result {
        let cases = &self.demand3;
        writeln!(out, "demand 3")?;
        writeln!(
            out,
            "  queue emptied within (q+1)*D steps: {}",
            cases.emptied
        )?;
        writeln!(
            out,
            "  largest steps/bound: {}/{} = {:.3}",
            cases.most_steps,
            cases.bound_then,
            cases.most_steps as f64 / cases.bound_then as f64
        )?;
        writeln!(
            out,
            "  more keys than cells, never emptied: {}",
            cases.overfull
        )?;
        writeln!(
            out,
            "  neither half speaks of the store: {}",
            cases.no_claim
        )
    }
}

fn note_zero(missing: &mut Vec<String>, count: u64, name: &str) {
    if count == 0 {
        missing.push(name.to_string());
    }
}
