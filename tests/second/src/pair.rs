//! Both versions side by side: every call goes to both, and all they leave is compared.

use crate::call::{Answer, Buffer, Call, Memory, Record};
use crate::model::Outcome;
use crate::tally::Tally;
use crate::{bridge, model};

/// How many words of a buffer are printed at most: of the inputs, and of those that differ.
const MOST_INPUTS_PRINTED: usize = 400;
const MOST_DIFFERING_PRINTED: usize = 12;

#[derive(Default)]
pub struct Pair {
    second: Memory,
    real: Memory,
    before: Memory,
    pub tally: Tally,
}

impl Pair {
    /// Gives both versions these words.
    pub fn load(&mut self, memory: &Memory) {
        self.second.copy_from(memory);
        self.real.copy_from(memory);
    }

    /// The words both versions hold now.
    pub fn memory(&self) -> &Memory {
        &self.real
    }

    /// One call in both versions. Ends the run if any answer field, record word or buffer word
    /// differs; gives the answer of the real library else.
    pub fn call(&mut self, record: Record, call: Call) -> Answer {
        self.before.copy_from(&self.second);
        let Outcome { answer, notes } = model::perform(call, record, &mut self.second);
        let real = bridge::perform(call, record, &mut self.real);
        if answer != real || self.second != self.real {
            self.report_difference(record, call, &answer, &real);
            std::process::exit(1);
        }
        self.tally.count(call, &answer, &notes);
        real
    }

    /// Ends the run if the real library broke something that the page says beside the calls.
    pub fn demand(&self, holds: bool, record: Record, what: impl FnOnce() -> String) {
        if !holds {
            println!("NOT AS THE PAGE SAYS at call {}", self.tally.calls);
            println!("{}", what());
            println!("record now {record:?}");
            print_memory("words now", &self.real);
            std::process::exit(1);
        }
    }

    fn report_difference(&self, record: Record, call: Call, second: &Answer, real: &Answer) {
        println!("DIFFERENCE at call {}", self.tally.calls + 1);
        println!("{call:?}");
        println!("given {record:?}");
        print_memory("words before", &self.before);
        if second != real {
            println!("second version answers {second:?}");
            println!("real library answers   {real:?}");
        }
        for which in Buffer::ALL {
            print_differing_words(
                which,
                self.before.buffer(which),
                self.second.buffer(which),
                self.real.buffer(which),
            );
        }
    }
}

/// The words that are not 0, each with its place, so that big tables stay readable.
fn print_memory(title: &str, memory: &Memory) {
    println!("{title} (place:word, words 0 left out)");
    for which in Buffer::ALL {
        let words = memory.buffer(which);
        let shown: Vec<String> = words
            .iter()
            .enumerate()
            .filter(|(_, word)| **word != 0)
            .take(MOST_INPUTS_PRINTED)
            .map(|(at, word)| format!("{at}:{word}"))
            .collect();
        println!("  {which:?} of {} words: {}", words.len(), shown.join(" "));
    }
}

fn print_differing_words(which: Buffer, before: &[u32], second: &[u32], real: &[u32]) {
    let differing: Vec<usize> = (0..before.len())
        .filter(|at| second[*at] != real[*at])
        .collect();
    for at in differing.iter().take(MOST_DIFFERING_PRINTED) {
        println!(
            "  {which:?} word {at}: before {}, second version {}, real library {}",
            before[*at], second[*at], real[*at]
        );
    }
    if differing.len() > MOST_DIFFERING_PRINTED {
        println!("  {which:?}: {} words differ in all", differing.len());
    }
}
