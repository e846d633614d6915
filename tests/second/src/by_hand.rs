//! The lines of "Checked by hand" on the page, for both versions, with the page's own numbers.

use crate::call::{Call, Memory, Record};
use crate::model::{home, Table};
use crate::pair::Pair;

struct Bench<'a> {
    pair: &'a mut Pair,
    record: Record,
}

impl Bench<'_> {
    fn open(pair: &mut Pair, numbers: Record) -> Bench<'_> {
        pair.load(&Memory::zeros_for(&numbers));
        let answer = pair.call(numbers, Call::Open);
        assert_eq!(answer.number, 0, "open of {numbers:?}");
        let record = answer.record;
        Bench { pair, record }
    }

    /// The call answers exactly this refusal number, value, steps and moves.
    fn expect(&mut self, call: Call, answered: [u32; 4]) {
        let answer = self.pair.call(self.record, call);
        let got = [answer.number, answer.value, answer.steps, answer.moves];
        assert_eq!(got, answered, "{call:?}");
        self.record = answer.record;
    }

    fn define(&mut self, key: u32, value: u32, steps: u32, moves: u32) {
        self.expect(Call::Define { key, value }, [0, 0, steps, moves]);
    }

    fn settle(&mut self, n: u32, steps: u32, moves: u32) {
        self.expect(Call::Settle { n }, [0, 0, steps, moves]);
    }

    fn cell(&self, table: Table, at: usize) -> (u32, u32) {
        let memory = self.pair.memory();
        let words = match table {
            Table::Zero => &memory.t0,
            Table::One => &memory.t1,
        };
        (words[2 * at], words[2 * at + 1])
    }

    /// The entries that wait, as (key, side).
    fn waiting(&self) -> Vec<(u32, u32)> {
        let entries = self.pair.memory().queue.chunks_exact(3);
        let entries = entries.take(self.record.queue_len as usize);
        entries.map(|words| (words[0], words[2])).collect()
    }

    fn marks(&self) -> Vec<(u32, u32)> {
        let pairs = self.pair.memory().detector.chunks_exact(2);
        let pairs = pairs.take(self.record.detector_len as usize);
        pairs.map(|words| (words[0], words[1])).collect()
    }
}

/// "Store S: r 4, Q 4, D 8, L 2, a_0 1, b_0 0, a_1 536870912, b_1 0."
fn store_s() -> Record {
    Record {
        r: 4,
        q: 4,
        d: 8,
        l: 2,
        a0: 1,
        b0: 0,
        a1: 536_870_912,
        b1: 0,
        queue_len: 0,
        detector_len: 0,
    }
}

/// "Store T: r 1, Q 1, D 2, L 1, functions as in S."
fn store_t() -> Record {
    Record {
        r: 1,
        q: 1,
        d: 2,
        l: 1,
        ..store_s()
    }
}

pub fn by_hand(pair: &mut Pair) {
    homes_of_store_s();
    story_of_store_s(pair);
    bad_keys_in_store_s(pair);
    story_of_store_t(pair);
    limits_of_open(pair);
    listing_of_the_case_program(pair);
}

fn homes_of_store_s() {
    let homes = |key| Table::BOTH.map(|table| home(&store_s(), table, key));
    assert_eq!(homes(21), [1, 1]);
    assert_eq!(homes(2_147_483_647), [0, 0]);
    for key in 0..64 {
        assert_eq!(homes(key), [key as usize % 4, key as usize / 4 % 4]);
    }
}

fn story_of_store_s(pair: &mut Pair) {
    let mut s = Bench::open(pair, store_s());
    s.define(1, 10, 1, 0);
    s.define(5, 20, 2, 1);
    s.define(9, 30, 2, 1);
    s.define(21, 40, 2, 1);
    assert_eq!(s.cell(Table::Zero, 1), (21, 40));
    assert_eq!(s.cell(Table::One, 0), (1, 10));
    assert_eq!(s.cell(Table::One, 1), (5, 20));
    assert_eq!(s.cell(Table::One, 2), (9, 30));

    s.define(13, 50, 2, 2);
    assert_eq!(s.waiting(), [(5, 0)]);
    s.expect(Call::Find { key: 5 }, [0, 20, 0, 0]);
    s.expect(Call::Define { key: 5, value: 0 }, [5, 20, 0, 0]);

    s.settle(2, 2, 1);
    assert_eq!(s.waiting(), []);
    assert_eq!(s.cell(Table::One, 3), (13, 50));

    s.define(17, 60, 2, 2);
    for _ in 0..3 {
        s.settle(2, 2, 2);
    }
    assert_eq!(s.marks().len(), 8);
    assert_eq!(s.waiting(), [(17, 0)]);
    s.settle(1, 1, 0);
    assert_eq!(s.waiting(), [(17, 0)]);
    assert_eq!(s.marks(), []);

    s.expect(Call::Remove { key: 21 }, [0, 40, 0, 0]);
    let answer = s.pair.call(s.record, Call::Settle { n: 2 });
    assert_eq!((answer.number, answer.record.queue_len), (0, 0));
    s.record = answer.record;

    s.settle(0, 0, 0);
    s.expect(Call::Settle { n: 3 }, [8, 0, 0, 0]);
}

fn bad_keys_in_store_s(pair: &mut Pair) {
    let mut s = Bench::open(pair, store_s());
    for key in [0, 2_147_483_648] {
        s.expect(Call::Find { key }, [4, 0, 0, 0]);
        s.expect(Call::Define { key, value: 1 }, [4, 0, 0, 0]);
        s.expect(Call::Change { key, value: 1 }, [4, 0, 0, 0]);
        s.expect(Call::Remove { key }, [4, 0, 0, 0]);
    }
}

fn story_of_store_t(pair: &mut Pair) {
    let mut t = Bench::open(pair, store_t());
    t.define(1, 10, 1, 0);
    t.define(2, 20, 1, 1);
    assert_eq!(t.waiting(), [(1, 1)]);
    t.expect(Call::Define { key: 3, value: 30 }, [6, 0, 0, 0]);
    t.expect(Call::Define { key: 1, value: 11 }, [5, 10, 0, 0]);

    t.settle(1, 1, 0);
    t.define(3, 30, 1, 1);
    t.settle(1, 1, 1);
    assert_eq!(t.waiting(), [(1, 0)]);
    assert_eq!(t.marks(), [(3, 0), (2, 1)]);
    t.settle(1, 1, 0);
    assert_eq!(t.waiting(), [(1, 0)]);
    assert_eq!(t.marks(), []);
}

fn limits_of_open(pair: &mut Pair) {
    for (r, q, number) in [(0, 1, 1), (32_769, 1, 1), (1, 64, 0), (1, 65, 1)] {
        let numbers = Record { r, q, ..store_t() };
        pair.load(&Memory::zeros_for(&numbers));
        assert_eq!(pair.call(numbers, Call::Open).number, number);
    }
}

/// The six records of the case program; what it prints after mark and key word.
fn listing_of_the_case_program(pair: &mut Pair) {
    let mut s = Bench::open(pair, store_s());
    s.expect(Call::Define { key: 1, value: 10 }, [0, 0, 1, 0]);
    s.expect(Call::Define { key: 5, value: 20 }, [0, 0, 2, 1]);
    s.expect(Call::Define { key: 5, value: 21 }, [5, 20, 0, 0]);
    s.expect(Call::Find { key: 5 }, [0, 20, 0, 0]);
    s.expect(Call::Remove { key: 9 }, [7, 0, 0, 0]);
    s.expect(Call::Settle { n: 2 }, [0, 0, 0, 0]);
}
