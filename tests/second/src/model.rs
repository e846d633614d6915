//! The second version of the key table, written from the page and no source of the library.
//!
//! Each call reads the lent words into a `Store` of plain things (cells, a queue of entries, a
//! list of marks), acts on it and writes it back. A refused call never gets as far as writing.

use crate::call::{Answer, Call, Memory, Record};
use std::collections::{HashSet, VecDeque};

/// "Let p = 2,147,483,647." It is also the greatest good key.
const P: u32 = 2_147_483_647;

#[derive(Clone, Copy, Debug, PartialEq, Eq, Hash)]
pub enum Table {
    Zero,
    One,
}

impl Table {
    pub const BOTH: [Table; 2] = [Table::Zero, Table::One];

    /// "A side word 0 means table 0, every other word means table 1."
    fn meant_by(side: u32) -> Table {
        match side {
            0 => Table::Zero,
            _ => Table::One,
        }
    }

    /// The side word that a step writes for this table.
    fn side(self) -> u32 {
        match self {
            Table::Zero => 0,
            Table::One => 1,
        }
    }

    fn other(self) -> Table {
        match self {
            Table::Zero => Table::One,
            Table::One => Table::Zero,
        }
    }
}

/// "The home of x in table t is ((a_t times x + b_t) mod p) mod r. [...] It is defined for every
/// 32-bit x, good key or not."
pub fn home(record: &Record, table: Table, x: u32) -> usize {
    let (a, b) = match table {
        Table::Zero => (record.a0, record.b0),
        Table::One => (record.a1, record.b1),
    };
    let place = (u64::from(a) * u64::from(x) + u64::from(b)) % u64::from(P) % u64::from(record.r);
    place as usize
}

enum Refusal {
    NumberOutOfRange,
    WrongBufferLength,
    LengthAboveRoom,
    BadKey,
    AlreadyThere { value: u32 },
    QueueFull,
    NotFound,
    SettleAboveLimit,
    NotSound,
}

impl Refusal {
    fn number(&self) -> u32 {
        match self {
            Refusal::NumberOutOfRange => 1,
            Refusal::WrongBufferLength => 2,
            Refusal::LengthAboveRoom => 3,
            Refusal::BadKey => 4,
            Refusal::AlreadyThere { .. } => 5,
            Refusal::QueueFull => 6,
            Refusal::NotFound => 7,
            Refusal::SettleAboveLimit => 8,
            Refusal::NotSound => 9,
        }
    }

    /// "All refusals, open's too, answer steps 0 and moves 0"; the value is 0 except in number 5.
    fn answer(&self, record: Record) -> Answer {
        let value = match self {
            Refusal::AlreadyThere { value } => *value,
            _ => 0,
        };
        Answer {
            record,
            number: self.number(),
            value,
            steps: 0,
            moves: 0,
        }
    }
}

/// What a call did on the way, for the counts that the comparison prints.
#[derive(Clone, Copy, Debug, PartialEq, Eq)]
pub enum StepKind {
    Placed,
    AsideMarked,
    AsideFull,
    AsideMarkedAndFull,
    Moved,
}

impl StepKind {
    pub const NAMES: [&'static str; 5] = [
        "1 (cell free)",
        "2 (marked)",
        "2 (full)",
        "2 (marked and full)",
        "3 (move)",
    ];
}

#[derive(Clone, Copy, Debug, PartialEq, Eq)]
pub enum Sought {
    InTable0,
    InTable1,
    Waiting,
    Nowhere,
}

impl Sought {
    pub const NAMES: [&'static str; 4] = ["table 0", "table 1", "queue", "nowhere"];
}

#[derive(Default)]
pub struct Notes {
    /// How many steps of each `StepKind` were done.
    pub steps: [u32; 5],
    /// Where the search of a call about a key ended, if it came to a search.
    pub sought: Option<Sought>,
}

pub struct Outcome {
    pub answer: Answer,
    pub notes: Notes,
}

/// One call: what it answers and what it leaves, for every record, length and content.
pub fn perform(call: Call, record: Record, memory: &mut Memory) -> Outcome {
    let mut notes = Notes::default();
    let answer = match call {
        Call::Open => open(record, memory),
        _ => on_store(call, record, memory, &mut notes)
            .unwrap_or_else(|refusal| refusal.answer(record)),
    };
    Outcome { answer, notes }
}

/// "Open: checks numbers and lengths, writes zero to every word, gives a record with both
/// lengths 0." "Open gives only 1 and 2, and then a record of zeros."
fn open(record: Record, memory: &mut Memory) -> Answer {
    let checked = numbers_in_range(&record).and_then(|()| buffer_lengths_fit(&record, memory));
    if let Err(refusal) = checked {
        return refusal.answer(Record::default());
    }
    *memory = Memory::zeros_for(&record);
    accepted(
        Record {
            queue_len: 0,
            detector_len: 0,
            ..record
        },
        Done::with_value(0),
    )
}

/// "The first applicable number in this order wins: 1, 2, 3, 4, 8, 5, 7, 6, 9." The last five
/// stand in the single calls; only define can meet two of them, 5 and 6.
fn on_store(
    call: Call,
    record: Record,
    memory: &mut Memory,
    notes: &mut Notes,
) -> Result<Answer, Refusal> {
    numbers_in_range(&record)?;
    buffer_lengths_fit(&record, memory)?;
    lengths_within_rooms(&record)?;
    if let Some(key) = call.key() {
        good_key(key)?;
    }
    let mut store = Store::read(record, memory);
    if let Some(key) = call.key() {
        notes.sought = Some(store.sought(key));
    }
    let done = match call {
        Call::Open => unreachable!("open does not read a store"),
        Call::Find { key } => store.find(key)?,
        Call::Define { key, value } => store.define(key, value, notes)?,
        Call::Change { key, value } => store.change(key, value)?,
        Call::Remove { key } => store.remove(key)?,
        Call::Settle { n } => store.settle(n, notes)?,
        Call::Check => store.check()?,
    };
    store.write(memory);
    Ok(accepted(store.record_now(), done))
}

fn accepted(record: Record, done: Done) -> Answer {
    Answer {
        record,
        number: 0,
        value: done.value,
        steps: done.steps,
        moves: done.moves,
    }
}

/// 1: "r, Q, D, L or a function number out of range".
fn numbers_in_range(record: &Record) -> Result<(), Refusal> {
    let in_range = (1..=32_768).contains(&record.r)
        && (1..=64).contains(&record.q)
        && (2..=128).contains(&record.d)
        && (1..=64).contains(&record.l)
        && (1..P).contains(&record.a0)
        && (0..P).contains(&record.b0)
        && (1..P).contains(&record.a1)
        && (0..P).contains(&record.b1);
    in_range.then_some(()).ok_or(Refusal::NumberOutOfRange)
}

/// 2: "a buffer's length is not 2r, 2r, 3Q or 2D words".
fn buffer_lengths_fit(record: &Record, memory: &Memory) -> Result<(), Refusal> {
    let fit = memory.t0.len() == 2 * record.r as usize
        && memory.t1.len() == 2 * record.r as usize
        && memory.queue.len() == 3 * record.q as usize
        && memory.detector.len() == 2 * record.d as usize;
    fit.then_some(()).ok_or(Refusal::WrongBufferLength)
}

/// 3: "queue length above Q, or detector length above D".
fn lengths_within_rooms(record: &Record) -> Result<(), Refusal> {
    let within = record.queue_len <= record.q && record.detector_len <= record.d;
    within.then_some(()).ok_or(Refusal::LengthAboveRoom)
}

fn is_good_key(key: u32) -> bool {
    (1..=P).contains(&key)
}

/// 4: "key 0 or above 2,147,483,647".
fn good_key(key: u32) -> Result<(), Refusal> {
    is_good_key(key).then_some(()).ok_or(Refusal::BadKey)
}

#[derive(Clone, Copy, Default, PartialEq, Eq)]
struct Cell {
    key: u32,
    value: u32,
}

/// A place of the queue. The side stays a word, so that entries which only move up are copied
/// unchanged.
#[derive(Clone, Copy, Default, PartialEq, Eq)]
struct Entry {
    key: u32,
    value: u32,
    side: u32,
}

#[derive(Clone, Copy, Default, PartialEq, Eq)]
struct Mark {
    key: u32,
    side: u32,
}

impl Mark {
    /// "Pairs are compared by key and table meant."
    fn pair(&self) -> (u32, Table) {
        (self.key, Table::meant_by(self.side))
    }
}

enum Place {
    Cell(Table, usize),
    Waiting(usize),
}

/// What an accepted call answers beside the record.
struct Done {
    value: u32,
    steps: u32,
    moves: u32,
}

impl Done {
    /// "Calls without steps answer 0 and 0."
    fn with_value(value: u32) -> Done {
        Done {
            value,
            steps: 0,
            moves: 0,
        }
    }
}

struct Store {
    record: Record,
    table0: Vec<Cell>,
    table1: Vec<Cell>,
    waiting: VecDeque<Entry>,
    marks: Vec<Mark>,
    /// What lies in the places past the two lengths; zeros in a sound store.
    past_waiting: Vec<Entry>,
    past_marks: Vec<Mark>,
}

impl Store {
    /// Reads a store whose record, buffer lengths and two lengths have been found in order.
    fn read(record: Record, memory: &Memory) -> Store {
        let mut waiting: VecDeque<Entry> = memory.queue.chunks_exact(3).map(entry_at).collect();
        let past_waiting = waiting.split_off(record.queue_len as usize).into();
        let mut marks: Vec<Mark> = memory.detector.chunks_exact(2).map(mark_at).collect();
        let past_marks = marks.split_off(record.detector_len as usize);
        Store {
            record,
            table0: memory.t0.chunks_exact(2).map(cell_at).collect(),
            table1: memory.t1.chunks_exact(2).map(cell_at).collect(),
            waiting,
            marks,
            past_waiting,
            past_marks,
        }
    }

    /// Writes every word back; places that hold nothing become zero.
    fn write(&self, memory: &mut Memory) {
        for (words, cell) in memory.t0.chunks_exact_mut(2).zip(&self.table0) {
            words.copy_from_slice(&[cell.key, cell.value]);
        }
        for (words, cell) in memory.t1.chunks_exact_mut(2).zip(&self.table1) {
            words.copy_from_slice(&[cell.key, cell.value]);
        }
        memory.queue.fill(0);
        let entries = self.waiting.iter().chain(&self.past_waiting);
        for (words, entry) in memory.queue.chunks_exact_mut(3).zip(entries) {
            words.copy_from_slice(&[entry.key, entry.value, entry.side]);
        }
        memory.detector.fill(0);
        let marks = self.marks.iter().chain(&self.past_marks);
        for (words, mark) in memory.detector.chunks_exact_mut(2).zip(marks) {
            words.copy_from_slice(&[mark.key, mark.side]);
        }
    }

    fn record_now(&self) -> Record {
        Record {
            queue_len: self.waiting.len() as u32,
            detector_len: self.marks.len() as u32,
            ..self.record
        }
    }

    /// "After every accepted define, remove or settle, all queue and detector places past their
    /// lengths are zero."
    fn forget_what_lies_past_the_lengths(&mut self) {
        self.past_waiting.clear();
        self.past_marks.clear();
    }

    fn table(&self, table: Table) -> &Vec<Cell> {
        match table {
            Table::Zero => &self.table0,
            Table::One => &self.table1,
        }
    }

    fn table_mut(&mut self, table: Table) -> &mut Vec<Cell> {
        match table {
            Table::Zero => &mut self.table0,
            Table::One => &mut self.table1,
        }
    }

    /// "Home in table 0, home in table 1, then the queue from the front. The first equal key
    /// answers."
    fn search(&self, key: u32) -> Option<Place> {
        for table in Table::BOTH {
            let at = home(&self.record, table, key);
            if self.table(table)[at].key == key {
                return Some(Place::Cell(table, at));
            }
        }
        let behind_front = self.waiting.iter().position(|entry| entry.key == key)?;
        Some(Place::Waiting(behind_front))
    }

    fn sought(&self, key: u32) -> Sought {
        match self.search(key) {
            Some(Place::Cell(Table::Zero, _)) => Sought::InTable0,
            Some(Place::Cell(Table::One, _)) => Sought::InTable1,
            Some(Place::Waiting(_)) => Sought::Waiting,
            None => Sought::Nowhere,
        }
    }

    fn value_at(&self, place: &Place) -> u32 {
        match *place {
            Place::Cell(table, at) => self.table(table)[at].value,
            Place::Waiting(at) => self.waiting[at].value,
        }
    }

    fn find(&self, key: u32) -> Result<Done, Refusal> {
        let place = self.search(key).ok_or(Refusal::NotFound)?;
        Ok(Done::with_value(self.value_at(&place)))
    }

    /// "The entry (key, value, 0) joins the back of the queue, then steps run until L are done
    /// or the queue is empty. The answered value is 0."
    fn define(&mut self, key: u32, value: u32, notes: &mut Notes) -> Result<Done, Refusal> {
        if let Some(place) = self.search(key) {
            let value = self.value_at(&place);
            return Err(Refusal::AlreadyThere { value });
        }
        if self.waiting.len() == self.record.q as usize {
            return Err(Refusal::QueueFull);
        }
        self.waiting.push_back(Entry {
            key,
            value,
            side: 0,
        });
        Ok(self.run_steps(self.record.l, notes))
    }

    /// "The value at the place that find would use is replaced; the old one is answered. No
    /// steps."
    fn change(&mut self, key: u32, value: u32) -> Result<Done, Refusal> {
        let place = self.search(key).ok_or(Refusal::NotFound)?;
        let old = self.value_at(&place);
        match place {
            Place::Cell(table, at) => self.table_mut(table)[at].value = value,
            Place::Waiting(at) => self.waiting[at].value = value,
        }
        Ok(Done::with_value(old))
    }

    /// "The entry at that place goes; its value is answered. A cell becomes 0, 0. Queue entries
    /// behind it move up one. The detector is kept. No steps."
    fn remove(&mut self, key: u32) -> Result<Done, Refusal> {
        let place = self.search(key).ok_or(Refusal::NotFound)?;
        let value = self.value_at(&place);
        match place {
            Place::Cell(table, at) => self.table_mut(table)[at] = Cell::default(),
            Place::Waiting(at) => drop(self.waiting.remove(at)),
        }
        self.forget_what_lies_past_the_lengths();
        Ok(Done::with_value(value))
    }

    /// "Steps run until n are done or the queue is empty. The answered value is 0."
    fn settle(&mut self, n: u32, notes: &mut Notes) -> Result<Done, Refusal> {
        if n > self.record.l {
            return Err(Refusal::SettleAboveLimit);
        }
        Ok(self.run_steps(n, notes))
    }

    fn check(&self) -> Result<Done, Refusal> {
        if self.is_sound() {
            Ok(Done::with_value(0))
        } else {
            Err(Refusal::NotSound)
        }
    }

    fn run_steps(&mut self, most: u32, notes: &mut Notes) -> Done {
        let mut done = Done::with_value(0);
        while done.steps < most {
            let Some(kind) = self.step() else { break };
            done.steps += 1;
            if kind == StepKind::Moved {
                done.moves += 1;
            }
            notes.steps[kind as usize] += 1;
        }
        self.forget_what_lies_past_the_lengths();
        done
    }

    /// "With an empty queue there is no step. Else let the front entry be key y, value v, side b,
    /// and the cell be y's home in table b."
    fn step(&mut self) -> Option<StepKind> {
        let front = *self.waiting.front()?;
        let table = Table::meant_by(front.side);
        let at = home(&self.record, table, front.key);
        if self.table(table)[at].key == 0 {
            self.place_front(front, table, at);
            return Some(StepKind::Placed);
        }
        let marked = self
            .marks
            .iter()
            .any(|mark| mark.pair() == (front.key, table));
        let full = self.marks.len() == self.record.d as usize;
        if marked || full {
            self.set_front_aside(front, table);
        } else {
            self.swap_front(front, table, at);
        }
        Some(match (marked, full) {
            (true, true) => StepKind::AsideMarkedAndFull,
            (true, false) => StepKind::AsideMarked,
            (false, true) => StepKind::AsideFull,
            (false, false) => StepKind::Moved,
        })
    }

    /// "The cell takes y and v, the front entry is dropped, the detector is emptied."
    fn place_front(&mut self, front: Entry, table: Table, at: usize) {
        self.cell_takes(front, table, at);
        self.waiting.pop_front();
        self.marks.clear();
    }

    /// "The front entry goes to the back, the detector is emptied." The entry a step sets aside
    /// gets side 0 or 1.
    fn set_front_aside(&mut self, front: Entry, table: Table) {
        self.waiting.pop_front();
        self.waiting.push_back(Entry {
            side: table.side(),
            ..front
        });
        self.marks.clear();
    }

    /// "The pair (y, b) is marked, the cell takes y and v, and the cell's former key and value
    /// become the front entry with side 1-b."
    fn swap_front(&mut self, front: Entry, table: Table, at: usize) {
        self.marks.push(Mark {
            key: front.key,
            side: table.side(),
        });
        let former = self.cell_takes(front, table, at);
        self.waiting[0] = Entry {
            key: former.key,
            value: former.value,
            side: table.other().side(),
        };
    }

    /// Gives what lay in the cell before.
    fn cell_takes(&mut self, entry: Entry, table: Table, at: usize) -> Cell {
        let taken = Cell {
            key: entry.key,
            value: entry.value,
        };
        std::mem::replace(&mut self.table_mut(table)[at], taken)
    }

    /// The paragraph "A store is sound if"; that its record is in range was seen before reading.
    fn is_sound(&self) -> bool {
        self.cells_are_sound(Table::Zero)
            && self.cells_are_sound(Table::One)
            && self.entries_are_sound()
            && self.marks_are_sound()
            && self.marks_differ()
            && self.places_past_the_lengths_are_zero()
            && self.no_key_occurs_twice()
    }

    /// "Every occupied cell holds a good key at its home, every free cell has value 0."
    fn cells_are_sound(&self, table: Table) -> bool {
        self.table(table).iter().enumerate().all(|(at, cell)| {
            if cell.key == 0 {
                cell.value == 0
            } else {
                is_good_key(cell.key) && home(&self.record, table, cell.key) == at
            }
        })
    }

    /// "Queue and detector entries have good keys and sides 0 or 1."
    fn entries_are_sound(&self) -> bool {
        self.waiting
            .iter()
            .all(|entry| is_good_key(entry.key) && entry.side <= 1)
    }

    fn marks_are_sound(&self) -> bool {
        self.marks
            .iter()
            .all(|mark| is_good_key(mark.key) && mark.side <= 1)
    }

    /// "The detector's pairs differ."
    fn marks_differ(&self) -> bool {
        let mut seen = HashSet::new();
        self.marks.iter().all(|mark| seen.insert(mark.pair()))
    }

    fn places_past_the_lengths_are_zero(&self) -> bool {
        let queue_clear = self.past_waiting.iter().all(|e| *e == Entry::default());
        let detector_clear = self.past_marks.iter().all(|m| *m == Mark::default());
        queue_clear && detector_clear
    }

    /// "No key occurs twice in the tables and the queue together."
    fn no_key_occurs_twice(&self) -> bool {
        let in_cells = self.table0.iter().chain(&self.table1).map(|cell| cell.key);
        let in_queue = self.waiting.iter().map(|entry| entry.key);
        let mut seen = HashSet::new();
        in_cells
            .filter(|key| *key != 0)
            .chain(in_queue)
            .all(|key| seen.insert(key))
    }
}

fn cell_at(words: &[u32]) -> Cell {
    Cell {
        key: words[0],
        value: words[1],
    }
}

fn entry_at(words: &[u32]) -> Entry {
    Entry {
        key: words[0],
        value: words[1],
        side: words[2],
    }
}

fn mark_at(words: &[u32]) -> Mark {
    Mark {
        key: words[0],
        side: words[1],
    }
}
