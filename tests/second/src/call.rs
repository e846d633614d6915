//! The shapes that both versions share: the control record, the answer, the lent memory, the calls.

/// "A control record, passed by value and given back by value, holds r, Q, D, L, then
/// a_0, b_0, a_1, b_1, the queue's length and the detector's length."
#[repr(C)]
#[derive(Clone, Copy, Debug, Default, PartialEq, Eq)]
pub struct Record {
    pub r: u32,
    pub q: u32,
    pub d: u32,
    pub l: u32,
    pub a0: u32,
    pub b0: u32,
    pub a1: u32,
    pub b1: u32,
    pub queue_len: u32,
    pub detector_len: u32,
}

#[repr(C)]
#[derive(Clone, Copy, Debug, Default, PartialEq, Eq)]
pub struct Answer {
    pub record: Record,
    pub number: u32,
    pub value: u32,
    pub steps: u32,
    pub moves: u32,
}

#[derive(Clone, Copy, Debug, PartialEq, Eq)]
pub enum Call {
    Open,
    Find { key: u32 },
    Define { key: u32, value: u32 },
    Change { key: u32, value: u32 },
    Remove { key: u32 },
    Settle { n: u32 },
    Check,
}

impl Call {
    pub const NAMES: [&'static str; 7] = [
        "open", "find", "define", "change", "remove", "settle", "check",
    ];

    pub fn index(self) -> usize {
        match self {
            Call::Open => 0,
            Call::Find { .. } => 1,
            Call::Define { .. } => 2,
            Call::Change { .. } => 3,
            Call::Remove { .. } => 4,
            Call::Settle { .. } => 5,
            Call::Check => 6,
        }
    }

    /// The key the call asks for, if it is a call about a key.
    pub fn key(self) -> Option<u32> {
        match self {
            Call::Find { key }
            | Call::Define { key, .. }
            | Call::Change { key, .. }
            | Call::Remove { key } => Some(key),
            Call::Open | Call::Settle { .. } | Call::Check => None,
        }
    }
}

#[derive(Clone, Copy, Debug, PartialEq, Eq)]
pub enum Buffer {
    Table0,
    Table1,
    Queue,
    Detector,
}

impl Buffer {
    pub const ALL: [Buffer; 4] = [
        Buffer::Table0,
        Buffer::Table1,
        Buffer::Queue,
        Buffer::Detector,
    ];
}

/// The four lent buffers, of any lengths and contents.
#[derive(Clone, Debug, Default, PartialEq, Eq)]
pub struct Memory {
    pub t0: Vec<u32>,
    pub t1: Vec<u32>,
    pub queue: Vec<u32>,
    pub detector: Vec<u32>,
}

impl Memory {
    pub fn of_lengths(t0: usize, t1: usize, queue: usize, detector: usize) -> Memory {
        Memory {
            t0: vec![0; t0],
            t1: vec![0; t1],
            queue: vec![0; queue],
            detector: vec![0; detector],
        }
    }

    /// Zeros, of the lengths that these numbers ask for.
    pub fn zeros_for(record: &Record) -> Memory {
        let table = 2 * record.r as usize;
        Memory::of_lengths(table, table, 3 * record.q as usize, 2 * record.d as usize)
    }

    pub fn buffer(&self, which: Buffer) -> &Vec<u32> {
        match which {
            Buffer::Table0 => &self.t0,
            Buffer::Table1 => &self.t1,
            Buffer::Queue => &self.queue,
            Buffer::Detector => &self.detector,
        }
    }

    pub fn buffer_mut(&mut self, which: Buffer) -> &mut Vec<u32> {
        match which {
            Buffer::Table0 => &mut self.t0,
            Buffer::Table1 => &mut self.t1,
            Buffer::Queue => &mut self.queue,
            Buffer::Detector => &mut self.detector,
        }
    }

    /// Becomes equal to `other` and keeps its own allocations: this is done before every call.
    pub fn copy_from(&mut self, other: &Memory) {
        for which in Buffer::ALL {
            self.buffer_mut(which).clone_from(other.buffer(which));
        }
    }
}
