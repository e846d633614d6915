//! The real library behind its C interface. All unsafe code of this package is in this file.

use crate::call::{Answer, Call, Memory, Record};

/// Calls of the library: the record, a call's own numbers, then each buffer as pointer and length.
macro_rules! declare {
    ($pointer:ty; $($name:ident($($own:ident),*)),*) => {
        extern "C" {
            $(fn $name(
                record: Record,
                $($own: u32,)*
                t0: $pointer,
                n0: usize,
                t1: $pointer,
                n1: usize,
                queue: $pointer,
                nq: usize,
                detector: $pointer,
                nd: usize,
            ) -> Answer;)*
        }
    };
}

declare!(*mut u32; kt_open(), kt_define(key, value), kt_change(key, value), kt_remove(key), kt_settle(n));
declare!(*const u32; kt_find(key), kt_check());

/// Lends the four buffers of a memory to a call, each with its own length.
macro_rules! lend {
    ($memory:ident, $pointer:ident, $name:ident, $record:ident $(, $own:ident)*) => {
        unsafe {
            $name(
                $record,
                $($own,)*
                $memory.t0.$pointer(),
                $memory.t0.len(),
                $memory.t1.$pointer(),
                $memory.t1.len(),
                $memory.queue.$pointer(),
                $memory.queue.len(),
                $memory.detector.$pointer(),
                $memory.detector.len(),
            )
        }
    };
}

/// One call of the real library on these words, whatever the record and the lengths are.
pub fn perform(call: Call, record: Record, memory: &mut Memory) -> Answer {
    match call {
        Call::Open => lend!(memory, as_mut_ptr, kt_open, record),
        Call::Find { key } => lend!(memory, as_ptr, kt_find, record, key),
        Call::Define { key, value } => lend!(memory, as_mut_ptr, kt_define, record, key, value),
        Call::Change { key, value } => lend!(memory, as_mut_ptr, kt_change, record, key, value),
        Call::Remove { key } => lend!(memory, as_mut_ptr, kt_remove, record, key),
        Call::Settle { n } => lend!(memory, as_mut_ptr, kt_settle, record, n),
        Call::Check => lend!(memory, as_ptr, kt_check, record),
    }
}
