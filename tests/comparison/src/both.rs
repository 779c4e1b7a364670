//! Makes a call on the library and on the reference and compares everything.

use crate::call::{on_library, on_reference, Call, Completing, Memory, Slices};
use crate::count::Count;
use crate::lent::Lent;
use reference::numbers::Numbers;
use reference::{join_record, journal, log, refused, ADJACENCY_BYTES, JOURNAL_BYTES};
use std::mem;

/// One state for both sides: they are equal after every call, or the test has failed.
pub struct Both {
    pub journal: Vec<u8>,
    pub adjacency: Vec<u8>,
    pub log: Vec<u8>,
    /// The output of the last call that had one.
    pub output: Vec<u8>,
    pub count: Count,
    label: String,
    calls: usize,
    trace: bool,
}

impl Both {
    /// A cleared state. The label tells in messages which test it belongs to.
    pub fn new(label: &str) -> Both {
        Both {
            journal: vec![0; JOURNAL_BYTES],
            adjacency: vec![0; ADJACENCY_BYTES],
            log: log::empty(),
            output: Vec::new(),
            count: Count::new(),
            label: label.to_string(),
            calls: 0,
            trace: std::env::var("REPLICA_TRACE").is_ok(),
        }
    }

    /// For calls that are lent no state: there is none to compare.
    pub fn without_state(label: &str) -> Both {
        Both {
            journal: Vec::new(),
            adjacency: Vec::new(),
            log: Vec::new(),
            ..Both::new(label)
        }
    }

    /// Which test it belongs to.
    pub fn label(&self) -> &str {
        &self.label
    }

    /// Makes the call on both sides, compares answers and bytes, plays what has moved, and reads or
    /// writes a text the other way round. Returns the numbers of the answer.
    pub fn call(&mut self, call: Call) -> Numbers {
        self.count_call(&call);
        let before = Memory::of(&self.journal, &self.adjacency, &self.log, &call);
        let mut expected = before.clone();
        let expected_numbers = on_reference(&call, expected.slices());
        let (numbers, after) = self.on_library_between_guards(&call);
        if numbers != expected_numbers {
            let place = self.place(&call);
            panic!("{place}: the library answers {numbers:?}, the reference {expected_numbers:?}");
        }
        self.compare(&call, "the reference", &after, &expected);
        if numbers[0] != 0 {
            self.compare(&call, "the bytes before the refusal", &after, &before);
        }
        self.compare_inputs(&call, &after);
        let moves = match call {
            Call::CompleteShuffled { .. } => &mut self.count.shuffled,
            _ => &mut self.count.moves,
        };
        let moved = moves.follow(&call, &numbers, &before, &after);
        let swaps = &mut self.count.swaps;
        let logged = swaps.follow(&call, &numbers, &before, &after);
        let texts = &mut self.count.texts;
        let turned = texts.follow(&call, &numbers, &after);
        if let Err(wrong) = moved.and(logged).and(turned) {
            panic!("{}: {wrong}", self.place(&call));
        }
        self.keep(after);
        self.count.answered(call.entry(), &numbers);
        self.count_isolated(&call, &numbers);
        self.count_empty(&call, &numbers);
        numbers
    }

    /// Makes the call on the library alone, between guard bytes, for whoever knows what must come of
    /// it: the reference takes some ten times as long.
    pub fn call_library(&mut self, call: Call) -> Numbers {
        self.count_call(&call);
        let (numbers, after) = self.on_library_between_guards(&call);
        self.compare_inputs(&call, &after);
        self.keep(after);
        self.count.answered(call.entry(), &numbers);
        numbers
    }

    fn keep(&mut self, after: Memory) {
        self.journal = after.journal;
        self.adjacency = after.adjacency;
        self.log = after.log;
        self.output = after.output;
    }

    fn count_call(&mut self, call: &Call) {
        self.calls += 1;
        if self.trace {
            println!("{}", self.place(call));
        }
    }

    /// Completes a laid state in which so many edges are missing: refused for want of one byte, then
    /// with just the room it needs.
    pub fn complete(&mut self, missing: u64) -> Numbers {
        self.complete_by(Completing::Lowest, missing)
    }

    /// The same in either way.
    pub fn complete_by(&mut self, completing: Completing, missing: u64) -> Numbers {
        let needed = join_record::LENGTH * missing as usize;
        let filled = |length| vec![0xee; length];
        if needed > 0 {
            let numbers = self.call(completing.call(filled(needed - 1)));
            assert_eq!(numbers, refused(18), "{}", self.label);
        }
        let numbers = self.call(completing.call(filled(needed)));
        let expected = completing.answer(missing, numbers[2]);
        assert_eq!(numbers, expected, "{}", self.label);
        numbers
    }

    /// Counts the answers in which isolated vertices or a survey's total have a part.
    fn count_isolated(&mut self, call: &Call, numbers: &Numbers) {
        let count = &mut self.count.isolated;
        match (call, numbers[0]) {
            (Call::LayOut, 0 | 12) => {
                let some = journal::summed_table(&self.journal).isolated > 0;
                let answers = match numbers[0] {
                    0 => &mut count.laid,
                    _ => &mut count.too_many,
                };
                *answers += u64::from(some);
            }
            (Call::AddEdge { .. }, 16) => count.not_joined += u64::from(numbers[1] == 0),
            (Call::JdmOfEdges { .. }, 0) => {
                let written = &self.output[..numbers[1] as usize];
                count.surveyed += u64::from(written.starts_with(&[0, 0]));
            }
            (Call::JdmOfEdges { total, edges, .. }, 19) => {
                let beyond = |byte: &u8| u64::from(*byte) >= *total;
                count.totals += u64::from(*total > 200);
                count.beyond += u64::from(*total < 200 && edges.iter().any(beyond));
            }
            _ => {}
        }
    }

    /// Counts the answers in which a block of no bytes has a part.
    fn count_empty(&mut self, call: &Call, numbers: &Numbers) {
        let count = &mut self.count.empty;
        let is_empty = |i: usize| journal::block(&self.journal, i).is_empty();
        match (call, numbers[0]) {
            (Call::TakeBlock { block, .. }, answer) if block.is_empty() => match answer {
                0 if numbers[1] == 0 => count.taken += 1,
                0 => count.held += 1,
                6 => count.too_high += 1,
                7 => count.over_full += 1,
                3 => count.once_laid += 1,
                8 => count.no_room += 1,
                _ => {}
            },
            (Call::TakeBlock { number, .. }, 7) => {
                count.under_full += u64::from(is_empty(*number as usize));
            }
            (Call::HeldBlock { .. }, 0) => count.read_back += u64::from(numbers[2] == 0),
            (Call::LayOut, 0) => {
                let blocks = journal::block_count(&self.journal);
                match (0..blocks).filter(|&i| is_empty(i)).count() {
                    0 => {}
                    empty if empty < blocks => count.laid += 1,
                    _ => count.alone += 1,
                }
            }
            _ => {}
        }
    }

    /// The same on another journal and matrix, which are dropped afterwards; the state stays as it
    /// is, its log too.
    pub fn call_on(&mut self, journal: Vec<u8>, adjacency: Vec<u8>, call: Call) -> Numbers {
        self.call_on_all(journal, adjacency, self.log.clone(), call)
    }

    /// The same with another log.
    pub fn call_with(&mut self, log: Vec<u8>, call: Call) -> Numbers {
        self.call_on_all(self.journal.clone(), self.adjacency.clone(), log, call)
    }

    /// The same on other buffers altogether.
    pub fn call_on_all(
        &mut self,
        journal: Vec<u8>,
        adjacency: Vec<u8>,
        log: Vec<u8>,
        call: Call,
    ) -> Numbers {
        let journal = mem::replace(&mut self.journal, journal);
        let adjacency = mem::replace(&mut self.adjacency, adjacency);
        let log = mem::replace(&mut self.log, log);
        let numbers = self.call(call);
        self.journal = journal;
        self.adjacency = adjacency;
        self.log = log;
        numbers
    }

    /// Finds a held block: the bytes of the journal at the answered place are those that were sent.
    pub fn read_back(&mut self, number: u64, sent: &[u8]) {
        let numbers = self.call(Call::HeldBlock { number });
        assert_eq!(numbers[0], 0, "{}: block {number}", self.label);
        self.compare_held(&numbers, number, sent);
    }

    /// The same for a call that was made already and not refused.
    pub fn compare_held(&mut self, numbers: &Numbers, number: u64, sent: &[u8]) {
        let (start, length) = (numbers[1] as usize, numbers[2] as usize);
        assert_eq!(
            self.journal.get(start..start + length),
            Some(sent),
            "{}, call {}: block {number} is not the one that was sent",
            self.label,
            self.calls
        );
        self.count.read_back += 1;
    }

    /// Where a message comes from.
    fn place(&self, call: &Call) -> String {
        format!("{}, call {}, {call:?}", self.label, self.calls)
    }

    fn on_library_between_guards(&self, call: &Call) -> (Numbers, Memory) {
        // Every slice begins at an alignment of its own, another one in each call.
        let shift = self.calls;
        let mut journal = Lent::new(&self.journal, shift);
        let mut adjacency = Lent::new(&self.adjacency, shift / 3);
        let mut log = Lent::new(&self.log, shift / 11);
        let input = Lent::new(call.input(), shift / 5);
        let mut output = Lent::new(call.output(), shift / 7);
        let slices = Slices {
            journal: journal.get_mut(),
            adjacency: adjacency.get_mut(),
            log: log.get_mut(),
            input: input.get(),
            output: output.get_mut(),
        };
        let numbers = on_library(call, slices);
        for (lent, name) in [
            (&journal, "journal"),
            (&adjacency, "adjacency"),
            (&log, "log"),
            (&input, "input"),
            (&output, "output"),
        ] {
            if !lent.guards_hold() {
                panic!("{}: written outside the {name}", self.place(call));
            }
        }
        let after = Memory {
            journal: journal.get().to_vec(),
            adjacency: adjacency.get().to_vec(),
            log: log.get().to_vec(),
            input: input.get().to_vec(),
            output: output.get().to_vec(),
        };
        (numbers, after)
    }

    fn compare(&self, call: &Call, with: &str, found: &Memory, expected: &Memory) {
        for (name, found, expected) in [
            ("journal", &found.journal, &expected.journal),
            ("adjacency", &found.adjacency, &expected.adjacency),
            ("log", &found.log, &expected.log),
            ("input", &found.input, &expected.input),
            ("output", &found.output, &expected.output),
        ] {
            if found != expected {
                let byte = (0..found.len()).find(|&i| found[i] != expected[i]);
                let place = self.place(call);
                panic!("{place}: {name} differs from {with}, first at {byte:?}");
            }
        }
    }

    /// What a call is lent to read only must not change, also where the reference is not asked.
    fn compare_inputs(&self, call: &Call, after: &Memory) {
        let same_journal = after.journal == self.journal;
        let same_adjacency = after.adjacency == self.adjacency;
        let writes_journal = matches!(call, Call::Clear | Call::TakeBlock { .. } | Call::LayOut);
        let writes_adjacency = call.entry().is_lent_log();
        let kept = (writes_journal || same_journal) && (writes_adjacency || same_adjacency);
        assert!(kept, "{}: a byte lent to read changed", self.place(call));
    }
}
