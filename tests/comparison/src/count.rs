//! How many calls, tables and refusals were tried.

use crate::call::Entry;
use crate::moves::Moves;
use crate::swaps::Swaps;
use crate::texts::Texts;
use reference::numbers::Numbers;

const REFUSALS: usize = 25;

/// What a run tried. Counts of several runs add up.
#[derive(Clone, Debug, Default)]
pub struct Count {
    /// Answers of each entry by refusal number; number 0 is a call that did its work.
    answers: [[u64; REFUSALS + 1]; Entry::ALL.len()],
    pub call_lists: u64,
    pub tables_laid: u64,
    pub tables_refused: u64,
    pub completions: u64,
    pub joins: u64,
    pub switches: u64,
    pub pairs_joined: u64,
    /// Held blocks compared with what was sent.
    pub read_back: u64,
    pub isolated: Isolated,
    pub empty: Empty,
    /// What moved in joins by hand and in completing by the lowest pair.
    pub moves: Moves,
    /// What moved in completing shuffled.
    pub shuffled: Moves,
    pub swaps: Swaps,
    pub texts: Texts,
}

named_counts! {
    /// Answers in which isolated vertices or a survey's total have a part.
    Isolated {
        /// Tables laid out with some.
        laid: "laid out",
        /// Tables with some, refused with 12.
        too_many: "too many",
        /// Edges at one, refused with 16.
        not_joined: "not joined",
        /// Surveys that wrote their number.
        surveyed: "surveyed",
        /// Surveys refused for a total over 200.
        totals: "total over 200",
        /// Surveys refused with 19 that name a vertex not below a total under 200.
        beyond: "vertex not below the total",
    }
}

named_counts! {
    /// Answers in which a block of no bytes has a part. A full one is any with records.
    Empty {
        taken: "taken",
        held: "held",
        /// Refused with 6.
        too_high: "number too high",
        /// Refused with 7 under the number of a full one.
        over_full: "over a full one",
        /// A full one refused with 7 under the number of an empty one.
        under_full: "under a full one",
        /// Refused with 3.
        once_laid: "new once laid",
        /// Refused with 8.
        no_room: "no room",
        /// Read back, with length 0.
        read_back: "read back",
        /// Laid out with some among the blocks.
        laid: "laid out among others",
        /// Laid out with nothing else.
        alone: "laid out alone",
    }
}

impl Count {
    pub fn new() -> Count {
        Count::default()
    }

    /// Counts one answer.
    pub fn answered(&mut self, entry: Entry, numbers: &Numbers) {
        let number = numbers[0] as usize;
        assert!(number <= REFUSALS, "refusal {number} does not exist");
        self.answers[entry as usize][number] += 1;
        match entry {
            Entry::AddEdge if number == 0 => {
                self.joins += 1;
                self.switches += numbers[1];
            }
            Entry::Complete | Entry::CompleteShuffled if number == 0 => {
                self.completions += 1;
                self.joins += numbers[1];
                self.switches += numbers[2];
            }
            _ => {}
        }
    }

    pub fn add(&mut self, other: &Count) {
        for (mine, others) in self.answers.iter_mut().zip(&other.answers) {
            for (mine, others) in mine.iter_mut().zip(others) {
                *mine += others;
            }
        }
        self.call_lists += other.call_lists;
        self.tables_laid += other.tables_laid;
        self.tables_refused += other.tables_refused;
        self.completions += other.completions;
        self.joins += other.joins;
        self.switches += other.switches;
        self.pairs_joined += other.pairs_joined;
        self.read_back += other.read_back;
        self.isolated.add(&other.isolated);
        self.empty.add(&other.empty);
        self.moves.add(&other.moves);
        self.shuffled.add(&other.shuffled);
        self.swaps.add(&other.swaps);
        self.texts.add(&other.texts);
    }

    /// The counts that have names, and what they are of.
    fn named(&self) -> [(&'static str, Vec<(&'static str, u64)>); 6] {
        [
            ("isolated", self.isolated.named()),
            ("empty blocks", self.empty.named()),
            ("what moved", self.moves.named()),
            ("shuffled", self.shuffled.named()),
            ("swaps, logs", self.swaps.named()),
            ("graph6", self.texts.named()),
        ]
    }

    pub fn calls(&self) -> u64 {
        self.answers.iter().flatten().sum()
    }

    /// How often a refusal was answered, over all entries.
    pub fn refusals(&self, number: usize) -> u64 {
        self.answers.iter().map(|answers| answers[number]).sum()
    }

    /// What was never reached, in words: any refusal of any entry, or an entry's work done.
    pub fn missing(&self) -> Vec<String> {
        let mut missing = Vec::new();
        for entry in Entry::ALL {
            let answers = &self.answers[entry as usize];
            if answers[0] == 0 {
                missing.push(format!("{} never did its work", entry.name()));
            }
            for &number in entry.refusals() {
                if answers[number] == 0 {
                    missing.push(format!("{} never refused with {number}", entry.name()));
                }
            }
        }
        if self.read_back == 0 {
            missing.push("no block was read back".to_string());
        }
        for (of, counts) in self.named() {
            let never = counts.into_iter().filter(|(_, count)| *count == 0);
            missing.extend(never.map(|(name, _)| format!("{of}, never: {name}")));
        }
        missing
    }

    pub fn print(&self) {
        println!("entry                calls       done  refusals, number:times");
        for entry in Entry::ALL {
            let answers = &self.answers[entry as usize];
            let calls: u64 = answers.iter().sum();
            print!("{:<17}{calls:>9}{:>11} ", entry.name(), answers[0]);
            for &number in entry.refusals() {
                print!(" {number}:{}", answers[number]);
            }
            println!();
        }
        println!("all              {:>9}", self.calls());
        print!("refusals    ");
        for number in 1..=REFUSALS {
            print!(" {number}:{}", self.refusals(number));
        }
        println!();
        println!(
            "tables        {} laid out and completed, {} refused",
            self.tables_laid, self.tables_refused
        );
        println!(
            "call lists    {}; pairs tried for joining {}",
            self.call_lists, self.pairs_joined
        );
        println!(
            "edges joined  {} with {} switches; {} completions",
            self.joins, self.switches, self.completions
        );
        println!("blocks        {} read back as sent", self.read_back);
        for (of, counts) in self.named() {
            print_named(of, &counts);
        }
    }
}

fn print_named(title: &str, counts: &[(&'static str, u64)]) {
    print!("{title:<13}");
    for (name, count) in counts {
        print!(" {name}:{count}");
    }
    println!();
}
