//! What the drawn cases came to.

use crate::draw_evidence::Kind;
use crate::listing::{Ending, Listing};
use std::collections::BTreeMap;

/// How many cases had so many tasks, and how many of them came to a complete table.
#[derive(Default)]
struct Tasks {
    cases: u64,
    complete: u64,
}

#[derive(Default)]
pub struct Tally {
    pub cases: u64,
    pub short_places: u64,
    pub null_addresses: u64,
    /// Complete tables by who walked their ways.
    by_evidence: u64,
    by_both: u64,
    by_steps: u64,
    endings: BTreeMap<Ending, u64>,
    kinds: BTreeMap<Kind, u64>,
    tasks: BTreeMap<usize, Tasks>,
    most_rows: usize,
    longest_text: usize,
    longest_evidence: usize,
}

/// Every ending that a listing can have.
fn all_endings() -> impl Iterator<Item = Ending> {
    let stages = [
        Ending::Complete,
        Ending::LateOverlap,
        Ending::LateDeadline,
        Ending::Walking,
    ];
    stages
        .into_iter()
        .chain((1..=7).map(|number| Ending::Refused('P', number)))
        .chain((9..=18).map(|number| Ending::Refused('E', number)))
        .chain([Ending::Refused('S', 16)])
}

impl Tally {
    pub fn add(&mut self, kind: Kind, evidence: &[u8], listing: &Listing) {
        self.cases += 1;
        *self.kinds.entry(kind).or_default() += 1;
        let tasks = self.tasks.entry(listing.tasks).or_default();
        tasks.cases += 1;
        tasks.complete += u64::from(listing.endings[0] == Ending::Complete);
        for &ending in &listing.endings {
            *self.endings.entry(ending).or_default() += 1;
        }
        if listing.endings[0] == Ending::Complete {
            *match (listing.steps, evidence) {
                (0, _) => &mut self.by_evidence,
                (_, []) => &mut self.by_steps,
                _ => &mut self.by_both,
            } += 1;
        }
        self.most_rows = self.most_rows.max(listing.rows);
        self.longest_text = self.longest_text.max(listing.text.len());
        self.longest_evidence = self.longest_evidence.max(evidence.len());
    }

    fn seen(&self, ending: Ending) -> u64 {
        self.endings.get(&ending).copied().unwrap_or(0)
    }

    /// The endings that no case had.
    pub fn unseen(&self) -> Vec<Ending> {
        all_endings()
            .filter(|&ending| self.seen(ending) == 0)
            .collect()
    }

    pub fn print(&self, seed: u64) {
        println!("tasks of the plan (0: refused), and with a complete table");
        for (number, tasks) in &self.tasks {
            println!("  {number:<16} {:>9} {:>9}", tasks.cases, tasks.complete);
        }
        println!("evidence");
        for (kind, count) in &self.kinds {
            println!("  {:<16} {count:>9}", format!("{kind:?}").to_lowercase());
        }
        println!("endings");
        for ending in all_endings() {
            println!("  {:<16} {:>9}", ending.to_string(), self.seen(ending));
        }
        println!(
            "complete by evidence alone {}, by evidence and steps {}, by steps alone {}",
            self.by_evidence, self.by_both, self.by_steps
        );
        println!(
            "most rows {}, longest text {} bytes, longest evidence {} bytes",
            self.most_rows, self.longest_text, self.longest_evidence
        );
        println!(
            "crosscheck: {} cases of seed {seed}, all texts the same; {} places too short, {} cases with null addresses",
            self.cases, self.short_places, self.null_addresses
        );
    }
}
