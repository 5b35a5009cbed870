//! How many sheets have each finding, in all and by depth.

use super::{Checked, Finding};
use crate::exit::Exit;
use std::collections::BTreeMap;

const FINDINGS: usize = Finding::NAMES.len();

/// A count for each finding, in the order of `Finding::NAMES`.
#[derive(Clone, Copy, Debug, Default, PartialEq, Eq)]
pub struct Tally {
    counts: [u64; FINDINGS],
}

impl Tally {
    fn add(&mut self, finding: &str) {
        for (count, name) in self.counts.iter_mut().zip(Finding::NAMES) {
            *count += u64::from(name == finding);
        }
    }

    /// Each finding's name with its count.
    pub fn by_name(&self) -> impl Iterator<Item = (&'static str, u64)> + '_ {
        Finding::NAMES.into_iter().zip(self.counts)
    }

    pub fn all(&self) -> u64 {
        self.counts.iter().sum()
    }

    /// Sheets whose writer is at fault.
    pub fn faults(&self) -> u64 {
        self.by_name().filter(|(name, _)| Finding::FAULTS.contains(name)).map(|(_, count)| count).sum()
    }
}

/// The counts of a whole check.
#[derive(Clone, Debug, Default, PartialEq, Eq)]
pub struct Counts {
    whole: Tally,
    /// By the depth of the best layout, if that is asked for; none is a sheet without one.
    by_depth: Option<BTreeMap<Option<u32>, Tally>>,
}

impl Counts {
    /// Counts that are kept by depth too, or not.
    pub fn new(by_depth: bool) -> Counts {
        Counts { whole: Tally::default(), by_depth: by_depth.then(BTreeMap::new) }
    }

    pub fn add(&mut self, checked: &Checked) {
        self.add_named(checked.finding.name(), checked.depth);
    }

    /// One more sheet with a finding of this name.
    pub fn add_named(&mut self, finding: &str, depth: Option<u32>) {
        self.whole.add(finding);
        if let Some(by_depth) = &mut self.by_depth {
            by_depth.entry(depth).or_default().add(finding);
        }
    }

    /// Each finding's name with its count.
    pub fn by_name(&self) -> impl Iterator<Item = (&'static str, u64)> + '_ {
        self.whole.by_name()
    }

    /// The depths with their counts, where they are kept: rising, and last what has no depth.
    pub fn by_depth(&self) -> Option<Vec<(Option<u32>, &Tally)>> {
        let by_depth = self.by_depth.as_ref()?;
        let mut rows: Vec<_> = by_depth.iter().map(|(depth, tally)| (*depth, tally)).collect();
        rows.sort_by_key(|(depth, _)| depth.unwrap_or(u32::MAX));
        Some(rows)
    }

    pub fn all(&self) -> u64 {
        self.whole.all()
    }

    /// Sheets whose writer is at fault.
    pub fn faults(&self) -> u64 {
        self.whole.faults()
    }

    /// Sheets with the best count and length, but not the first in the order.
    fn equals(&self) -> u64 {
        self.by_name().filter(|(name, _)| *name == "equal").map(|(_, count)| count).sum()
    }

    pub fn unreadable(&self) -> u64 {
        self.whole.counts[FINDINGS - 1]
    }

    /// What could not be read counts more than what was found: the check is not whole. A strict check counts equals as
    /// findings.
    pub fn exit(&self, is_strict: bool) -> Exit {
        let findings = self.faults() + if is_strict { self.equals() } else { 0 };
        match (self.unreadable(), findings) {
            (0, 0) => Exit::Done,
            (0, _) => Exit::Found,
            _ => Exit::Unable,
        }
    }

    /// The table at the end: the findings, and the depths where they are asked for.
    pub fn table(&self) -> String {
        let rows = self.by_name().chain([("all", self.all())]);
        let table: String = rows.map(|(name, count)| format!("{name:<16}{count:>10}\n")).collect();
        match self.by_depth() {
            None => table,
            Some(rows) => table + "\n" + &depth_table(&rows, &self.whole),
        }
    }
}

/// One line a depth: the sheets, the findings that occur at all, and the share of faults.
fn depth_table(rows: &[(Option<u32>, &Tally)], whole: &Tally) -> String {
    let occurs: Vec<bool> = whole.counts.iter().map(|count| *count > 0).collect();
    let shown = |tally: &Tally| -> Vec<(&'static str, u64)> {
        tally.by_name().zip(&occurs).filter(|(_, occurs)| **occurs).map(|(pair, _)| pair).collect()
    };
    let mut table = format!("{:<8}{:>10}", "depth", "sheets");
    for (name, _) in shown(whole) {
        table.push_str(&format!("{name:>17}"));
    }
    table.push_str(&format!("{:>12}\n", "at fault"));
    for (depth, tally) in
        rows.iter().map(|(depth, tally)| (depth_name(*depth), *tally)).chain([("all".to_string(), whole)])
    {
        table.push_str(&format!("{depth:<8}{:>10}", tally.all()));
        for (_, count) in shown(tally) {
            table.push_str(&format!("{count:>17}"));
        }
        let share = 100.0 * tally.faults() as f64 / tally.all().max(1) as f64;
        table.push_str(&format!("{share:>10.2} %\n"));
    }
    table
}

/// A depth as reports write it.
pub fn depth_name(depth: Option<u32>) -> String {
    depth.map_or("none".to_string(), |depth| depth.to_string())
}
