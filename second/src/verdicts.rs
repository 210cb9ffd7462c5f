//! Counting the verdicts in listings, and naming those that never came.

use std::collections::{BTreeMap, BTreeSet};

use crate::kind::Kind;
use crate::order::Order;
use crate::possible::{can_miss_cover, faults, lacks};
use crate::reader::NO_COVER;
use crate::walk::Cause;

/// A kind and its verdict; `line` and a word for what has no kind, `tail` for
/// an unfinished end with less than a sync word; `pxgf` and the order for first
/// lines; `cause` and its word for what is skipped.
pub type Pair = (String, String);

#[derive(Clone, Debug, Default)]
pub struct Verdicts {
    counts: BTreeMap<Pair, usize>,
}

impl Verdicts {
    /// Takes one dump or several. A line that none has is given back as the
    /// error.
    pub fn add(&mut self, listing: &str) -> Result<(), String> {
        for line in listing.lines() {
            let detail = line.starts_with("  ") && !line.starts_with("  cause ");
            if detail || line.starts_with("end ") {
                continue;
            }
            let pair = pair_of(line).ok_or_else(|| line.to_owned())?;
            *self.counts.entry(pair).or_default() += 1;
        }
        Ok(())
    }

    pub fn counts(&self) -> impl Iterator<Item = (&Pair, usize)> {
        self.counts.iter().map(|(pair, count)| (pair, *count))
    }

    /// Pairs of the table that were not met.
    pub fn missing(&self) -> Vec<Pair> {
        table()
            .into_iter()
            .filter(|pair| !self.counts.contains_key(pair))
            .collect()
    }

    /// Pairs that were met and that no stream can give.
    pub fn outside(&self) -> Vec<Pair> {
        let table = table();
        self.counts
            .keys()
            .filter(|pair| !table.contains(*pair))
            .cloned()
            .collect()
    }
}

fn pair_of(line: &str) -> Option<Pair> {
    let words: Vec<&str> = line.split(' ').collect();
    let pair = |kind: &str, verdict: String| Some((kind.to_owned(), verdict));
    match words[..] {
        ["long" | "none"] | ["skip", _, _] => pair("line", words[0].to_owned()),
        ["cut", _, len] => {
            let short = len.parse::<usize>().ok()? < 4;
            pair("line", if short { "tail" } else { "cut" }.to_owned())
        }
        ["chunk", _, _, _, "unknown"] => pair("line", "unknown".to_owned()),
        ["", "", "cause", word] => pair("cause", word.to_owned()),
        ["pxgf", order, _] => pair("pxgf", order.to_owned()),
        ["chunk", _, kind, _, verdict] => pair(kind, verdict.to_owned()),
        ["chunk", _, kind, _, verdict, number] => pair(kind, format!("{verdict} {number}")),
        _ => None,
    }
}

/// All pairs that can occur.
pub fn table() -> BTreeSet<Pair> {
    let mut table = BTreeSet::new();
    let mut add = |kind: &str, verdict: String| table.insert((kind.to_owned(), verdict));
    for word in ["skip", "cut", "tail", "unknown", "none", "long"] {
        add("line", word.to_owned());
    }
    for cause in Cause::ALL {
        add("cause", cause.word().to_owned());
    }
    for order in [Order::Big, Order::Little] {
        add("pxgf", order.name().to_owned());
    }
    for kind in Kind::ALL {
        add(kind.name(), "ok".to_owned());
        for fault in faults(kind) {
            add(kind.name(), format!("bad {}", fault.number()));
        }
        for lack in lacks(kind) {
            add(kind.name(), format!("wait {}", lack.number()));
        }
        if can_miss_cover(kind) {
            add(kind.name(), format!("bad {NO_COVER}"));
        }
    }
    table
}
