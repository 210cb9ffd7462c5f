//! The tables.

use crate::race::{middle, ratio, Spread, Times};

/// Measured times of one work.
pub struct Row {
    pub work: String,
    pub bytes: usize,
    pub ours: Times,
    pub rust: Times,
    pub limit: Option<Times>,
    pub plain: Option<Times>,
}

/// Times of one work on streams of growing size, in MiB.
pub struct Growth {
    pub work: &'static str,
    pub times: Vec<(usize, Spread)>,
}

fn told(spread: Option<Spread>) -> String {
    spread.map_or("".into(), |s| {
        format!("{:.2} ({:.2}..{:.2})", s.middle, s.least, s.most)
    })
}

/// A line for each work: the time of one run, and the ratios.
pub fn table(rows: &[Row]) {
    println!("| work | bytes | µs | MB/s | ours / Rust | ours / limit | ours / byte loop |");
    println!("| --- | ---: | ---: | ---: | --- | --- | --- |");
    for row in rows {
        let one = middle(&row.ours).middle;
        println!(
            "| {} | {} | {:.1} | {:.0} | {} | {} | {} |",
            row.work,
            row.bytes,
            one * 1e6,
            row.bytes as f64 / one / 1e6,
            told(Some(ratio(&row.ours, &row.rust))),
            told(row.limit.as_ref().map(|limit| ratio(&row.ours, limit))),
            told(row.plain.as_ref().map(|plain| ratio(&row.ours, plain))),
        );
    }
}

/// How the time of a work grows.
pub fn grown(growth: &[Growth]) {
    println!("| ms, and ns for each KiB | 1 MiB | 4 MiB | 16 MiB | 64 MiB | 256 MiB |");
    println!("| --- | --- | --- | --- | --- | --- |");
    for g in growth {
        print!("| {} |", g.work);
        for (mib, time) in &g.times {
            print!(
                " {:.3}, {:.1} |",
                time.middle * 1e3,
                time.middle * 1e9 / (*mib as f64 * 1024.0)
            );
        }
        println!();
    }
}
