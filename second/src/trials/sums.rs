//! The sorts of sums that a dump shows, of dBTG and a channel's gain.

use std::num::FpCategory;

use super::Met;
use crate::list::MOST_BYTES;
use crate::reader::{Item, Reader, Verdict};
use crate::search::find_order;
use crate::state::State;

/// A sum that is what its parts make, and one that had to be rounded; one below
/// the normal floats; 0 of parts that aren't, and of two zeros; -0; and none,
/// since it would be infinite.
pub const SORTS: [&str; 7] = [
    "exact",
    "rounded",
    "subnormal",
    "cancelled",
    "zero",
    "-0",
    "infinite",
];

/// Notes the sort of each channel's sum in every chunk that a dump shows.
pub fn meet(stream: &[u8], met: &mut Met) {
    let order = find_order(stream).filter(|_| stream.len() <= MOST_BYTES);
    let items = order.into_iter().flat_map(|o| Reader::new(o, stream));
    for item in items {
        if let Item::Chunk {
            verdict: Verdict::Ready(ready),
            ..
        } = item
        {
            for sort in sorts(&ready.state) {
                met.answer("sum", sort);
            }
        }
    }
}

/// One for each channel with both parts.
fn sorts(state: &State) -> Vec<&'static str> {
    let (Some(total), Some(gains)) = (state.total_gain, &state.group_gains) else {
        return Vec::new();
    };
    gains
        .values()
        .iter()
        .zip(&state.group_sums)
        .map(|(gain, sum)| match sum {
            Some(sum) => sort([total, *gain, *sum].map(f32::from_bits)),
            None => "infinite",
        })
        .collect()
}

fn sort([total, gain, sum]: [f32; 3]) -> &'static str {
    match sum.classify() {
        FpCategory::Zero if sum.is_sign_negative() => "-0",
        FpCategory::Zero if gain == 0.0 => "zero",
        FpCategory::Zero => "cancelled",
        FpCategory::Subnormal => "subnormal",
        _ if is_exact(total, gain, sum) => "exact",
        _ => "rounded",
    }
}

/// Whether each part is left when the other is taken off again. In 64 bits a
/// difference keeps what 32 have rounded off, if the larger part is taken off.
fn is_exact(total: f32, gain: f32, sum: f32) -> bool {
    let [total, gain, sum] = [total, gain, sum].map(f64::from);
    sum - total == gain && sum - gain == total
}

#[cfg(test)]
mod tests {
    use super::*;

    #[test]
    fn one_of_each_sort() {
        let least = f32::from_bits(1);
        let sums = [
            [20.0, 1.5, 21.5],
            [1.0, least, 1.0],
            [least, 1.0, 1.0],
            [16_777_216.0, 3.0, 16_777_220.0],
            [least, least, f32::from_bits(2)],
            [-20.0, 20.0, 0.0],
            [-0.0, 0.0, 0.0],
            [-0.0, -0.0, -0.0],
        ];
        assert_eq!(
            sums.map(sort),
            [
                "exact",
                "rounded",
                "rounded",
                "rounded",
                "subnormal",
                "cancelled",
                "zero",
                "-0"
            ]
        );
    }
}
