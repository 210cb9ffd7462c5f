//! Which verdicts a kind can get from any stream at all.

use crate::body::Fault;
use crate::kind::{Kind, Width};
use crate::state::Lack;

/// The faults a body of this kind can have. Every kind has sizes that don't
/// fit it; the others depend on what it holds.
pub fn faults(kind: Kind) -> &'static [Fault] {
    match kind {
        Kind::Siqp
        | Kind::Sr
        | Kind::Bw
        | Kind::Gcbw
        | Kind::Bwof
        | Kind::Dbfs
        | Kind::Dbtg
        | Kind::Ffs => &[Fault::Size, Fault::Value],
        Kind::Giqp | Kind::Grg => &[Fault::Size, Fault::Value, Fault::Count],
        Kind::Gcf => &[Fault::Size, Fault::Count],
        Kind::Text => &[Fault::Size, Fault::Padding, Fault::Text],
        Kind::Ssnc
        | Kind::Ssnr
        | Kind::Sfnc
        | Kind::Sfnr
        | Kind::Gsnc
        | Kind::Gfnc
        | Kind::Cf
        | Kind::Sofh
        | Kind::Eofh
        | Kind::Iqdc => &[Fault::Size],
    }
}

/// What a well-formed chunk of this kind can wait for: pairs need a packing,
/// all samples a rate, floats a full scale.
pub fn lacks(kind: Kind) -> Vec<Lack> {
    let Some(form) = kind.data_form() else {
        return Vec::new();
    };
    let needs = [
        (Lack::Packing, form.complex),
        (Lack::SampleRate, true),
        (Lack::FloatFullScale, form.width == Width::Float),
    ];
    needs
        .into_iter()
        .filter(|(_, needed)| *needed)
        .map(|(lack, _)| lack)
        .collect()
}

/// Whether a layout can fail to cover a chunk of this kind.
pub fn can_miss_cover(kind: Kind) -> bool {
    kind.data_form().is_some_and(|form| form.group)
}
