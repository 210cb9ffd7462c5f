//! The 22 chunk kinds, their names and type numbers.

/// A chunk kind that has rules of its own. Any other type is unknown.
#[derive(Clone, Copy, Debug, PartialEq, Eq, PartialOrd, Ord, Hash)]
pub enum Kind {
    Ssnc,
    Ssnr,
    Sfnc,
    Sfnr,
    Gsnc,
    Gfnc,
    Siqp,
    Sr,
    Bw,
    Gcbw,
    Bwof,
    Cf,
    Dbfs,
    Dbtg,
    Ffs,
    Giqp,
    Gcf,
    Grg,
    Sofh,
    Eofh,
    Iqdc,
    Text,
}

/// The width of one sample number.
#[derive(Clone, Copy, Debug, PartialEq, Eq)]
pub enum Width {
    Short,
    Float,
}

impl Width {
    pub const fn bytes(self) -> usize {
        match self {
            Width::Short => 2,
            Width::Float => 4,
        }
    }
}

/// What the samples of a data kind look like.
#[derive(Clone, Copy, Debug, PartialEq, Eq)]
pub struct DataForm {
    pub width: Width,
    /// A sample is a pair of numbers, not one real number.
    pub complex: bool,
    /// The body holds several channels, laid out as GIQP says.
    pub group: bool,
}

impl DataForm {
    pub const fn sample_bytes(self) -> usize {
        self.width.bytes() * if self.complex { 2 } else { 1 }
    }
}

impl Kind {
    pub const ALL: [Kind; 22] = [
        Kind::Ssnc,
        Kind::Ssnr,
        Kind::Sfnc,
        Kind::Sfnr,
        Kind::Gsnc,
        Kind::Gfnc,
        Kind::Siqp,
        Kind::Sr,
        Kind::Bw,
        Kind::Gcbw,
        Kind::Bwof,
        Kind::Cf,
        Kind::Dbfs,
        Kind::Dbtg,
        Kind::Ffs,
        Kind::Giqp,
        Kind::Gcf,
        Kind::Grg,
        Kind::Sofh,
        Kind::Eofh,
        Kind::Iqdc,
        Kind::Text,
    ];

    /// The kinds that carry samples.
    pub const DATA: [Kind; 6] = [
        Kind::Ssnc,
        Kind::Ssnr,
        Kind::Sfnc,
        Kind::Sfnr,
        Kind::Gsnc,
        Kind::Gfnc,
    ];

    const fn letters(self) -> &'static [u8; 4] {
        match self {
            Kind::Ssnc => b"SSNC",
            Kind::Ssnr => b"SSNR",
            Kind::Sfnc => b"SFNC",
            Kind::Sfnr => b"SFNR",
            Kind::Gsnc => b"GSNC",
            Kind::Gfnc => b"GFNC",
            Kind::Siqp => b"SIQP",
            Kind::Sr => b"SR__",
            Kind::Bw => b"BW__",
            Kind::Gcbw => b"GCBW",
            Kind::Bwof => b"BWOF",
            Kind::Cf => b"CF__",
            Kind::Dbfs => b"dBFS",
            Kind::Dbtg => b"dBTG",
            Kind::Ffs => b"FFS_",
            Kind::Giqp => b"GIQP",
            Kind::Gcf => b"GCF_",
            Kind::Grg => b"GRG_",
            Kind::Sofh => b"SOFH",
            Kind::Eofh => b"EOFH",
            Kind::Iqdc => b"IQDC",
            Kind::Text => b"TEXT",
        }
    }

    pub fn name(self) -> &'static str {
        std::str::from_utf8(self.letters()).expect("the names are ASCII")
    }

    /// The type number: the four letters as a big-order number.
    pub const fn code(self) -> u32 {
        u32::from_be_bytes(*self.letters())
    }

    pub fn from_code(code: u32) -> Option<Kind> {
        Some(match &code.to_be_bytes() {
            b"SSNC" => Kind::Ssnc,
            b"SSNR" => Kind::Ssnr,
            b"SFNC" => Kind::Sfnc,
            b"SFNR" => Kind::Sfnr,
            b"GSNC" => Kind::Gsnc,
            b"GFNC" => Kind::Gfnc,
            b"SIQP" => Kind::Siqp,
            b"SR__" => Kind::Sr,
            b"BW__" => Kind::Bw,
            b"GCBW" => Kind::Gcbw,
            b"BWOF" => Kind::Bwof,
            b"CF__" => Kind::Cf,
            b"dBFS" => Kind::Dbfs,
            b"dBTG" => Kind::Dbtg,
            b"FFS_" => Kind::Ffs,
            b"GIQP" => Kind::Giqp,
            b"GCF_" => Kind::Gcf,
            b"GRG_" => Kind::Grg,
            b"SOFH" => Kind::Sofh,
            b"EOFH" => Kind::Eofh,
            b"IQDC" => Kind::Iqdc,
            b"TEXT" => Kind::Text,
            _ => return None,
        })
    }

    /// The form of the samples, for the kinds that carry any.
    pub const fn data_form(self) -> Option<DataForm> {
        let (width, complex, group) = match self {
            Kind::Ssnc => (Width::Short, true, false),
            Kind::Ssnr => (Width::Short, false, false),
            Kind::Sfnc => (Width::Float, true, false),
            Kind::Sfnr => (Width::Float, false, false),
            Kind::Gsnc => (Width::Short, true, true),
            Kind::Gfnc => (Width::Float, true, true),
            _ => return None,
        };
        Some(DataForm {
            width,
            complex,
            group,
        })
    }
}
