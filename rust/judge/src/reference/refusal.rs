//! The refusals of document 01, "the numbers a caller sees", and the line that each names.

/// Why something is refused.
#[derive(Clone, Copy, Debug, PartialEq, Eq)]
pub enum Fault {
    Size,
    FileName,
    Unrecognized,
    Extension,
    BadHeader,
    UnknownGroup,
    RepeatedGroup,
    NoGroup,
    UnknownKey,
    RepeatedKey,
    ValueText,
    ValueKind,
    ManyServices,
    Missing,
    Contradiction,
    NoPlace,
    ShortBuffer,
    NoService,
    Malformed,
}

impl Fault {
    /// The paper's number of the fault.
    pub fn number(self) -> u8 {
        match self {
            Fault::Size => 1,
            Fault::FileName => 2,
            Fault::Unrecognized => 3,
            Fault::Extension => 4,
            Fault::BadHeader => 5,
            Fault::UnknownGroup => 6,
            Fault::RepeatedGroup => 7,
            Fault::NoGroup => 8,
            Fault::UnknownKey => 9,
            Fault::RepeatedKey => 10,
            Fault::ValueText => 11,
            Fault::ValueKind => 12,
            Fault::ManyServices => 13,
            Fault::Missing => 14,
            Fault::Contradiction => 15,
            Fault::NoPlace => 16,
            Fault::ShortBuffer => 17,
            Fault::NoService => 18,
            Fault::Malformed => 19,
        }
    }

    /// The refusal that blames `line`.
    pub fn at(self, line: usize) -> Refusal {
        Refusal { fault: self, line }
    }

    /// "A later refusal that names no line gives 0."
    pub fn without_line(self) -> Refusal {
        self.at(0)
    }
}

/// A fault and the line to blame, counted from 1; 0 where no line is.
#[derive(Clone, Copy, Debug, PartialEq, Eq)]
pub struct Refusal {
    pub fault: Fault,
    pub line: usize,
}

impl Refusal {
    /// The paper's number of the refusal.
    pub fn number(&self) -> u8 {
        self.fault.number()
    }
}
