use std::fmt;

/// The numbered checks of documents 01 and 02.
#[derive(Clone, Copy, Debug, PartialEq, Eq)]
pub enum Rule {
    NoBytes = 1,
    OuterCut = 2,
    OuterTag = 3,
    LeftOver = 4,
    InnerCut = 5,
    InnerTag = 6,
    Length = 7,
    Range = 8,
    Species = 9,
    Shares = 10,
    Buffer = 11,
    Concentration = 12,
    Missing = 13,
    Pair = 14,
    List = 15,
    Unlisted = 16,
    Misfit = 17,
    NegativeLoad = 21,
}

/// A broken rule, and where in the lent input.
#[derive(Clone, Copy, Debug, PartialEq, Eq)]
pub struct Refusal {
    pub rule: Rule,
    pub offset: usize,
}

impl Rule {
    pub(crate) fn at(self, offset: usize) -> Refusal {
        Refusal { rule: self, offset }
    }
}

impl fmt::Display for Refusal {
    fn fmt(&self, f: &mut fmt::Formatter) -> fmt::Result {
        write!(f, "refused {} at {}", self.rule as u8, self.offset)
    }
}

/// Copies the output into the lent buffer, or refuses and leaves the buffer as it was.
pub(crate) fn lend(output: &[u8], buffer: &mut [u8]) -> Result<usize, Refusal> {
    let place = buffer.get_mut(..output.len()).ok_or(Rule::Buffer.at(0))?;
    place.copy_from_slice(output);
    Ok(output.len())
}
