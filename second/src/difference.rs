//! The first difference that a comparison met.

/// What was compared, on which file, and both outputs.
pub struct Difference {
    pub what: String,
    pub file: Vec<u8>,
    pub own: Vec<u8>,
    pub other: Vec<u8>,
}

impl Difference {
    pub fn new(what: &str, file: &[u8], own: &[u8], other: &[u8]) -> Difference {
        Difference { what: what.into(), file: file.into(), own: own.into(), other: other.into() }
    }
}
