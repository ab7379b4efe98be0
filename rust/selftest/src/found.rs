//! What a run has found.

/// Whether the library did what it should.
pub enum Found {
    Nothing,
    Difference,
}
