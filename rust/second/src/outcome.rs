//! What a call leaves that is lent a buffer to write to.

/// What a call leaves: its answer, the bytes that it writes from the start of the buffer that it is lent for them on,
/// and how many bytes of the work buffer are zero from its start on; none where it is lent no work buffer.
#[derive(Clone, Debug, PartialEq, Eq)]
pub struct Outcome<Answer> {
    pub answer: Answer,
    /// Up to the last byte written; nothing for a byte that is as it was.
    pub written: Vec<Option<u8>>,
    pub cleared: usize,
}
