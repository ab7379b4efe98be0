//! What calls leave in the work buffer.
use crate::reading::WORK;

/// What a call does to its work buffer.
#[derive(Clone, Copy)]
pub(crate) struct Left {
    /// Its first 65,536 bytes are as they were.
    pub unchanged: bool,
    /// One that is longer is cleared to its end; only a slip does this.
    pub rest_cleared: bool,
}

impl Left {
    /// How many bytes of a work buffer of this length are zero from its start on; the bytes past them are as they
    /// were.
    pub fn cleared(self, work_len: usize) -> usize {
        match self {
            _ if self.rest_cleared && work_len > WORK => work_len,
            _ if self.unchanged => 0,
            _ => WORK.min(work_len),
        }
    }
}
