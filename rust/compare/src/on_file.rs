//! Calls on a file.
use dapohiru_generators::random::Random;
use dapohiru_generators::zeros::filled;
use std::mem::take;

/// A call on a file.
pub trait OnFile: Sized {
    /// The file that it is made on.
    fn file(&mut self) -> &mut Vec<u8>;

    /// Puts any zeros before the numbers of the file.
    fn with_zeros(mut self, random: &mut Random) -> Self {
        let file = take(self.file());
        *self.file() = filled(random, file);
        self
    }
}
