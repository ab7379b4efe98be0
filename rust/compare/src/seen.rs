//! What is seen of a call that is lent a buffer to write to beside the work buffer.
use crate::memory::{Buffers, Lent};
use dapohiru_second::outcome::Outcome;

/// What is seen of such a call: its number, the bytes that it writes from the start of the lent buffer on, and how
/// many bytes of the work buffer it leaves as zero. All other bytes are as they were.
#[derive(Clone, Debug, PartialEq, Eq)]
pub struct Seen {
    pub number: u64,
    /// Up to the last byte written; nothing for a byte that is as it was.
    pub written: Vec<Option<u8>>,
    pub cleared: usize,
}

impl Seen {
    /// What is to be seen of a call with this number that leaves what the second implementation says.
    pub fn wanted<Answer>(number: u64, outcome: Outcome<Answer>) -> Self {
        Seen {
            number,
            written: outcome.written,
            cleared: outcome.cleared,
        }
    }

    /// What a call that returned this number has left; says so if it has changed another byte. The lent buffer is
    /// called so in words.
    pub fn after(
        number: u64,
        buffers: &Buffers,
        lent: &Lent,
        called: &str,
    ) -> Result<Self, String> {
        buffers.keeps_file(&number)?;
        let cleared = buffers.cleared(&number)?;
        let seen = Seen::without_work(number, lent, called)?;
        Ok(Seen { cleared, ..seen })
    }

    /// The same of a call that is lent no work buffer.
    pub fn without_work(number: u64, lent: &Lent, called: &str) -> Result<Self, String> {
        let Some(written) = lent.written() else {
            return Err(format!("{number} changes bytes beside {called}"));
        };
        Ok(Seen {
            number,
            written,
            cleared: 0,
        })
    }

    /// All bytes written, if every one up to the last is.
    pub fn table(&self) -> Option<Vec<u8>> {
        self.written.iter().copied().collect()
    }
}

/// What is seen where it is what is wanted, else how the two differ; both in these words, with those of the call.
pub fn held_to<S: PartialEq>(
    wanted: &S,
    seen: Result<S, String>,
    leaves: fn(&S) -> String,
    call: impl FnOnce() -> String,
) -> Result<S, String> {
    match seen {
        Ok(seen) if seen == *wanted => Ok(seen),
        Ok(seen) => Err(format!(
            "the library leaves\n{}\nand the second implementation\n{}\n{}",
            leaves(&seen),
            leaves(wanted),
            call()
        )),
        Err(why) => Err(format!("{why}; {}", call())),
    }
}
