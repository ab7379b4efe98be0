//! Calls on a job file with a work buffer.
use crate::memory::{start_of, MOST_WORK};
use crate::on_file::OnFile;
use dapohiru_generators::damage::Damaged;
use dapohiru_generators::faults::{lengthen, refused, short_work};
use dapohiru_generators::random::Random;
use dapohiru_second::job::Job;
use dapohiru_second::reading::WORK;

/// What such a call is lent: the file of a job or one like it with a fault, and a work buffer.
#[derive(Clone, Debug)]
pub struct JobLent {
    pub file: Vec<u8>,
    /// The refusal, 3 to 10, that the file deserves.
    pub unread: Option<u64>,
    pub work_len: usize,
}

impl JobLent {
    /// The file of a job, with a work buffer that is just long enough.
    pub fn of(job: &Job) -> Self {
        JobLent {
            file: job.file(),
            unread: None,
            work_len: WORK,
        }
    }

    /// A damaged file, with a work buffer that is long enough.
    pub fn of_damaged(random: &mut Random, damaged: &Damaged) -> Self {
        JobLent {
            file: damaged.file.clone(),
            unread: damaged.unread,
            work_len: any_work(random),
        }
    }

    /// Gives what is lent the fault that this refusal names, 1 to 10; 8 asks for a job with an edge. A fault of the file
    /// makes another file, so it comes before 1.
    pub fn put_fault(&mut self, random: &mut Random, job: &Job, number: u64) {
        match number {
            1 => {
                lengthen(random, &mut self.file);
                self.unread = self.unread.or(Some(9));
            }
            2 => self.work_len = short_work(random),
            _ => {
                self.file = refused(random, job, number);
                self.unread = Some(number);
            }
        }
    }

    /// What there is of the job that the file holds, or the refusal that it deserves.
    pub fn held<T>(&self, of_job: T) -> Result<T, u64> {
        self.unread.map_or(Ok(of_job), Err)
    }

    /// The file in words; of a long one only its start.
    pub fn words(&self) -> String {
        format!(
            "file of {} bytes:\n{}",
            self.file.len(),
            start_of(&self.file)
        )
    }
}

/// The length of a work buffer that is just long enough, or longer.
fn any_work(random: &mut Random) -> usize {
    random.pick(&[WORK, WORK, WORK + 1, WORK + 64, MOST_WORK])
}

/// A call that is lent a job file and a work buffer.
pub trait OnJob: Sized {
    /// What it is lent.
    fn lent(&mut self) -> &mut JobLent;

    /// Gives it a work buffer that is just long enough, or longer.
    fn with_any_work(mut self, random: &mut Random) -> Self {
        self.lent().work_len = any_work(random);
        self
    }

    /// Gives it a work buffer that is longer than it has to be.
    fn with_longer_work(mut self, random: &mut Random) -> Self {
        self.lent().work_len = random.pick(&[WORK + 1, WORK + 64, MOST_WORK]);
        self
    }
}

impl<T: OnJob> OnFile for T {
    fn file(&mut self) -> &mut Vec<u8> {
        &mut self.lent().file
    }
}
