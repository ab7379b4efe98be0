//! The event step for a given count of events, beside the plain step.
use crate::found::Found;
use crate::progress::Progress;
use dapohiru::numbers::{self, ACCEPTED};
use dapohiru_generators::random::Random;
use std::io::{self, Write};
use std::time::{Duration, Instant};

/// Events between two comparisons.
const BATCH: u64 = 4_096;

/// A rule of `size` states and symbols, with the record of a monitor that runs on.
struct Monitor {
    rule: [u8; 256],
    size: u64,
    finals: u64,
    record: [u8; 16],
}

impl Monitor {
    fn new(random: &mut Random, size: u64) -> Self {
        let mut rule = [255; 256];
        for cell in 0..size * size {
            rule[(16 * (cell / size) + cell % size) as usize] = random.below(size) as u8;
        }
        Monitor {
            rule,
            size,
            finals: random.some_set(size),
            record: [0; 16],
        }
    }

    /// Takes a batch by the library; gives how many alarms there were.
    fn take(&mut self, symbols: &[u64]) -> Result<u64, String> {
        let mut alarms = 0;
        for &symbol in symbols {
            let (size, finals) = (self.size, self.finals);
            let number = numbers::event(&self.rule, size, size, finals, symbol, &mut self.record);
            match number.checked_sub(ACCEPTED) {
                Some(alarm @ 0..=1) => alarms += alarm,
                _ => return Err(format!("{number} for symbol {symbol} of {size}")),
            }
        }
        Ok(alarms)
    }

    /// Takes the batch by the plain step, from the record as it was, and compares.
    fn compare(&self, mut record: [u8; 16], symbols: &[u64], alarms: u64) -> Result<(), String> {
        let (mut wanted, before) = (0, record);
        for &symbol in symbols {
            let (size, finals) = (self.size, self.finals);
            let taken =
                dapohiru_plain::event::event(&self.rule, size, size, finals, symbol, &mut record);
            wanted += u64::from(taken.map_err(|number| format!("plain step: {number}"))?);
        }
        if (alarms, self.record) == (wanted, record) {
            return Ok(());
        }
        Err(format!(
            "from record {before:?} a batch of {} events has {alarms} alarms and leaves {:?}, and by the plain step {wanted} and {record:?}; S and A {}, finals {:#x}, rule {:?}, symbols {symbols:?}",
            symbols.len(), self.record, self.size, self.finals, self.rule
        ))
    }

    /// Makes a call that is refused, which leaves the record.
    fn refuse(&mut self) -> Result<(), String> {
        let before = self.record;
        let (size, finals) = (self.size, self.finals);
        let number = numbers::event(&self.rule, size, size, finals, size, &mut self.record);
        match number {
            14 if self.record == before => Ok(()),
            _ => Err(format!(
                "symbol {size} of {size}: {number}, or the record is written"
            )),
        }
    }
}

/// Takes so many events, and says how fast they were.
pub fn run(events: u64, out: &mut impl Write) -> io::Result<Found> {
    let mut random = Random(1);
    let mut monitors = [3, 8, 16].map(|size| Monitor::new(&mut random, size));
    let mut progress = Progress::new();
    let (mut taken, mut alarms, mut batches) = (0, 0, 0);
    let mut time = Duration::ZERO;
    let mut difference = None;
    while taken < events && difference.is_none() {
        let monitor = &mut monitors[batches as usize % 3];
        let count = BATCH.min(events - taken);
        let symbols: Vec<_> = (0..count).map(|_| random.below(monitor.size)).collect();
        let before = monitor.record;
        let begun = Instant::now();
        let batch = monitor.take(&symbols);
        time += begun.elapsed();
        let compared = batch.and_then(|batch| {
            alarms += batch;
            monitor.compare(before, &symbols, batch)?;
            monitor.refuse()
        });
        difference = compared.err();
        taken += count;
        batches += 1;
        progress.show(taken, events, "events");
    }
    drop(progress);
    let seconds = time.as_secs_f64();
    let rate = if seconds > 0.0 {
        taken as f64 / seconds / 1e6
    } else {
        0.0
    };
    writeln!(
        out,
        "{taken} events, {alarms} alarms, {batches} batches compared with the plain step"
    )?;
    writeln!(
        out,
        "{seconds:.2} s in dapohiru_event, {rate:.1} million events per second"
    )?;
    match difference {
        None => {
            writeln!(out, "no difference")?;
            Ok(Found::Nothing)
        }
        Some(why) => {
            writeln!(out, "difference in batch {}: {why}", batches - 1)?;
            writeln!(out, "to see it again: dapohiru-selftest soak {taken}")?;
            Ok(Found::Difference)
        }
    }
}
