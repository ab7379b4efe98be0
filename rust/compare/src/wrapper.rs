//! The wrapper's functions with every buffer guarded, and as the calls that the second implementation
//! is compared with: each answer is taken back to its number.
use crate::arrivals::lists;
use crate::guarded::lend;
use crate::library::{Library, GUARDED};
use dapohiru::numbers::ACCEPTED;
use dapohiru::{Counts, Refusal, Report, Rule, Verdict, RULE_LEN};

/// [`dapohiru::plan`], on guarded buffers too.
pub fn plan(job: &[u8], work: &mut [u8], plan: &mut [u8]) -> Result<Counts, Refusal> {
    lend([job], [work, plan], |[job], [work, plan]| {
        dapohiru::plan(job, work, plan)
    })
}

/// [`dapohiru::list`], on guarded buffers too.
pub fn list(job: &[u8], work: &mut [u8], listing: &mut [u8]) -> Result<usize, Refusal> {
    lend([job], [work, listing], |[job], [work, listing]| {
        dapohiru::list(job, work, listing)
    })
}

/// [`dapohiru::check`], on guarded buffers too.
pub fn check(job: &[u8], plan: &[u8], work: &mut [u8]) -> Result<Verdict, Refusal> {
    lend([job, plan], [work], |[job, plan], [work]| {
        dapohiru::check(job, plan, work)
    })
}

/// [`dapohiru::price`], on guarded buffers too.
pub fn price(job: &[u8], plan: &[u8], volumes: &[u8]) -> Result<u64, Refusal> {
    lend([job, plan, volumes], [], |[job, plan, volumes], []| {
        dapohiru::price(job, plan, volumes)
    })
}

/// [`dapohiru::price_by`], on guarded buffers too.
pub fn price_by(job: &[u8], plan: &[u8], volumes: &[u8], prices: &[u8]) -> Result<u64, Refusal> {
    let read = [job, plan, volumes, prices];
    lend(read, [], |[job, plan, volumes, prices], []| {
        dapohiru::price_by(job, plan, volumes, prices)
    })
}

/// [`dapohiru::rule`], on guarded buffers too.
pub fn rule(job: &[u8], work: &mut [u8]) -> Result<Rule, Refusal> {
    lend([job], [work], |[job], [work]| dapohiru::rule(job, work))
}

/// [`dapohiru::rows`], on guarded buffers too.
pub fn rows(rows: &[u8], states: u64, symbols: u64, finals: u64) -> Result<Rule, Refusal> {
    lend([rows], [], |[rows], []| {
        dapohiru::rows(rows, states, symbols, finals)
    })
}

/// [`dapohiru::expression()`], on guarded buffers too.
pub fn expression(text: &[u8], symbols: u64) -> Result<Rule, Refusal> {
    lend([text], [], |[text], []| dapohiru::expression(text, symbols))
}

/// [`dapohiru::event`], on guarded buffers too.
pub fn event(
    rule: &[u8],
    states: u64,
    symbols: u64,
    finals: u64,
    symbol: u64,
    record: &mut [u8],
) -> Result<Report, Refusal> {
    lend([rule], [record], |[rule], [record]| {
        dapohiru::event(rule, states, symbols, finals, symbol, record)
    })
}

/// The wrapper.
pub const WRAPPER: Library = Library {
    plan: |job, work, buffer| {
        number(
            plan(job, work, buffer)
                .map(|counts| (counts.points << 32) + (counts.watched << 16) + counts.passes),
        )
    },
    list: |job, work, listing| number(list(job, work, listing).map(|len| len as u64)),
    check: |job, plan, work| {
        number(check(job, plan, work).map(|verdict| match verdict {
            Verdict::Faithful => 0,
            Verdict::Different => 1,
        }))
    },
    price: |job, plan, volumes| number(price(job, plan, volumes)),
    price_by: |job, plan, volumes, prices| number(price_by(job, plan, volumes, prices)),
    rule: |job, work, buffer| {
        // the wrapper has a table of its own; one of another length is lent to the C call
        if buffer.len() != RULE_LEN {
            return (GUARDED.rule)(job, work, buffer);
        }
        number(rule(job, work).map(|taken| {
            buffer.copy_from_slice(&taken.table);
            (taken.states << 32) + (taken.symbols << 16) + taken.finals
        }))
    },
    rows: |text, states, symbols, finals, buffer| {
        if buffer.len() != RULE_LEN {
            return (GUARDED.rows)(text, states, symbols, finals, buffer);
        }
        number(rows(text, states, symbols, finals).map(|made| {
            assert_eq!(
                (made.states, made.symbols, made.finals),
                (states, symbols, finals)
            );
            buffer.copy_from_slice(&made.table);
            0
        }))
    },
    expression: |text, symbols, buffer| {
        if buffer.len() != RULE_LEN {
            return (GUARDED.expression)(text, symbols, buffer);
        }
        number(expression(text, symbols).map(|made| {
            assert_eq!(made.symbols, symbols);
            buffer.copy_from_slice(&made.table);
            (made.states << 16) + made.finals
        }))
    },
    event: |rule, states, symbols, finals, symbol, record| {
        let report = event(rule, states, symbols, finals, symbol, record);
        number(report.map(|report| match report {
            Report::Quiet => 0,
            Report::Alarm => 1,
        }))
    },
    // the wrapper has lists of its own; those that are not sound are lent to the C calls
    add_edge: |edges, predecessors, starts, nodes, count, from, to| {
        let lent = [&mut *edges, &mut *predecessors, &mut *starts];
        let added = lists::change(lent, nodes, count, |graph| {
            graph.add(from as usize, to as usize)
        });
        match added {
            Some(added) => number(added),
            None => (GUARDED.add_edge)(edges, predecessors, starts, nodes, count, from, to),
        }
    },
    drop_edge: |edges, predecessors, starts, nodes, count, from, to| {
        let lent = [&mut *edges, &mut *predecessors, &mut *starts];
        let dropped = lists::change(lent, nodes, count, |graph| {
            graph.remove(from as usize, to as usize)
        });
        match dropped {
            Some(dropped) => number(dropped),
            None => (GUARDED.drop_edge)(edges, predecessors, starts, nodes, count, from, to),
        }
    },
    index_edges: |edges, predecessors, starts, nodes, count| match lists::index(
        edges,
        predecessors,
        starts,
        nodes,
        count,
    ) {
        Some(made) => number(made),
        None => (GUARDED.index_edges)(edges, predecessors, starts, nodes, count),
    },
};

/// The number of an answer.
fn number(answer: Result<u64, Refusal>) -> u64 {
    answer.map_or_else(|Refusal(number)| number, |more| ACCEPTED + more)
}
