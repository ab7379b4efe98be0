//! The calls of the library, as functions on slices in the order of the C arguments, which return the numbers of
//! documents 01 and 02.
use crate::guarded::lend;
use dapohiru::numbers;
use dapohiru_second::serving::Service;

/// The event step: rule, S, A, final set, symbol, record.
pub type Event = fn(&[u8], u64, u64, u64, u64, &mut [u8]) -> u64;

/// Pricing by a price file: job, plan, volume file, price file.
pub type PriceBy = fn(&[u8], &[u8], &[u8], &[u8]) -> u64;

/// Rule rows: text, S, A, final set, rule buffer.
pub type Rows = fn(&[u8], u64, u64, u64, &mut [u8]) -> u64;

/// An expression: text, A, rule buffer.
pub type Expression = fn(&[u8], u64, &mut [u8]) -> u64;

/// A change of edges: edges, predecessors, starts, N, count, from, to.
pub type ChangeEdge = fn(&mut [u16], &mut [u16], &mut [u16], u64, u64, u64, u64) -> u64;

/// The index of edges: edges, predecessors, starts, N, count.
pub type IndexEdges = fn(&[u16], &mut [u16], &mut [u16], u64, u64) -> u64;

/// The twelve calls. Each returns the number of its answer.
#[derive(Clone, Copy)]
pub struct Library {
    /// Job, work buffer, plan buffer.
    pub plan: fn(&[u8], &mut [u8], &mut [u8]) -> u64,
    /// Job, work buffer, listing buffer.
    pub list: fn(&[u8], &mut [u8], &mut [u8]) -> u64,
    /// Job, plan, work buffer.
    pub check: fn(&[u8], &[u8], &mut [u8]) -> u64,
    /// Job, plan, volume file.
    pub price: fn(&[u8], &[u8], &[u8]) -> u64,
    pub price_by: PriceBy,
    /// Job, work buffer, rule buffer.
    pub rule: fn(&[u8], &mut [u8], &mut [u8]) -> u64,
    pub rows: Rows,
    pub expression: Expression,
    pub event: Event,
    pub add_edge: ChangeEdge,
    pub drop_edge: ChangeEdge,
    pub index_edges: IndexEdges,
}

impl Library {
    /// Plans or lists: job, work buffer, plan or listing buffer.
    pub fn serve(&self, service: Service, job: &[u8], work: &mut [u8], lent: &mut [u8]) -> u64 {
        match service {
            Service::Plan => (self.plan)(job, work, lent),
            Service::List => (self.list)(job, work, lent),
        }
    }
}

/// The refusal that a number is; nothing where the call is accepted.
pub fn refused(number: u64) -> Option<u64> {
    (number < numbers::ACCEPTED).then_some(number)
}

/// The C calls of the static library, by number.
pub const CALLS: Library = Library {
    plan: numbers::plan,
    list: numbers::list,
    check: numbers::check,
    price: numbers::price,
    price_by: numbers::price_by,
    rule: numbers::rule,
    rows: numbers::rows,
    expression: numbers::expression,
    event: numbers::event,
    add_edge: numbers::add_edge,
    drop_edge: numbers::drop_edge,
    index_edges: numbers::index_edges,
};

/// The same on guarded buffers too: a byte read or written beside one ends the program.
pub const GUARDED: Library = Library {
    plan: |job, work, plan| {
        lend([job], [work, plan], |[job], [work, plan]| {
            numbers::plan(job, work, plan)
        })
    },
    list: |job, work, listing| {
        lend([job], [work, listing], |[job], [work, listing]| {
            numbers::list(job, work, listing)
        })
    },
    check: |job, plan, work| {
        lend([job, plan], [work], |[job, plan], [work]| {
            numbers::check(job, plan, work)
        })
    },
    price: |job, plan, volumes| {
        lend([job, plan, volumes], [], |[job, plan, volumes], []| {
            numbers::price(job, plan, volumes)
        })
    },
    price_by: |job, plan, volumes, prices| {
        let read = [job, plan, volumes, prices];
        lend(read, [], |[job, plan, volumes, prices], []| {
            numbers::price_by(job, plan, volumes, prices)
        })
    },
    rule: |job, work, rule| {
        lend([job], [work, rule], |[job], [work, rule]| {
            numbers::rule(job, work, rule)
        })
    },
    rows: |rows, states, symbols, finals, rule| {
        lend([rows], [rule], |[rows], [rule]| {
            numbers::rows(rows, states, symbols, finals, rule)
        })
    },
    expression: |text, symbols, rule| {
        lend([text], [rule], |[text], [rule]| {
            numbers::expression(text, symbols, rule)
        })
    },
    event: |rule, states, symbols, finals, symbol, record| {
        lend([rule], [record], |[rule], [record]| {
            numbers::event(rule, states, symbols, finals, symbol, record)
        })
    },
    add_edge: |edges, predecessors, starts, nodes, count, from, to| {
        let lists = [edges, predecessors, starts];
        lend([], lists, |[], [edges, predecessors, starts]| {
            numbers::add_edge(edges, predecessors, starts, nodes, count, from, to)
        })
    },
    drop_edge: |edges, predecessors, starts, nodes, count, from, to| {
        let lists = [edges, predecessors, starts];
        lend([], lists, |[], [edges, predecessors, starts]| {
            numbers::drop_edge(edges, predecessors, starts, nodes, count, from, to)
        })
    },
    index_edges: |edges, predecessors, starts, nodes, count| {
        let lists = [predecessors, starts];
        lend([edges], lists, |[edges], [predecessors, starts]| {
            numbers::index_edges(edges, predecessors, starts, nodes, count)
        })
    },
};
