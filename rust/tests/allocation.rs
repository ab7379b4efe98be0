//! Which functions of the wrapper allocate, and that no other does: every allocation of a thread is counted.
use dapohiru::{
    numbers, planfile, Arrivals, Job, Record, LISTING_LEN, PLAN_LEN, RECORD_LEN, RULE_LEN, WORK_LEN,
};
use dapohiru_generators::arrivals;
use dapohiru_generators::expressions::SEALED;
use dapohiru_generators::random::Random;
use dapohiru_generators::rows::of_rule;
use dapohiru_generators::samples::{pair, points, sixteen, turn};
use dapohiru_generators::{prices, volumes};
use dapohiru_second::arrivals::Lists;
use dapohiru_second::rows::{text, Given};
use std::alloc::{GlobalAlloc, Layout, System};
use std::cell::Cell;
use std::hint::black_box;
use std::io::Write;

/// The system's allocator, with a count.
struct Counting;

thread_local! {
    /// How often this thread has asked for memory.
    static ASKED: Cell<u64> = const { Cell::new(0) };
}

/// Counts one allocation.
fn count() {
    ASKED.set(ASKED.get() + 1);
}

// SAFETY: every call is handed on to the system's allocator as it is.
unsafe impl GlobalAlloc for Counting {
    unsafe fn alloc(&self, layout: Layout) -> *mut u8 {
        count();
        System.alloc(layout)
    }

    unsafe fn alloc_zeroed(&self, layout: Layout) -> *mut u8 {
        count();
        System.alloc_zeroed(layout)
    }

    unsafe fn realloc(&self, at: *mut u8, layout: Layout, len: usize) -> *mut u8 {
        count();
        System.realloc(at, layout, len)
    }

    unsafe fn dealloc(&self, at: *mut u8, layout: Layout) {
        System.dealloc(at, layout);
    }
}

#[global_allocator]
static COUNTING: Counting = Counting;

/// How often something asks for memory.
fn asked<T>(run: impl FnOnce() -> T) -> u64 {
    let before = ASKED.get();
    let result = black_box(run());
    let asked = ASKED.get() - before;
    drop(result);
    asked
}

/// Asks that something asks for no memory.
#[track_caller]
fn none<T>(what: &str, run: impl FnOnce() -> T) {
    assert_eq!(asked(run), 0, "{what} allocates");
}

#[test]
fn calls_allocate_nothing_accepted_or_refused() {
    let (mut work, mut listing) = (vec![7; WORK_LEN], vec![7; LISTING_LEN]);
    let (mut plan, mut table, mut record) = ([7; PLAN_LEN], [0; RULE_LEN], [0; RECORD_LEN]);
    let house = prices::house();
    for job in [pair(), turn(), sixteen(), points(3, 512)] {
        let file = job.file();
        let all = job.all_watched();
        let (given, rows) = of_rule(&job);
        let rows = text(&rows);
        let Given {
            states,
            symbols,
            finals,
        } = given;
        for rows in [&rows[..], &rows[32..], &rows[1..], b""] {
            none("rows", || dapohiru::rows(rows, states, symbols, finals));
            none("numbers::rows", || {
                numbers::rows(rows, states, symbols, finals, &mut table)
            });
        }
        for text in [SEALED, b"a", b"(", b"", &[b'a'; 64]] {
            none("expression", || dapohiru::expression(text, symbols));
            none("numbers::expression", || {
                numbers::expression(text, symbols, &mut table)
            });
        }
        let day = volumes::file(&vec![1_000; job.nodes.len()]);
        for file in [&file[..], &file[..file.len() - 1], b""] {
            none("plan", || dapohiru::plan(file, &mut work, &mut plan));
            none("list", || dapohiru::list(file, &mut work, &mut listing));
            none("check", || dapohiru::check(file, &all, &mut work));
            none("check", || dapohiru::check(file, &all[1..], &mut work));
            none("price", || dapohiru::price(file, &all, &day));
            none("price_by", || dapohiru::price_by(file, &all, &day, &house));
            none("rule", || dapohiru::rule(file, &mut work));
            none("numbers::rule", || {
                numbers::rule(file, &mut work, &mut table)
            });
        }
        for symbol in 0..17 {
            none("event", || {
                dapohiru::event(&table, 16, 16, 0, symbol, &mut record)
            });
        }
    }
}

#[test]
fn job_allocates_where_it_is_made_and_nowhere_else() {
    for read in [pair(), turn(), sixteen(), points(3, 512)] {
        let file = read.file();
        assert!(asked(|| Job::new(&file)) > 0);
        assert!(asked(|| Job::with_plan(&file, &read.all_watched())) > 0);
        let job = Job::new(&file).expect("the file is a job");
        assert!(asked(|| job.clone()) > 0);
        none("what a job holds", || {
            (
                job.rule().states,
                job.plan().len(),
                job.counts(),
                job.nodes(),
            )
        });
        none("entries", || {
            let states = |entry: &dapohiru::Entry| entry.states().sum::<u64>();
            job.entries().iter().map(states).sum::<u64>()
        });
        none("points", || {
            job.points().map(|point| point.symbol).sum::<u64>()
        });
        for node in (0..job.nodes() + 2).chain([usize::MAX]) {
            let mut record = Record::default();
            none("point", || job.point(node));
            none("start", || job.start(node, 0));
            none("report", || job.report(node, &mut record));
            let mut lost = Record {
                state: 99,
                alarms: 0,
            };
            none("report", || job.report(node, &mut lost));
        }
        for symbol in 0..17 {
            let mut record = Record::default();
            none("other", || job.other(symbol, &mut record));
            none("Rule::event", || job.rule().event(symbol, &mut record));
            none("a record's bytes", || Record::from_bytes(record.to_bytes()));
        }
    }
}

#[test]
fn arrivals_allocate_where_they_are_made_and_nowhere_else() {
    let random = &mut Random(1);
    for (nodes, count) in [(1, 0), (3, 9), (512, 2_047), (512, 2_048)] {
        let edges = arrivals::edges(random, nodes, count);
        assert!(asked(|| Arrivals::new(nodes, &edges)) > 0);
        let mut graph = Arrivals::new(nodes, &edges).expect("the edges are sound");
        assert!(asked(|| graph.clone()) > 0);
        // each is refused at first or then, and made once
        for (from, to) in [(0, 0), (0, 0), (nodes - 1, 0), (nodes, 0), (0, usize::MAX)] {
            none("add", || graph.add(from, to));
            none("remove", || graph.remove(from, to));
            none("remove", || graph.remove(from, to));
            none("predecessors", || graph.predecessors(to).len());
        }
        none("edges", || {
            graph.edges().map(|(from, _)| u64::from(from)).sum::<u64>()
        });
        none("what arrivals hold", || (graph.nodes(), graph.count()));
        let Lists {
            mut edges,
            mut predecessors,
            mut starts,
        } = Lists::of(nodes, &edges);
        let (nodes, count) = (nodes as u64, count as u64);
        for (from, to) in [(0, 0), (nodes, 0)] {
            none("numbers::add_edge", || {
                numbers::add_edge(
                    &mut edges,
                    &mut predecessors,
                    &mut starts,
                    nodes,
                    count,
                    from,
                    to,
                )
            });
            none("numbers::drop_edge", || {
                numbers::drop_edge(
                    &mut edges,
                    &mut predecessors,
                    &mut starts,
                    nodes,
                    count,
                    from,
                    to,
                )
            });
            none("numbers::index_edges", || {
                numbers::index_edges(&edges, &mut predecessors, &mut starts, nodes + from, count)
            });
        }
    }
}

#[test]
fn errors_are_told_without_an_allocation() {
    let job = Job::new(&turn().file()).expect("the file is a job");
    let mut lost = Record {
        state: 99,
        alarms: 0,
    };
    let errors: [&dyn std::error::Error; 6] = [
        &Job::new(b"").unwrap_err(),
        &Job::with_plan(&turn().file(), &[0, 1, 1]).unwrap_err(),
        &job.point(3).unwrap_err(),
        &job.start(0, 2).unwrap_err(),
        &job.report(0, &mut lost).unwrap_err(),
        &planfile::read(b"01x").unwrap_err(),
    ];
    let mut room = [0; 200];
    for error in errors {
        none("an error", || write!(&mut room[..], "{error}"));
    }
}

#[test]
fn plan_files_allocate_what_they_give() {
    assert!(asked(|| planfile::read(b"011\n")) > 0);
    assert!(asked(|| planfile::write(&[0, 1, 1])) > 0);
}
