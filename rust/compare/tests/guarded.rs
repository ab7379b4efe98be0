//! Guarded buffers do what they are for: a byte read or written beside one is fatal, by hand and by the
//! library, and so is a byte written to one that is lent to be read. Each test runs itself again as a child that must die.
use dapohiru_compare::guarded::{lend, Flush, Number, ReadRoom, Room};
use dapohiru_generators::expressions::SEALED;
use dapohiru_generators::rows::of_rule;
use dapohiru_generators::samples::pair;
use dapohiru_generators::{prices, volumes};
use dapohiru_second::arrivals::Lists;
use dapohiru_second::rows::text;
use std::env;
use std::hint::black_box;
use std::os::unix::process::ExitStatusExt;
use std::panic::catch_unwind;
use std::process::{Command, Stdio};
use std::slice;

/// What the child is to do; only children have it.
const TASK: &str = "DAPOHIRU_GUARDED_TASK";
const SIGSEGV: i32 = 11;

/// Runs a test of this file again with a task; gives the signal that ended it, or nothing where it
/// came to its end.
fn ended_by(test: &str, task: &str) -> Option<i32> {
    let program = env::current_exe().expect("the test has a program");
    let child = Command::new(program)
        .args([test, "--exact", "--test-threads=1"])
        .env(TASK, task)
        .stdout(Stdio::null())
        .stderr(Stdio::null())
        .status()
        .expect("the program runs");
    assert!(child.signal().is_some() || child.success(), "{task}");
    child.signal()
}

/// Reads or writes the byte at this distance from a buffer's first.
fn touch(first: *const u8, distance: isize, write: bool) {
    let byte = first.cast_mut().wrapping_offset(distance);
    // SAFETY: of a byte beside the buffer, none: the process is to die here.
    unsafe {
        match write {
            true => byte.write_volatile(7),
            false => drop(black_box(byte.read_volatile())),
        }
    }
}

#[test]
fn byte_touched_beside_a_guarded_buffer_is_fatal_and_inside_is_not() {
    const LENS: [usize; 7] = [1, 15, 256, 4_096, 49_914, 65_536, 65_537];
    let tasks = LENS.iter().flat_map(|len| {
        [
            "inside",
            "past its end",
            "before its start",
            "far past",
            "far before",
        ]
        .into_iter()
        .flat_map(move |at| ["read", "write"].map(|how| format!("{len} {how} {at}")))
    });
    if let Ok(task) = env::var(TASK) {
        let (len, at) = task.split_once(' ').expect("a length");
        let (how, at) = at.split_once(' ').expect("read or write");
        let len: usize = len.parse().expect("a length");
        let (flush, distance) = match at {
            "past its end" => (Flush::End, len as isize),
            "before its start" => (Flush::Start, -1),
            "far past" => (Flush::End, len as isize + 999_999),
            "far before" => (Flush::Start, -1_000_000),
            _ => (Flush::End, 0),
        };
        let mut room = Room::new(len);
        return touch(
            room.buffer(len, flush).as_mut_ptr(),
            distance,
            how == "write",
        );
    }
    for task in tasks {
        let signal = ended_by(
            "byte_touched_beside_a_guarded_buffer_is_fatal_and_inside_is_not",
            &task,
        );
        let wanted = (!task.ends_with("inside")).then_some(SIGSEGV);
        assert_eq!(signal, wanted, "{task}");
    }
}

/// A buffer of which the last numbers, or the first, are not there.
fn longer_than_it_is<N: Number>(
    room: &mut Room,
    len: usize,
    missing: usize,
    flush: Flush,
) -> &mut [N] {
    let there = room.buffer::<N>(len - missing, flush);
    let first = match flush {
        Flush::End => there.as_mut_ptr(),
        Flush::Start => there.as_mut_ptr().wrapping_sub(missing),
    };
    // SAFETY: where a number is missing, none: the process is to die when the library touches it.
    unsafe { slice::from_raw_parts_mut(first, len) }
}

/// The calls on edges, each on lists of its own, by the names of these.
const ON_EDGES: [[&str; 3]; 3] = [
    ["added_edges", "added_predecessors", "added_starts"],
    ["dropped_edges", "dropped_predecessors", "dropped_starts"],
    ["indexed_edges", "indexed_predecessors", "indexed_starts"],
];

/// Makes the calls on edges, on lists that are lent by their names and numbers.
fn call_on_edges<'a>(mut lent: impl FnMut(&str, &[u16]) -> &'a mut [u16]) {
    for (call, names) in ON_EDGES.into_iter().enumerate() {
        let mut lists = Lists::of(3, &[(0, 1), (1, 1), (2, 1)]);
        if call == 0 {
            lists.edges.extend([0, 0]);
            lists.predecessors.push(0);
        }
        let mut numbers = lists.all().into_iter();
        let [edges, predecessors, starts] =
            names.map(|of| lent(of, numbers.next().expect("a list for each")));
        black_box(match call {
            0 => dapohiru::numbers::add_edge(edges, predecessors, starts, 3, 3, 0, 0),
            1 => dapohiru::numbers::drop_edge(edges, predecessors, starts, 3, 3, 0, 1),
            _ => dapohiru::numbers::index_edges(edges, predecessors, starts, 3, 3),
        });
    }
}

/// Makes all calls, with the named buffer shorter than it is said to be.
fn call_with_short(name: &str, flush: Flush) {
    let (file, thousands, house) = (pair().file(), volumes::file(&[1_000; 3]), prices::house());
    let (given, of_pair) = of_rule(&pair());
    let of_pair = text(&of_pair);
    let mut rooms: Vec<_> = (0..16).map(|_| Room::new(1 << 17)).collect();
    let mut rooms = rooms.iter_mut();
    let mut lent = |of: &str, len: usize, missing: usize| {
        let missing = if of == name { missing } else { 0 };
        longer_than_it_is(rooms.next().expect("a room for each"), len, missing, flush)
    };
    // a plan or listing buffer is touched where something is written: at its first bytes
    let (in_plan, in_listing) = match flush {
        Flush::End => (512 - 2, 32_768 - (3 * 38 + 19)),
        Flush::Start => (1, 1),
    };
    let job = lent("job", file.len(), 1);
    let work = lent("work", 65_536, 1);
    let plan = lent("plan", 512, in_plan);
    let listing = lent("listing", 32_768, in_listing);
    let checked = lent("checked", 3, 1);
    let priced = lent("priced", 3, 1);
    let volumes = lent("volumes", thousands.len(), 1);
    let prices = lent("prices", house.len(), 1);
    let taken = lent("taken", 256, 1);
    let rows = lent("rows", of_pair.len(), 1);
    let made = lent("made", 256, 1);
    let expression = lent("expression", SEALED.len(), 1);
    let expressed = lent("expressed", 256, 1);
    let rule = lent("rule", 256, 1);
    let record = lent("record", 16, 1);
    for (of, lent, bytes) in [
        ("job", &mut *job, file),
        ("volumes", volumes, thousands),
        ("prices", prices, house),
        ("rows", rows, of_pair),
        ("expression", expression, SEALED.to_vec()),
    ] {
        let there = match flush {
            _ if of != name => 0..bytes.len(),
            Flush::End => 0..bytes.len() - 1,
            Flush::Start => 1..bytes.len(),
        };
        lent[there.clone()].copy_from_slice(&bytes[there]);
    }
    let numbers = [
        dapohiru::numbers::plan(job, work, plan),
        dapohiru::numbers::list(job, work, listing),
        dapohiru::numbers::check(job, checked, work),
        dapohiru::numbers::price(job, priced, volumes),
        dapohiru::numbers::price_by(job, priced, volumes, prices),
        dapohiru::numbers::rule(job, work, taken),
        dapohiru::numbers::rows(rows, given.states, given.symbols, given.finals, made),
        dapohiru::numbers::expression(expression, 3, expressed),
        dapohiru::numbers::event(rule, 16, 16, 0, 15, record),
    ];
    black_box(numbers);
    let mut rooms: Vec<_> = (0..9).map(|_| Room::new(1)).collect();
    let mut rooms = rooms.iter_mut();
    call_on_edges(|of, numbers| {
        let (len, missing) = (numbers.len(), usize::from(of == name));
        let room = rooms.next().expect("a room for each");
        let lent = longer_than_it_is(room, len, missing, flush);
        let there = match flush {
            Flush::End => 0..len - missing,
            Flush::Start => missing..len,
        };
        lent[there.clone()].copy_from_slice(&numbers[there]);
        lent
    });
}

#[test]
fn library_that_is_told_a_longer_buffer_dies_where_its_bytes_end() {
    const NAMES: [&str; 16] = [
        "nothing",
        "job",
        "work",
        "plan",
        "listing",
        "checked",
        "priced",
        "volumes",
        "prices",
        "taken",
        "rows",
        "made",
        "expression",
        "expressed",
        "rule",
        "record",
    ];
    if let Ok(task) = env::var(TASK) {
        let (name, flush) = task.split_once(' ').expect("a name and a place");
        let flush = match flush {
            "End" => Flush::End,
            _ => Flush::Start,
        };
        return call_with_short(name, flush);
    }
    for name in NAMES.into_iter().chain(ON_EDGES.concat()) {
        for flush in Flush::BOTH {
            let task = format!("{name} {flush:?}");
            let signal = ended_by(
                "library_that_is_told_a_longer_buffer_dies_where_its_bytes_end",
                &task,
            );
            let wanted = (name != "nothing").then_some(SIGSEGV);
            assert_eq!(signal, wanted, "{task}");
        }
    }
}

#[test]
fn call_that_touches_a_byte_beside_any_buffer_lent_to_it_dies() {
    let lens = [300, 3, 16, 65_536];
    if let Ok(task) = env::var(TASK) {
        let (place, side) = task.split_once(' ').expect("a buffer and a side");
        let place: usize = place.parse().expect("a buffer");
        let [one, other, mut third, mut fourth] = lens.map(|len| vec![1; len]);
        return lend(
            [&one, &other],
            [&mut third, &mut fourth],
            |[one, other], [third, fourth]| {
                let first = [
                    one.as_ptr(),
                    other.as_ptr(),
                    third.as_ptr(),
                    fourth.as_ptr(),
                ][place];
                match side {
                    "past" => touch(first, lens[place] as isize, false),
                    "before" => touch(first, -1, false),
                    _ => touch(first, 0, false),
                }
            },
        );
    }
    for place in 0..lens.len() {
        for (side, wanted) in [
            ("past", Some(SIGSEGV)),
            ("before", Some(SIGSEGV)),
            ("in", None),
        ] {
            let task = format!("{place} {side}");
            let signal = ended_by(
                "call_that_touches_a_byte_beside_any_buffer_lent_to_it_dies",
                &task,
            );
            assert_eq!(signal, wanted, "{task}");
        }
    }
}

#[test]
fn call_that_writes_to_a_buffer_that_is_lent_to_be_read_dies() {
    let lens = [300, 65_537, 16, 65_536];
    if let Ok(task) = env::var(TASK) {
        let (place, at) = task.split_once(' ').expect("a buffer and a byte");
        let place: usize = place.parse().expect("a buffer");
        let at = match at {
            "first" => 0,
            _ => lens[place] - 1,
        };
        let [one, other, mut third, mut fourth] = lens.map(|len| vec![7; len]);
        return lend(
            [&one, &other],
            [&mut third, &mut fourth],
            |[one, other], [third, fourth]| {
                let buffers: [&[u8]; 4] = [one, other, third, fourth];
                // the byte that is there, so that none differs afterwards
                touch(buffers[place].as_ptr(), at as isize, true);
            },
        );
    }
    for place in 0..lens.len() {
        for at in ["first", "last"] {
            let task = format!("{place} {at}");
            let signal = ended_by(
                "call_that_writes_to_a_buffer_that_is_lent_to_be_read_dies",
                &task,
            );
            assert_eq!(signal, (place < 2).then_some(SIGSEGV), "{task}");
        }
    }
}

#[test]
fn buffer_that_was_lent_to_be_read_is_lent_to_be_written_next() {
    // after a call that came to its end, and after one that did not
    let calls: [fn(&[u8]) -> usize; 2] = [<[u8]>::len, |_| panic!("no end")];
    for call in calls {
        let _ = catch_unwind(|| lend([&[4; 3]], [], |[read], []| call(read)));
        let mut buffer = [1_u8, 2, 3];
        lend([], [&mut buffer], |[], [written]| written[2] = 9);
        assert_eq!(buffer, [1, 2, 9]);
        assert_eq!(lend([&[5_u16; 3]], [], |[read], []| read[0]), 5);
    }
}

/// A buffer that is lent to be written to, and may only be read.
fn read_alone<'a, N: Number>(room: &mut ReadRoom, numbers: &[N]) -> &'a mut [N] {
    let first = room.holding(numbers, Flush::End).as_ptr().cast_mut();
    // SAFETY: none: the process is to die when the library writes to it.
    unsafe { slice::from_raw_parts_mut(first, numbers.len()) }
}

#[test]
fn library_dies_where_a_buffer_that_it_writes_to_may_only_be_read() {
    const NAMES: [&str; 8] = [
        "nothing",
        "work",
        "plan",
        "listing",
        "taken",
        "made",
        "expressed",
        "record",
    ];
    if let Ok(name) = env::var(TASK) {
        let file = pair().file();
        let (given, of_pair) = of_rule(&pair());
        let mut rooms: Vec<_> = (0..16).map(|_| Room::new(1 << 17)).collect();
        let mut only_read = ReadRoom::new(1 << 17);
        let mut rooms = rooms.iter_mut();
        let mut lent = |of: &str, len: usize| {
            let room = rooms.next().expect("a room for each");
            match of == name {
                true => read_alone(&mut only_read, &vec![0; len]),
                false => room.buffer(len, Flush::End),
            }
        };
        let work = lent("work", 65_536);
        let plan = lent("plan", 512);
        let listing = lent("listing", 32_768);
        let taken = lent("taken", 256);
        let made = lent("made", 256);
        let expressed = lent("expressed", 256);
        let record = lent("record", 16);
        black_box([
            dapohiru::numbers::plan(&file, work, plan),
            dapohiru::numbers::list(&file, work, listing),
            dapohiru::numbers::rule(&file, work, taken),
            dapohiru::numbers::rows(
                &text(&of_pair),
                given.states,
                given.symbols,
                given.finals,
                made,
            ),
            dapohiru::numbers::expression(SEALED, 3, expressed),
            dapohiru::numbers::event(&[0; 256], 16, 16, 1, 15, record),
        ]);
        let mut only_read = ReadRoom::new(1 << 17);
        call_on_edges(|of, numbers| {
            let lent = rooms.next().expect("a room for each");
            let lent = lent.buffer(numbers.len(), Flush::End);
            lent.copy_from_slice(numbers);
            match of == name {
                true => read_alone(&mut only_read, numbers),
                false => lent,
            }
        });
        return;
    }
    let on_edges = ON_EDGES.concat().into_iter();
    let on_edges = on_edges.filter(|&name| name != "indexed_edges");
    for name in NAMES.into_iter().chain(on_edges) {
        let signal = ended_by(
            "library_dies_where_a_buffer_that_it_writes_to_may_only_be_read",
            name,
        );
        assert_eq!(signal, (name != "nothing").then_some(SIGSEGV), "{name}");
    }
}

#[test]
fn call_that_answers_or_leaves_by_the_place_of_a_buffer_is_told() {
    let by_place = |buffer: &[u8]| buffer.as_ptr().addr().is_multiple_of(4_096);
    let answers = || lend([&[1; 3]], [], |[buffer], []| by_place(buffer));
    assert!(catch_unwind(answers).is_err());
    let leaves = || {
        lend([], [&mut [1; 3]], |[], [buffer]| {
            buffer[0] = u8::from(by_place(buffer));
        })
    };
    assert!(catch_unwind(leaves).is_err());
    let good = || {
        let mut buffer = [1, 2, 3];
        let sum = lend([&[4; 3]], [&mut buffer], |[read], [written]| {
            written[2] = read[0];
            read.iter().sum::<u8>()
        });
        (sum, buffer)
    };
    assert_eq!(good(), (12, [1, 2, 4]));
}
