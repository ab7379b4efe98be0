//! The walk that the events of `watch` follow.
use crate::program::{example, file, folder, shell};
use crate::watch::{alarm, events_of, totals, watch, BEGIN, NO_WALK};
use dapohiru_generators::large::{job_of, Order};
use dapohiru_generators::random::Random;
use dapohiru_generators::reentry::Reentry;
use dapohiru_generators::walker::Walker;
use dapohiru_second::job::{members, Job};
use dapohiru_second::walk::{Event, Place, Walks};

#[test]
fn events_that_are_no_walk_are_told_once_and_still_taken() {
    let job = example("pair.job");
    let subject = format!("job {job}, all points watched");
    let no_walk = |line: u64, event: u64, told: &str| {
        format!("dapohiru: standard input: line {line}: event {event} ({told}): {NO_WALK}\n")
    };
    for (events, status, alarms, counted, wrong) in [
        // sealed twice, and then again from the beginning
        (
            "0\n1\n0\n1\n",
            3,
            "",
            [4, 0, 2, 0, 0, 1],
            no_walk(3, 3, "node 0"),
        ),
        // a line that is no event moves nothing
        (
            "0\n\n1\n1\n",
            3,
            "",
            [3, 0, 1, 0, 1, 1],
            "dapohiru: standard input: line 2: `` is neither a node number nor = and a symbol\n"
                .to_string()
                + &no_walk(4, 3, "node 1"),
        ),
        (
            "1\n2\n",
            1,
            &alarm(2, 2, &subject),
            [2, 0, 2, 1, 0, 2],
            no_walk(1, 1, "node 1"),
        ),
        (
            "0\n1\n=1\n2\n",
            3,
            "",
            [4, 0, 2, 0, 0, 0],
            no_walk(3, 3, "symbol 1 of a word"),
        ),
    ] {
        let printed = BEGIN.to_string() + alarms + &totals(counted);
        assert_eq!(watch(&[&job], events), (status, printed, wrong), "{events}");
    }
}

#[test]
fn words_stand_where_the_job_has_them() {
    let after = example("seal-after.job");
    let regroup = example("regroup.job");
    for (job, events, outside) in [
        (&after, "0\n=2\n=2\n", 0),
        (&after, "=2\n", 1),
        (&after, "0\n=1\n=2\n", 2),
        // at the call, again after the inner run, and not between the seal and the end
        (&regroup, "=1\n=1\n2\n3\n=1\n3\n=1\n2\n", 0),
        (&regroup, "2\n=1\n3\n", 2),
        (&regroup, "=0\n", 1),
        (&regroup, "3\n3\n3\n2\n3\n", 0),
        (&regroup, "2\n2\n", 1),
    ] {
        let (_, printed, _) = watch(&[job], events);
        let told = format!("   outside a walk {outside}   ");
        assert!(printed.contains(&told), "{events}: {printed}");
    }
}

#[test]
fn unwatched_points_move_the_walk_too() {
    let plan = file(&folder("walk-unwatched"), "pair.plan", b"011\n");
    let job = example("pair.job");
    let (status, printed, wrong) = watch(&[&job, &plan], "0\n1\n");
    assert_eq!((status, wrong.as_str()), (0, ""));
    assert_eq!(printed, BEGIN.to_string() + &totals([2, 1, 0, 0, 0, 1]));
    let (status, _, wrong) = watch(&[&job, &plan], "1\n");
    assert_eq!(status, 3);
    assert!(wrong.contains("line 1: event 1 (node 1): "), "{wrong}");
}

/// How many of these events come before the first that no walk has there, tried place by place.
fn walked(job: &Job, entries: &[usize], events: &[String]) -> usize {
    let walks = Walks::new(job, None);
    let mut now: Vec<_> = entries.iter().copied().map(Place::Before).collect();
    for (number, event) in events.iter().enumerate() {
        let mut place = 0;
        while place < now.len() {
            for step in walks.moves(now[place]) {
                if step.event.is_none() && !now.contains(&step.to) {
                    now.push(step.to);
                }
            }
            place += 1;
        }
        let reports = |told: Event| match told {
            Event::Point(node, _) => *event == format!("{node}\n"),
            Event::Call(symbol) | Event::After(symbol) => *event == format!("={symbol}\n"),
        };
        let moves = now.iter().flat_map(|&place| walks.moves(place));
        let moves = moves.filter(|step| step.event.is_some_and(reports));
        now = moves.map(|step| step.to).collect();
        if now.is_empty() {
            return number;
        }
    }
    events.len()
}

#[test]
fn first_event_outside_a_walk_is_the_one_that_no_place_reports() {
    let mut random = Random::of_this_run();
    let folder = folder("walk-random");
    let (mut walks_seen, mut others) = (0, 0);
    for _ in 0..120 {
        let job = dapohiru_generators::small::job(&mut random);
        let walks = Walks::new(&job, None);
        let mut walker = Walker::begin(&mut random, &walks);
        let state = walker.start;
        let mut events = events_of(&mut random, &mut walker, 40);
        if !events.is_empty() && random.once_in(2) {
            // an event is left out, doubled or another one
            let place = random.place(events.len());
            match random.below(3) {
                0 => drop(events.remove(place)),
                1 => events.insert(place, events[place].clone()),
                _ => events[place] = format!("={}\n", random.below(job.symbols)),
            }
        }
        let mut entries = job.entries();
        entries.retain(|&entry| members(job.nodes[entry].entry).any(|admits| admits == state));
        let inside = walked(&job, &entries, &events);
        let name = file(&folder, "a.job", &job.file());
        let words = [&name, &format!("--state={state}")[..]];
        let (status, printed, wrong) = watch(&words, &events.concat());
        let outside = format!("   outside a walk {}   ", events.len() - inside);
        assert!(printed.contains(&outside), "{printed}");
        if inside == events.len() {
            walks_seen += 1;
            assert_eq!(wrong, "");
            assert!(status < 2);
        } else {
            others += 1;
            let event = inside + 1;
            let begins = format!("dapohiru: standard input: line {event}: event {event} (");
            assert!(wrong.starts_with(&begins), "{wrong}");
            assert_eq!(wrong.lines().count(), 1);
            assert!(matches!(status, 1 | 3));
        }
    }
    println!("{walks_seen} walks, {others} others");
    assert!(walks_seen > 0 && others > 0);
}

#[test]
fn walk_through_512_nodes_is_followed() {
    let mut random = Random::of_this_run();
    let folder = folder("walk-large");
    for reentry in [Reentry::Never, Reentry::Always] {
        let job = job_of(&mut random, Order::Flow, 512, reentry);
        let walks = Walks::new(&job, None);
        let mut walker = Walker::begin(&mut random, &walks);
        let state = format!("--state={}", walker.start);
        let events = events_of(&mut random, &mut walker, 20_000);
        let name = file(&folder, "a.job", &job.file());
        let given = file(&folder, "events", events.concat().as_bytes());
        let script = "\"$1\" watch \"$2\" \"$3\" < \"$4\"";
        let (status, printed, wrong) = shell(script, &[&name, &state, &given]);
        assert!(status < 2 && wrong.is_empty(), "{wrong}");
        assert!(printed.contains(&format!("\nevents {}   ", events.len())));
        assert!(printed.contains("   outside a walk 0   "));
        println!("{} events", events.len());
    }
}
