//! Signals that end `watch`.
use crate::program::{example, folder, shell};
use crate::running::Running;
use crate::watch::{alarm, totals, BEGIN};
use std::fs;
use std::io::Write;
use std::thread::sleep;
use std::time::Duration;

#[test]
fn signal_ends_a_wait_for_events_with_the_totals() {
    let job = example("pair.job");
    for signal in ["INT", "TERM", "HUP"] {
        let running = Running::watch(&[&job]);
        assert_eq!(running.next().as_deref(), Ok(BEGIN));
        running.signal(signal);
        assert_eq!(running.next(), Ok(totals([0; 6])), "{signal}");
        assert_eq!(running.end(), (0, String::new(), String::new()), "{signal}");
    }
}

#[test]
fn status_after_a_signal_is_that_of_the_events_so_far() {
    let job = example("pair.job");
    let mut running = Running::watch(&[&job]);
    running.input.write_all(b"0\n1\n2\n").unwrap();
    assert_eq!(running.next().as_deref(), Ok(BEGIN));
    let alarm = alarm(3, 3, &format!("job {job}, all points watched"));
    assert_eq!(running.next(), Ok(alarm));
    running.signal("TERM");
    assert_eq!(running.next(), Ok(totals([3, 0, 0, 1, 0, 2])));
    assert_eq!(running.end().0, 1);
}

#[test]
fn line_that_a_signal_cuts_is_neither_taken_nor_counted() {
    let folder = folder("signal-cut");
    let job = example("pair.job");
    let record = folder.join("pair.record").display().to_string();
    let mut running = Running::watch(&[&job, "--record", &record]);
    assert_eq!(running.next().as_deref(), Ok(BEGIN));
    running.input.write_all(b"0\n1").unwrap();
    while !fs::read_to_string(&record).is_ok_and(|text| text.contains("\nline 1\n")) {
        sleep(Duration::from_millis(1));
    }
    running.signal("INT");
    assert_eq!(running.next(), Ok(totals([1, 0, 0, 0, 0, 1])));
    assert_eq!(running.end(), (0, String::new(), String::new()));
}

#[test]
fn signal_in_a_flood_of_events_ends_with_the_totals() {
    let job = example("again-edge.job");
    // timeout sends the signal twice
    let script = "while echo 0 && echo 1; do :; done 2>/dev/null | (timeout --signal=TERM 1 \"$1\" watch --no-time \"$2\"; echo \"status $?\") | tail -2";
    let (_, printed, _) = shell(script, &[&job]);
    let mut lines = printed.lines();
    let totals = lines.next().unwrap();
    assert!(totals.starts_with("events ") && totals.contains("   outside a walk 0   "));
    // timeout's own status
    assert_eq!(lines.next(), Some("status 124"));
}

#[test]
fn signal_that_the_caller_ignores_does_not_end_it() {
    let folder = folder("signal-ignored");
    let pid = folder.join("pid").display().to_string();
    let script = "trap '' HUP; (sleep 0.3; kill -HUP $(cat \"$3\"); echo 0; echo 1) | (echo $BASHPID > \"$3\"; exec \"$1\" watch --no-time \"$2\")";
    let done = shell(script, &[&example("pair.job"), &pid]);
    let printed = BEGIN.to_string() + &totals([2, 0, 0, 0, 0, 1]);
    assert_eq!(done, (0, printed, String::new()));
}

#[test]
fn signal_twice_is_one_and_another_one_later_ends_the_program_at_once() {
    let job = example("pair.job");
    // nobody reads what it prints, so that it hangs in writing
    let script = "mkfifo \"$3\"; exec 4<>\"$3\"; (echo 0; yes 2) | \"$1\" watch --no-time \"$2\" >&4 2>/dev/null & sleep 0.5; pid=$!; kill -TERM $pid; kill -TERM $pid; sleep 0.3; kill -0 $pid && echo under way; sleep 1; kill -TERM $pid; wait $pid; echo \"status $?\"";
    let pipe = folder("signal-twice").join("pipe").display().to_string();
    let (_, printed, wrong) = shell(script, &[&job, &pipe]);
    assert_eq!(
        (printed.as_str(), wrong.as_str()),
        ("under way\nstatus 143\n", "")
    );
}
