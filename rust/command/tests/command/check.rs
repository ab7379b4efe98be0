//! The command `check`.
use crate::program::{example, file, folder, pair_with, run, PAIR, WINDOWS};
use dapohiru_generators::random::Random;
use dapohiru_generators::zeros::filled;
use dapohiru_second::search::difference;
use dapohiru_second::walk::Walks;

#[test]
fn faithful_ends_with_status_0_and_different_with_1() {
    let job = example("pair.job");
    for (plan, status, printed) in [
        ("011\n", 0, "faithful\n"),
        ("101\n", 0, "faithful\n"),
        ("111", 0, "faithful\n"),
        ("001\n", 1, "different\n"),
        ("110\n", 1, "different\n"),
    ] {
        let done = run(&["check", &job, "-"], plan);
        assert_eq!(done, (status, printed.to_string(), String::new()), "{plan}");
    }
}

#[test]
fn verdicts_are_those_of_the_walks() {
    let mut random = Random::of_this_run();
    let folder = folder("check-walks");
    let mut seen = [0, 0];
    for _ in 0..20 {
        let job = dapohiru_generators::small::job(&mut random);
        let walks = Walks::new(&job, None);
        let name = file(&folder, "job", &filled(&mut random, job.file()));
        for plan in dapohiru_generators::small::plans(&mut random, &job)
            .into_iter()
            .take(3)
        {
            let line: String = plan.iter().map(|byte| byte.to_string()).collect();
            let differs = difference(&walks, &plan).is_some();
            let (status, printed, wrong) = run(&["check", &name, "-"], &(line + "\n"));
            let verdict = ["faithful\n", "different\n"][usize::from(differs)];
            assert_eq!((status, printed.as_str()), (i32::from(differs), verdict));
            assert_eq!(wrong, "");
            seen[usize::from(differs)] += 1;
        }
    }
    println!("{} faithful, {} different", seen[0], seen[1]);
}

#[test]
fn refused_plan_is_told_with_its_column() {
    let folder = folder("check-plans");
    let job = pair_with(&[
        ("P     1     1     0", "P     1     0     0"),
        ("P     0     1     0     1", "P     0     2     5     1"),
    ]);
    let job = file(&folder, "other.job", job.as_bytes());
    let length = "refused 11: the plan has not one digit for each node";
    let digit = "refused 12: the plan has a digit above 1, or a 1 at a node that is no event node";
    let each = "a digit for each of the 3 nodes and no more";
    for (plan, refused, place, expected) in [
        ("", length, "column 1: found the end of the plan", each),
        ("\n", length, "column 1: found the end of the plan", each),
        ("00\n", length, "column 3: found the end of the plan", each),
        ("0000\n", length, "column 4: found `0`", each),
        ("9999\n", length, "column 4: found `9`", each),
        (
            "002\n",
            digit,
            "column 3: found `2`",
            "0 or 1 at node 2, an event node",
        ),
        (
            "011\n",
            digit,
            "column 2: found `1`",
            "0 at node 1, which is no event node",
        ),
        (
            "101\n",
            digit,
            "column 1: found `1`",
            "0 at node 0, which is no event node",
        ),
    ] {
        let plan = file(&folder, "a.plan", plan.as_bytes());
        let wrong =
            format!("dapohiru: {plan}: {refused}\n  line 1, {place}\n  expected: {expected}\n");
        assert_eq!(run(&["check", &job, &plan], ""), (2, String::new(), wrong));
    }
}

#[test]
fn digit_1_at_a_call_that_may_come_back_in_is_told_with_its_column() {
    let job = example("regroup.job");
    assert_eq!(run(&["check", &job, "-"], "0011\n").0, 0);
    let (status, printed, wrong) = run(&["check", &job, "-"], "0111\n");
    assert_eq!((status, printed.as_str()), (2, ""));
    assert_eq!(
        wrong,
        "dapohiru: standard input: refused 12: the plan has a digit above 1, or a 1 at a node that is no event node\n  \
         line 1, column 2: found `1`\n  \
         expected: 0 at node 1, a call that may come back in and no event node\n"
    );
}

#[test]
fn plan_file_that_is_no_line_of_digits_is_told_with_its_column() {
    let job = example("pair.job");
    for (plan, place) in [
        ("01x\n", "column 3: found `x`\n  expected: one line of 0 and 1, a digit for each node"),
        ("011\r\n", &format!("column 4: found `\\r`\n  expected: one line of 0 and 1, a digit for each node{WINDOWS}")),
        ("0 1 1\n", "column 2: found ` `\n  expected: one line of 0 and 1, a digit for each node"),
        ("011\n\n", "column 4: found the end of the line\n  expected: one line of 0 and 1, a digit for each node and nothing after it"),
    ] {
        let wrong = format!("dapohiru: standard input: line 1, {place}\n");
        assert_eq!(run(&["check", &job, "-"], plan), (2, String::new(), wrong));
    }
}

#[test]
fn refused_job_comes_before_the_plan() {
    let folder = folder("check-jobs");
    let job = file(&folder, "cut.job", &PAIR.as_bytes()[..PAIR.len() - 1]);
    let (status, printed, wrong) = run(&["check", &job, "-"], "01\n");
    assert_eq!((status, printed.as_str()), (2, ""));
    assert_eq!(
        wrong,
        format!(
            "dapohiru: {job}: refused 4: the line due has not its letter, its fields or its end byte\n  \
             line 9, column 14: found the end of the file\n  expected: the end of the line (byte 10) \
             after F and 2 fields of six columns, 13 columns in all\n"
        )
    );
}
