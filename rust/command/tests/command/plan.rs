//! The command `plan`.
use crate::program::{example, file, folder, names, run, PAIR};
use std::fs;
use std::os::unix::fs::{symlink, PermissionsExt};

const COUNTS: &str = "event nodes 3   watched 2   passes 2\n";

#[test]
fn plan_is_a_line_of_digits_with_counts_on_standard_error() {
    let wanted = (0, "011\n".to_string(), COUNTS.to_string());
    assert_eq!(run(&["plan", &example("pair.job")], ""), wanted);
    assert_eq!(run(&["plan", "-"], PAIR), wanted);
    assert_eq!(run(&["plan", "-", "-o", "-"], PAIR), wanted);
    assert_eq!(run(&["plan", "--", &example("pair.job")], ""), wanted);
}

#[test]
fn plan_has_a_digit_for_each_of_512_nodes() {
    let mut job = "J     1     1   512     0\nR     0     0     0\n".to_string();
    for node in 0..512 {
        let kind = u8::from(node != 7);
        job += &format!("P{node:>6}{kind:>6}     0     1     0     0\n");
    }
    let counts = "event nodes 511   watched 0   passes 2\n".to_string();
    assert_eq!(
        run(&["plan", "-"], &job),
        (0, "0".repeat(512) + "\n", counts)
    );
}

#[test]
fn plan_file_is_written_with_nothing_left_beside_it() {
    let folder = folder("plan-file");
    let plan = folder.join("pair.plan").display().to_string();
    for before in [None, Some("an older and longer plan\n")] {
        if let Some(before) = before {
            fs::write(&plan, before).unwrap();
        }
        let done = run(&["plan", "-", "-o", &plan], PAIR);
        assert_eq!(done, (0, String::new(), COUNTS.to_string()));
        assert_eq!(fs::read_to_string(&plan).unwrap(), "011\n");
        assert_eq!(names(&folder), ["pair.plan"]);
    }
}

#[test]
fn plan_file_keeps_its_permissions_and_the_link_to_it() {
    let folder = folder("plan-link");
    let plan = file(&folder, "real.plan", b"");
    fs::set_permissions(&plan, fs::Permissions::from_mode(0o640)).unwrap();
    let link = folder.join("link.plan");
    symlink("real.plan", &link).unwrap();
    let done = run(&["plan", "-", "-o", link.to_str().unwrap()], PAIR);
    assert_eq!(done.0, 0);
    assert!(link.is_symlink());
    assert_eq!(fs::read_to_string(&plan).unwrap(), "011\n");
    let mode = fs::metadata(&plan).unwrap().permissions().mode();
    assert_eq!(mode & 0o777, 0o640);
}

#[test]
fn refused_job_leaves_the_plan_file_as_it_was() {
    let folder = folder("plan-refused");
    let plan = file(&folder, "pair.plan", b"011\n");
    let (status, printed, wrong) = run(&["plan", "-", "-o", &plan], "");
    assert_eq!((status, printed.as_str()), (2, ""));
    assert_eq!(
        wrong,
        "dapohiru: standard input: refused 3: the file ends where a line is due\n  \
         line 1, column 1: found the end of the file\n  \
         expected: a line of the letter J and 4 fields of six columns\n"
    );
    assert_eq!(fs::read_to_string(&plan).unwrap(), "011\n");
    assert_eq!(names(&folder), ["pair.plan"]);
}
