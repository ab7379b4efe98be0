//! The command `prices`, and `price` with the prices of a file.
use crate::price::{spelled, OWN};
use crate::program::{example, file, folder, run, shell};
use dapohiru_generators::prices;

#[test]
fn own_prices_take_the_place_of_those_of_the_house() {
    let folder = folder("price-own");
    let job = example("pair.job");
    // of seal, reopen and write; every other symbol costs the most
    for (own, plan, events, printed) in [
        ([0, 0, 0], "111\n", [999_999; 3], "0 cents a day, 0.00\n"),
        (
            [0, 9_999, 0],
            "111\n",
            [999_999; 3],
            "0 cents a day, 0.00\n",
        ),
        (
            [0, 0, 1],
            "111\n",
            [999_999, 999_999, 1],
            "1 cent a day, 0.01\n",
        ),
        ([0, 0, 1], "111\n", [0, 0, 1_001], "2 cents a day, 0.02\n"),
        (
            [1, 0, 1],
            "101\n",
            [500, 999_999, 500],
            "1 cent a day, 0.01\n",
        ),
        (
            [20, 25, 30],
            "011\n",
            [1_205, 1_205, 1_180],
            "60 cents a day, 0.60\n",
        ),
        (
            [20, 25, 12],
            "011\n",
            [1_205, 1_205, 1_180],
            "39 cents a day, 0.39\n",
        ),
        ([9_999; 3], "011\n", [0, 0, 1], "10 cents a day, 0.10\n"),
        (
            [9_999; 3],
            "111\n",
            [1_000; 3],
            "29997 cents a day, 299.97\n",
        ),
        (
            [9_999; 3],
            "111\n",
            [999_999; 3],
            "29996971 cents a day, 299969.71\n",
        ),
    ] {
        let mut cents = [9_999; 16];
        cents[..3].copy_from_slice(&own);
        let prices = file(&folder, "a.prices", &prices::file(&cents));
        let volumes = file(&folder, "a.volumes", spelled(&events).as_bytes());
        let words = ["price", &job, "-", &volumes, "--prices", &prices];
        let done = run(&words, plan);
        assert_eq!(done, (0, printed.to_string(), String::new()), "{own:?}");
    }
}

#[test]
fn house_prices_from_a_file_give_what_no_file_gives() {
    let folder = folder("price-house");
    let prices = example("house.prices");
    for name in ["pair", "regroup", "seal", "once", "again-edge"] {
        let job = example(&format!("{name}.job"));
        let (_, plan, _) = run(&["plan", &job], "");
        let nodes = 1..plan.len() as u64;
        let events: Vec<_> = nodes.map(|node| 1_001 * node).collect();
        let volumes = file(&folder, "a.volumes", spelled(&events).as_bytes());
        let house = ["price", &job, "-", &volumes];
        let own = [&house[..], &["--prices", &prices]].concat();
        assert_eq!(run(&own, &plan), run(&house, &plan), "{name}");
        // explained, a line more says whose prices they are
        let explained = |words: &[&str]| run(&[words, &["--explain"]].concat(), &plan);
        let (status, printed, wrong) = explained(&own);
        let line = format!("The cents per thousand are the association's own, from {prices}.\n");
        assert!(printed.contains(&line), "{printed}");
        let printed = printed.replace(&line, "");
        assert_eq!((status, printed, wrong), explained(&house), "{name}");
    }
}

#[test]
fn price_file_is_named_in_one_line_whatever_its_name_holds() {
    let folder = folder("price-named");
    let (job, volumes) = (example("pair.job"), example("pair.volumes"));
    for (name, shown) in [
        ("own.prices", "own.prices"),
        ("of the b\u{fc}ro.prices", "of the b\u{fc}ro.prices"),
        ("St John's \"own\".prices", "St John's \"own\".prices"),
        (
            "a.\nThe plan costs 1 cent a day, 0.01.\nb",
            "a.\\nThe plan costs 1 cent a day, 0.01.\\nb",
        ),
        ("a\r\x1b[2Jb\x7f", "a\\r\\u{1b}[2Jb\\u{7f}"),
        ("a\u{2028}b\u{202e}c", "a\\u{2028}b\\u{202e}c"),
    ] {
        let prices = file(&folder, name, OWN.as_bytes());
        let words = [
            "price",
            &job,
            "-",
            &volumes,
            "--prices",
            &prices,
            "--explain",
        ];
        let (status, printed, wrong) = run(&words, "011\n");
        assert_eq!((status, wrong.as_str()), (0, ""));
        let own = printed.lines().nth_back(3).unwrap();
        let (_, named) = own.rsplit_once('/').unwrap();
        assert!(own.starts_with("The cents per thousand are the association's own, from "));
        assert_eq!(named, format!("{shown}."));
        assert_eq!(printed.lines().count(), 11);
    }
}

#[test]
fn house_prices_are_printed_as_a_price_file_that_price_reads() {
    let printed = include_str!("../../../../examples/house.prices").to_string();
    assert_eq!(printed.as_bytes(), prices::house());
    let done = run(&["prices"], "");
    assert_eq!(done, (0, printed, String::new()));
    let folder = folder("price-prices");
    let plan = file(&folder, "pair.plan", b"011\n");
    let (job, volumes) = (example("pair.job"), example("pair.volumes"));
    let script = "\"$1\" prices | \"$@\" --prices -";
    let wanted = (0, "60 cents a day, 0.60\n".to_string(), String::new());
    assert_eq!(shell(script, &["price", &job, &plan, &volumes]), wanted);
}
