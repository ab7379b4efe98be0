//! Calls worked out by hand.
use crate::agreement::Calls;
use dapohiru::numbers::ACCEPTED;
use dapohiru_compare::arrivals::Case;
use dapohiru_second::arrivals::Asked::{self, Add, Drop, Index};
use dapohiru_second::arrivals::{Call, Lists};

/// What is asked, N and the count, and the three lists.
type Lent<'a> = (Asked, [u64; 2], [&'a [u16]; 3]);

/// The same, with the number and the three lists afterwards.
type Trial<'a> = (Asked, [u64; 2], [&'a [u16]; 3], u64, [&'a [u16]; 3]);

/// The lists of these numbers.
fn lists([edges, predecessors, starts]: [&[u16]; 3]) -> Lists {
    Lists {
        edges: edges.to_vec(),
        predecessors: predecessors.to_vec(),
        starts: starts.to_vec(),
    }
}

/// Asks that each call answers and leaves what is said.
#[track_caller]
fn hold(trials: &[Trial]) {
    let mut calls = Calls::new();
    for (place, &(asked, [nodes, count], lent, number, left)) in trials.iter().enumerate() {
        let call = Call {
            asked,
            nodes,
            count,
        };
        let lent = lists(lent);
        let seen = calls.agree(format_args!("trial {place}"), &Case { call, lists: lent });
        assert_eq!(seen, (number, lists(left)), "trial {place}");
    }
}

/// Asks that each call is refused and leaves the lists.
#[track_caller]
fn refused(trials: &[Lent]) {
    let refused = |&(asked, numbers, lent)| (asked, numbers, lent, 22, lent);
    hold(&trials.iter().map(refused).collect::<Vec<_>>());
}

#[test]
fn edges_are_added_in_their_place_with_their_index() {
    hold(&[
        // the first edge of the one node; 9 stands past the lists
        (
            Add(0, 0),
            [1, 0],
            [&[9, 9, 9], &[9, 9], &[0, 0, 9]],
            ACCEPTED + 1,
            [&[0, 0, 9], &[0, 9], &[0, 1, 9]],
        ),
        // in front of the others, and before the other predecessors of 1
        (
            Add(0, 1),
            [3, 2],
            [&[1, 1, 2, 0, 9, 9], &[2, 1, 9], &[0, 1, 2, 2]],
            ACCEPTED + 3,
            [&[0, 1, 1, 1, 2, 0], &[2, 0, 1], &[0, 1, 3, 3]],
        ),
        // between them
        (
            Add(1, 2),
            [3, 2],
            [&[1, 1, 2, 0, 0, 0], &[2, 1, 0], &[0, 1, 2, 2]],
            ACCEPTED + 3,
            [&[1, 1, 1, 2, 2, 0], &[2, 1, 1], &[0, 1, 2, 3]],
        ),
        // past them, to the first node: all starts but the first are moved
        (
            Add(2, 0),
            [3, 2],
            [&[0, 0, 1, 2, 0, 0], &[0, 1, 0], &[0, 1, 1, 2]],
            ACCEPTED + 3,
            [&[0, 0, 1, 2, 2, 0], &[0, 2, 1], &[0, 2, 2, 3]],
        ),
        // the predecessors of a node ascend however its edges came
        (
            Add(1, 3),
            [4, 2],
            [&[0, 3, 2, 3, 7, 7], &[0, 2, 7], &[0, 0, 0, 0, 2]],
            ACCEPTED + 3,
            [&[0, 3, 1, 3, 2, 3], &[0, 1, 2], &[0, 0, 0, 0, 3]],
        ),
    ]);
}

#[test]
fn edges_are_dropped_and_the_places_that_are_free_become_zero() {
    hold(&[
        (
            Drop(0, 0),
            [1, 1],
            [&[0, 0, 9], &[0, 9], &[0, 1, 9]],
            ACCEPTED,
            [&[0, 0, 9], &[0, 9], &[0, 0, 9]],
        ),
        // the first, a middle and the last of three edges to one node
        (
            Drop(1, 3),
            [4, 3],
            [&[1, 3, 2, 3, 3, 3, 9], &[1, 2, 3, 9], &[0, 0, 0, 0, 3, 9]],
            ACCEPTED + 2,
            [&[2, 3, 3, 3, 0, 0, 9], &[2, 3, 0, 9], &[0, 0, 0, 0, 2, 9]],
        ),
        (
            Drop(2, 3),
            [4, 3],
            [&[1, 3, 2, 3, 3, 3], &[1, 2, 3], &[0, 0, 0, 0, 3]],
            ACCEPTED + 2,
            [&[1, 3, 3, 3, 0, 0], &[1, 3, 0], &[0, 0, 0, 0, 2]],
        ),
        (
            Drop(3, 3),
            [4, 3],
            [&[1, 3, 2, 3, 3, 3], &[1, 2, 3], &[0, 0, 0, 0, 3]],
            ACCEPTED + 2,
            [&[1, 3, 2, 3, 0, 0], &[1, 2, 0], &[0, 0, 0, 0, 2]],
        ),
        // the predecessors of later nodes move up
        (
            Drop(2, 0),
            [3, 3],
            [&[0, 1, 1, 2, 2, 0], &[2, 0, 1], &[0, 1, 2, 3]],
            ACCEPTED + 2,
            [&[0, 1, 1, 2, 0, 0], &[0, 1, 0], &[0, 0, 1, 2]],
        ),
    ]);
}

#[test]
fn index_is_made_whatever_stood_in_its_place() {
    hold(&[
        (
            Index,
            [1, 0],
            [&[], &[], &[9, 9]],
            ACCEPTED,
            [&[], &[], &[0, 0]],
        ),
        (
            Index,
            [3, 3],
            [&[0, 1, 1, 2, 2, 1, 9], &[9; 5], &[9; 6]],
            ACCEPTED + 3,
            [
                &[0, 1, 1, 2, 2, 1, 9],
                &[0, 2, 1, 9, 9],
                &[0, 0, 2, 3, 9, 9],
            ],
        ),
        (
            Index,
            [2, 4],
            [&[0, 0, 0, 1, 1, 0, 1, 1], &[9; 4], &[9; 3]],
            ACCEPTED + 4,
            [&[0, 0, 0, 1, 1, 0, 1, 1], &[0, 1, 0, 1], &[0, 2, 4]],
        ),
    ]);
}

#[test]
fn refusals_leave_the_lists() {
    let one: [&[u16]; 3] = [&[0, 1, 9, 9], &[0, 9], &[0, 0, 1]];
    refused(&[
        // the edge
        (Add(0, 1), [2, 1], one),
        (Drop(1, 0), [2, 1], one),
        (Add(2, 0), [2, 1], one),
        (Add(0, 2), [2, 1], one),
        (Add(65_536, 0), [2, 1], one),
        (Drop(65_536, 1), [2, 1], one),
        (Drop(0, 65_537), [2, 1], one),
        // N and the count
        (Add(0, 0), [0, 0], [&[9, 9], &[9], &[0]]),
        (Index, [0, 0], [&[9, 9], &[9], &[9]]),
        (Add(1, 1), [65_538, 1], one),
        (Add(1, 1), [2, 65_537], one),
        (Drop(0, 1), [3, 1], one),
        (Drop(0, 1), [1, 1], one),
        (Add(1, 1), [2, 0], one),
        (Drop(0, 1), [2, 2], one),
        // room
        (Add(1, 1), [2, 1], [&[0, 1, 9], &[0, 9], &[0, 0, 1]]),
        (Add(1, 1), [2, 1], [&[0, 1, 9, 9], &[0], &[0, 0, 1]]),
        (Add(1, 1), [2, 1], [&[0, 1, 9, 9], &[0, 9], &[0, 0]]),
        (Drop(0, 1), [2, 1], [&[0], &[0], &[0, 0, 1]]),
        (Drop(0, 1), [2, 1], [&[0, 1], &[], &[0, 0, 1]]),
        (Drop(0, 1), [2, 1], [&[0, 1], &[0], &[0, 0]]),
        (Index, [2, 1], [&[0], &[9], &[9; 3]]),
        (Index, [2, 1], [&[0, 1], &[], &[9; 3]]),
        (Index, [2, 1], [&[0, 1], &[9], &[9; 2]]),
        // edges that do not ascend, stand twice, or have an end of N
        (Index, [2, 2], [&[1, 0, 0, 1], &[9; 2], &[9; 3]]),
        (Index, [2, 2], [&[0, 1, 0, 0], &[9; 2], &[9; 3]]),
        (Index, [2, 2], [&[0, 1, 0, 1], &[9; 2], &[9; 3]]),
        (Index, [2, 1], [&[0, 2], &[9; 2], &[9; 3]]),
        (Index, [2, 1], [&[2, 0], &[9; 2], &[9; 3]]),
        (Drop(1, 0), [2, 2], [&[1, 0, 0, 1], &[1, 0], &[0, 1, 2]]),
        (Drop(0, 1), [2, 2], [&[0, 1, 0, 1], &[0, 0], &[0, 0, 2]]),
        // another index
        (Drop(0, 1), [2, 1], [&[0, 1], &[1], &[0, 0, 1]]),
        (Drop(0, 1), [2, 1], [&[0, 1], &[0], &[0, 1, 1]]),
        (Drop(0, 1), [2, 1], [&[0, 1], &[0], &[0, 0, 0]]),
        (Drop(0, 1), [2, 1], [&[0, 1], &[0], &[1, 0, 1]]),
        (Drop(0, 1), [2, 2], [&[0, 1, 1, 1], &[1, 0], &[0, 0, 2]]),
    ]);
}
