use super::*;
use crate::cases::{input, printed_report, report, reports, SETTINGS};
use crate::message::{encode, Contents, Triple, MEMBERS};

/// The output for the printed settings with another word.
fn changed(index: usize, word: u32, nodes: &[u32]) -> String {
    let mut settings = SETTINGS;
    settings[index] = word;
    run(&input(&settings, &reports(nodes)))
}

const ALL: [u32; 6] = [0, 1, 2, 3, 4, 5];

const PLAN: &str = "view 8
moves 2
shard 0 holder 0 target 0 0 members 0 2
shard 1 holder 1 target 7 5 members 1 4 5
shard 2 holder 5 target 0 0 members 3
";

#[test]
fn case_a() {
    assert_eq!(run(&input(&SETTINGS, &reports(&ALL))), PLAN);
}

#[test]
fn case_b() {
    for nodes in [[0, 1, 2], [3, 4, 5], [0, 2, 5]] {
        assert_eq!(run(&input(&SETTINGS, &reports(&nodes))), "wait 2\n");
    }
}

/// Three of six members wait for a majority; four don't.
#[test]
fn case_c() {
    let settings = [6, 1, 1, 1, 0, 0, 0, 0, 0, 0, 1];
    let of = |node| Contents {
        node,
        view: 3,
        members: 63,
        records: vec![Triple::new(MEMBERS, 0, 1, 0)],
    };
    let messages: Vec<Vec<u32>> = (0..4).map(|node| encode(&of(node))).collect();
    assert_eq!(run(&input(&settings, &messages[..3])), "wait 2\n");
    let plan = "view 4\nmoves 0\nshard 0 holder 0 target 0 0 members 0\n";
    assert_eq!(run(&input(&settings, &messages)), plan);
}

#[test]
fn case_d() {
    assert_eq!(run(&input(&SETTINGS, &[])), "wait 1\n");
}

#[test]
fn case_e() {
    assert_eq!(changed(2, 7, &ALL), "wait 3\n");
}

#[test]
fn case_f() {
    let output = run(&input(&SETTINGS, &reports(&[0, 1, 2, 3, 4])));
    assert_eq!(output, "wait 4 2\n");
}

#[test]
fn case_i() {
    assert_eq!(changed(11, 3, &ALL), "wait 5 0\n");
}

/// A stale machine's longer log is not taken.
#[test]
fn a_stale_log_is_no_target() {
    let mut messages = reports(&ALL);
    messages[4] = encode(&report(4, 6, &[(6, 9)]));
    messages[1] = encode(&report(1, 7, &[(6, 8)]));
    let output = run(&input(&SETTINGS, &messages));
    assert!(output.contains("shard 1 holder 1 target 6 8 members 1 4 5"));
}

#[test]
fn missing_and_empty_blocks() {
    assert_eq!(run(&[]), "number 2\n");
    assert_eq!(run(&[14, 0, 0]), "number 2\n");
    assert_eq!(run(&input(&[], &[])), "number 2\n");
    assert_eq!(run(&input(&[], &reports(&ALL))), "number 2\n");
    assert_eq!(run(&input(&SETTINGS, &[vec![]])), "number 5\n");
}

#[test]
fn a_block_cut_short_is_its_whole_words() {
    let whole = input(&SETTINGS, &reports(&ALL));
    // A cut count ends the input.
    for tail in [[].as_slice(), &[9], &[9, 0, 0]] {
        assert_eq!(run(&[&whole, tail].concat()), PLAN);
    }
    // A count alone is an empty message.
    assert_eq!(
        run(&[whole.as_slice(), &[9, 0, 0, 0]].concat()),
        "number 5\n"
    );
    // A large count before the last message, which is cut after its words.
    let last = whole.len() - 4 * printed_report(5).len() - 4;
    let mut large = whole.clone();
    large[last..last + 4].copy_from_slice(&u32::MAX.to_le_bytes());
    assert_eq!(run(&large), PLAN);
    large.push(1);
    assert_eq!(run(&large), PLAN);
    // Settings cut short.
    assert_eq!(run(&whole[..4 + 4 * 14]), "wait 1\n");
    assert_eq!(run(&whole[..4 + 4 * 13 + 3]), "number 2\n");
}

#[test]
fn a_refusal_ends_the_run() {
    let mut messages = reports(&ALL);
    messages[2][4] = 9 * 256;
    messages[3][1] = 0;
    assert_eq!(run(&input(&SETTINGS, &messages)), "number 9 1\n");
    assert_eq!(changed(0, 0, &ALL), "number 2\n");
    let long = vec![vec![0; 516]];
    assert_eq!(run(&input(&SETTINGS, &long)), "number 5\n");
}

/// The index of the record comes after 8, 9, 16 and 17, 0 included, and after
/// no other number.
#[test]
fn the_index_of_a_record() {
    let with = |index: usize, word: u32| {
        let mut message = printed_report(1);
        message[index] = word;
        run(&input(&SETTINGS, &[printed_report(0), message]))
    };
    assert_eq!(with(4 * 4, 9 * 256), "number 9 4\n");
    assert_eq!(with(4 * 4, 3 * 256 + 3), "number 16 4\n");
    assert_eq!(with(4 * 2, 256), "number 17 2\n");
    assert_eq!(with(3, 0), "number 17 0\n");
    assert_eq!(with(3, 5), "number 8 0\n");
    assert_eq!(with(4 * 2 + 3, 2), "number 8 2\n");
    assert_eq!(with(0, 7), "number 6\n");
    assert_eq!(with(4 * 4 + 2, 0), "number 11\n");
}

/// A machine that went back in time.
#[test]
fn a_smaller_view_of_the_same_node() {
    let told = |views: &[(u32, u32)]| {
        let message = |&(node, view): &(u32, u32)| encode(&report(node, view, &[]));
        let messages: Vec<Vec<u32>> = views.iter().map(message).collect();
        run(&input(&SETTINGS, &messages))
    };
    assert_eq!(told(&[(0, 7), (0, 6)]), "number 18\n");
    assert_eq!(told(&[(0, 6), (0, 7), (0, 6)]), "number 18\n");
    assert_eq!(told(&[(0, 7), (1, 6), (0, 7)]), "wait 2\n");
}
