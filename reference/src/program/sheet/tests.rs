use super::*;
use crate::cases::{
    four_reports, input, one_shard, printed_report, report, reports, terminated, FOUR, SETTINGS,
    SEVEN,
};
use crate::message::encode;
use crate::program;

/// The masks that give a plan, and the last line.
fn told(settings: &[u32], messages: &[Vec<u32>]) -> (Vec<u32>, String) {
    let text = run(&input(settings, messages));
    let mut lines: Vec<&str> = text.lines().collect();
    let counts = lines.pop().unwrap().to_string();
    let plans = lines.iter().filter_map(|line| line.strip_suffix(" 0"));
    let plans = plans.map(|mask| mask.parse().unwrap()).collect();
    assert_eq!(lines.len(), 1 << settings[0]);
    (plans, counts)
}

/// The masks of case A that give a plan.
const PLANS: [u32; 7] = [63, 111, 119, 123, 125, 126, 127];

fn counted(plans: &[u32], counts: &str) -> (Vec<u32>, String) {
    (plans.to_vec(), counts.to_string())
}

#[test]
fn one_node() {
    let text = run(&input(&[1, 1, 1, 1, 0, 1], &[one_shard(0, 1, 1, 1)]));
    assert_eq!(text, "0 2\n1 0\n1 1 0 0 0\n");
}

#[test]
fn four_nodes() {
    let text = run(&input(&FOUR, &four_reports()));
    let numbers = [2, 2, 2, 5, 2, 0, 0, 0, 2, 2, 2, 0, 2, 0, 0, 0];
    let lines = (0..).zip(numbers);
    let lines: String = lines
        .map(|(mask, n): (u32, u32)| format!("{mask} {n}\n"))
        .collect();
    assert_eq!(text, lines + "7 8 0 0 1\n");
}

#[test]
fn case_a_with_node_6() {
    let messages = reports(&SEVEN);
    let expected = counted(&PLANS, "7 64 0 28 29");
    assert_eq!(told(&SETTINGS, &messages), expected);
    // Node 0 reports twice, or last.
    let twice = [messages.clone(), reports(&[0])].concat();
    assert_eq!(told(&SETTINGS, &twice), expected);
    let late = reports(&[6, 5, 4, 3, 2, 1, 0]);
    assert_eq!(told(&SETTINGS, &late), expected);
    // What restart prints for the same input is the line of all nodes.
    let text = run(&input(&SETTINGS, &messages));
    assert!(text.starts_with("0 2\n1 2\n2 2\n"));
    assert!(text.ends_with("\n126 0\n127 0\n7 64 0 28 29\n"));
    assert!(program::run(&input(&SETTINGS, &messages)).starts_with("view 8\n"));
}

/// Node 6 missed the last view: more masks have no holder of shard 1.
#[test]
fn a_stale_node() {
    let mut messages = reports(&SEVEN);
    messages[6] = encode(&report(6, 6, &[]));
    assert_eq!(told(&SETTINGS, &messages), counted(&PLANS, "7 64 0 32 25"));
}

/// The kept termination's update of shard 1 is in node 1's log only.
#[test]
fn a_termination() {
    let mut messages = reports(&SEVEN);
    let positions = [(0, 0), (7, 5), (0, 0)];
    messages[6] = encode(&terminated(&report(6, 7, &[]), positions));
    let plans = [63, 111, 119, 123, 126, 127];
    let expected = counted(&plans, "6 64 0 42 16");
    assert_eq!(told(&SETTINGS, &messages), expected);
}

/// Wait 3 is said before wait 4, and wait 2 before wait 3.
#[test]
fn the_least_group_size() {
    let mut settings = SETTINGS;
    settings[2] = 7;
    let expected = counted(&[127], "1 64 63 0 0");
    assert_eq!(told(&settings, &reports(&SEVEN)), expected);
}

/// 22, then 23, after every block was read and judged.
#[test]
fn every_block_is_judged_first() {
    let large = |nodes: u32| {
        let mut settings = vec![nodes, 1, 1, 1];
        settings.resize(4 + nodes as usize, 0);
        settings.push(1);
        settings
    };
    let all = |nodes: u32| -> Vec<Vec<u32>> {
        let members = (1 << nodes) - 1;
        (0..nodes)
            .map(|node| one_shard(node, 1, members, 1))
            .collect()
    };
    let told = |nodes: u32, messages: &[Vec<u32>]| run(&input(&large(nodes), messages));
    // Without a report, with some, with all; then a bad last block.
    for (nodes, said) in [
        (11, "number 22\n"),
        (32, "number 22\n"),
        (10, "number 23\n"),
    ] {
        assert_eq!(told(nodes, &[]), said);
        assert_eq!(told(nodes, &all(9)[..1]), said);
        assert_eq!(
            told(nodes, &[one_shard(0, 1, 1, 1), vec![0; 6]]),
            "number 5\n"
        );
        assert_eq!(
            told(nodes, &[one_shard(0, 1, 1, 1), vec![40, 1, 1, 0]]),
            "number 6\n"
        );
    }
    assert_eq!(told(11, &all(11)), "number 22\n");
    assert_eq!(told(10, &all(10)[1..]), "number 23\n");
    let text = told(10, &all(10));
    assert_eq!(text.lines().count(), 1025);
    // A majority with node 0, the shard's only old member.
    assert!(text.ends_with("\n1023 0\n256 638 0 130 0\n"), "{text}");
}

/// Refusals are those of `restart`.
#[test]
fn refusals() {
    assert_eq!(run(&[]), "number 2\n");
    assert_eq!(run(&[14, 0, 0]), "number 2\n");
    assert_eq!(run(&input(&[], &reports(&SEVEN))), "number 2\n");
    assert_eq!(run(&input(&SETTINGS, &[])), "number 23\n");
    let six = reports(&SEVEN[..6]);
    assert_eq!(run(&input(&SETTINGS, &six)), "number 23\n");
    let back = [six, vec![encode(&report(0, 6, &[]))]].concat();
    assert_eq!(run(&input(&SETTINGS, &back)), "number 18\n");
    let mut bad = reports(&SEVEN);
    bad[3][4] = 9 * 256;
    assert_eq!(run(&input(&SETTINGS, &bad)), "number 9 1\n");
    // Every word of a message spoilt in turn: the number is that of `restart`.
    let whole = printed_report(1);
    for index in 0..whole.len() {
        for word in [0, 1, 3, 7, 9 * 256, u32::MAX] {
            let mut messages = reports(&SEVEN);
            messages[1][index] = word;
            let input = input(&SETTINGS, &messages);
            let restart = program::run(&input);
            if restart.starts_with("number") {
                assert_eq!(run(&input), restart, "word {index}, {word}");
            }
        }
    }
}

/// A cut count ends the input; a block cut short is its whole words.
#[test]
fn cut_input() {
    let whole = input(&SETTINGS, &reports(&SEVEN));
    let text = run(&whole);
    for tail in [[].as_slice(), &[9], &[9, 0, 0]] {
        assert_eq!(run(&[&whole, tail].concat()), text);
    }
    assert_eq!(run(&[whole.as_slice(), &[0; 4]].concat()), "number 5\n");
    assert_eq!(run(&whole[..whole.len() - 1]), "number 5\n");
    assert_eq!(run(&whole[..4 + 4 * SETTINGS.len()]), "number 23\n");
    assert_eq!(run(&whole[..3 + 4 * SETTINGS.len()]), "number 2\n");
}
