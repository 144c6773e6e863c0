use super::*;
use crate::cases::{self, SETTINGS};

/// Node 1's report of the printed run, without runs, up to its masks.
const FRONT: [u32; 7] = [1, 7, 127, 3, 5, 82, 32];
/// The termination of `terminated`.
const POSITIONS: [u32; 6] = [0, 0, 7, 5, 0, 0];

/// That report with these runs: no termination.
fn plain(runs: &[[u32; 3]]) -> Vec<u32> {
    [&FRONT[..], &[0], &counted(runs)].concat()
}

/// The same with a termination.
fn terminated(runs: &[[u32; 3]]) -> Vec<u32> {
    [&FRONT[..], &[1], &POSITIONS, &counted(runs)].concat()
}

/// A count of runs and the runs.
fn counted(runs: &[[u32; 3]]) -> Vec<u32> {
    [&[runs.len() as u32], runs.as_flattened()].concat()
}

fn converted(flat: &[u32]) -> Result<Converted, Refusal> {
    from_flat(&SETTINGS, flat, 512)
}

fn told(answer: Result<Converted, Refusal>) -> String {
    match answer {
        Ok(converted) => format!("length {}", converted.length),
        Err(refusal) => refusal.to_string(),
    }
}

/// What is said of a flat report under the settings of the printed run.
fn said(flat: &[u32]) -> String {
    told(converted(flat))
}

/// The same of a changed one, with a termination and the run (1, 7, 5).
fn changed(change: impl Fn(&mut Vec<u32>)) -> String {
    let mut flat = terminated(&[[1, 7, 5]]);
    change(&mut flat);
    said(&flat)
}

fn back(message: &[u32]) -> Result<Converted, Refusal> {
    to_flat(&SETTINGS, message, 512)
}

/// The words before the zeros; the buffer has 512, and zeros after them.
fn before_zeros(converted: Converted) -> Vec<u32> {
    assert_eq!(converted.buffer.len(), 512);
    let (words, zeros) = converted.buffer.split_at(converted.length);
    assert!(zeros.iter().all(|&word| word == 0));
    words.to_vec()
}

/// The flat report is accepted as `ours`, which turned back is the same.
fn both_ways(flat: &[u32], ours: &[u32]) {
    assert_eq!(before_zeros(converted(flat).unwrap()), ours);
    assert_eq!(before_zeros(back(ours).unwrap()), flat);
}

#[test]
fn a_flat_report_of_the_printed_run() {
    #[rustfmt::skip]
    let ours = [
        1, 7, 127, 1,
        256, 5, 0, 2,
        257, 82, 0, 3,
        258, 32, 0, 4,
        769, 7, 5, 0,
    ];
    let flat = plain(&[[1, 7, 5]]);
    assert_eq!(flat.len(), 12);
    assert_eq!(cases::printed_report(1), ours);
    both_ways(&flat, &ours);
    assert_eq!(said(&plain(&[])), "length 16");
}

#[test]
fn one_with_a_termination() {
    let flat = terminated(&[[1, 7, 5]]);
    assert_eq!(flat.len(), 18);
    let report = cases::report(1, 7, &[(7, 5)]);
    let ours = message::encode(&cases::terminated(&report, [(0, 0), (7, 5), (0, 0)]));
    assert_eq!(ours.len(), 32);
    both_ways(&flat, &ours);
    // All positions (0, 0) are a termination too.
    let zeros = [&FRONT[..], &[1], &[0; 6], &[0]].concat();
    assert_eq!(said(&zeros), "length 28");
    let ours = before_zeros(converted(&zeros).unwrap());
    both_ways(&zeros, &ours);
}

#[test]
fn rows_1_and_2() {
    let flat = plain(&[[1, 7, 5]]);
    for words in [0, 511, 513, 2048] {
        assert_eq!(told(from_flat(&SETTINGS, &flat, words)), "number 1");
        assert_eq!(told(from_flat(&[], &[], words)), "number 1");
        assert_eq!(told(to_flat(&[], &[], words)), "number 1");
    }
    assert_eq!(told(from_flat(&SETTINGS[..13], &[], 512)), "number 2");
    assert_eq!(told(to_flat(&SETTINGS[..13], &[], 512)), "number 2");
}

/// S may be another than the settings' if the length explains it.
#[test]
fn masks_too_many_and_too_few() {
    let with = |masks: &[u32], rest: &[u32]| {
        let flat = [&[1, 7, 127, masks.len() as u32], masks, rest].concat();
        said(&flat)
    };
    assert_eq!(with(&[5, 82, 32], &[0, 0]), "length 16");
    assert_eq!(with(&[5, 82, 32, 8], &[0, 0]), "number 16 4");
    assert_eq!(with(&[5, 82], &[0, 0]), "number 17 2");
    assert_eq!(with(&[5, 82], &[0, 1, 1, 7, 5]), "number 17 3");
    assert_eq!(with(&[5, 82], &[1, 0, 0, 7, 5, 0]), "number 17 4");
    assert_eq!(with(&[], &[0, 0]), "number 17 0");
    assert_eq!(with(&[], &[1, 0]), "number 17 0");
    // The mask speaks before the position and the run behind it.
    let longer = [1, 0, 0, 7, 5, 0, 0, 0, 0, 1, 3, 7, 5];
    assert_eq!(with(&[5, 82, 32, 8], &longer), "number 16 4");
}

#[test]
fn number_16_a_run_s_shard() {
    for shard in [3, 4, 16, 255, 256, 257, 65536, 65537, 1 << 31, u32::MAX] {
        assert_eq!(said(&plain(&[[shard, 7, 5]])), "number 16 4", "{shard}");
        let behind = plain(&[[1, 7, 5], [shard, 7, 5]]);
        assert_eq!(said(&behind), "number 16 5", "{shard}");
        // Before every 17, whatever its place.
        let unsorted = plain(&[[1, 7, 5], [0, 7, 5], [shard, 7, 5]]);
        assert_eq!(said(&unsorted), "number 16 6", "{shard}");
        let first = plain(&[[shard, 7, 5], [0, 7, 5]]);
        assert_eq!(said(&first), "number 16 4", "{shard}");
    }
    let two = terminated(&[[256, 7, 5], [1 << 20, 7, 5]]);
    assert_eq!(said(&two), "number 16 7");
}

/// The converter does not sort.
#[test]
fn number_17_unsorted_runs() {
    let pairs = [
        [[1, 7, 1], [0, 7, 1]],
        [[1, 7, 1], [1, 6, 1]],
        [[1, 7, 1], [1, 7, 2]],
        [[1, 7, 1], [1, 7, 1]],
    ];
    for runs in pairs {
        assert_eq!(said(&plain(&runs)), "number 17 5", "{runs:?}");
        assert_eq!(said(&terminated(&runs)), "number 17 8", "{runs:?}");
    }
    assert_eq!(
        said(&plain(&[[0, 7, 1], [1, 6, 1], [1, 7, 1]])),
        "length 28"
    );
}

#[test]
fn rows_6_7_10_and_11() {
    assert_eq!(changed(|_| ()), "length 32");
    assert_eq!(changed(|flat| flat[0] = 9), "number 6");
    assert_eq!(changed(|flat| flat[0] = 7), "number 6");
    assert_eq!(changed(|flat| flat[0] = u32::MAX), "number 6");
    assert_eq!(changed(|flat| flat[1] = 0), "number 7");
    assert_eq!(changed(|flat| flat[1] = u32::MAX), "number 7");
    assert_eq!(changed(|flat| flat[1] = u32::MAX - 1), "length 32");
    assert_eq!(changed(|flat| flat[2] = 125), "number 7");
    assert_eq!(changed(|flat| flat[2] = 255), "number 7");
    assert_eq!(changed(|flat| flat[4] = 0), "number 10");
    assert_eq!(changed(|flat| flat[5] = 83), "number 10");
    assert_eq!(changed(|flat| flat[9] = 3), "number 11");
    assert_eq!(changed(|flat| flat[11] = 0), "number 11");
    assert_eq!(changed(|flat| flat[10] = 8), "number 11");
    assert_eq!(changed(|flat| flat[16] = 8), "number 11");
    assert_eq!(changed(|flat| flat[16] = 0), "number 11");
    assert_eq!(said(&plain(&[[1, 0, 1]])), "number 11");
    assert_eq!(said(&plain(&[[1, 8, 1]])), "number 11");
    let empty_shard_and_run = |flat: &mut Vec<u32>| (flat[4], flat[16]) = (0, 8);
    assert_eq!(changed(empty_shard_and_run), "number 10");
    let node_and_view = |flat: &mut Vec<u32>| (flat[0], flat[1]) = (9, 0);
    assert_eq!(changed(node_and_view), "number 6");
}

#[test]
fn number_19_a_length_that_is_not_explained() {
    for length in 0..6 {
        assert_eq!(said(&vec![0; length]), "number 19", "{length}");
    }
    assert_eq!(said(&[0; 6]), "number 7");
    // Cut anywhere, and with a word more.
    for flat in [plain(&[[1, 7, 5]]), terminated(&[[1, 7, 5]])] {
        for length in 0..flat.len() {
            assert_eq!(said(&flat[..length]), "number 19", "{length}");
        }
        assert_eq!(said(&[&flat[..], &[0]].concat()), "number 19");
        assert_eq!(said(&[&flat[..], &[1, 7, 6]].concat()), "number 19");
    }
    // Counts that are too large or too small.
    assert_eq!(changed(|flat| flat[3] = 2), "number 19");
    assert_eq!(changed(|flat| flat[3] = 4), "number 19");
    assert_eq!(changed(|flat| flat[14] = 0), "number 19");
    assert_eq!(changed(|flat| flat[14] = 2), "number 19");
}

#[test]
fn number_19_a_termination_word_above_1() {
    for flag in [2, 3, 256, 257, 65536, 1 << 31, u32::MAX] {
        assert_eq!(changed(|flat| flat[7] = flag), "number 19", "{flag}");
        let mut flat = plain(&[[1, 7, 5]]);
        flat[7] = flag;
        assert_eq!(said(&flat), "number 19", "{flag}");
    }
    // Before the node.
    let node_and_flag = |flat: &mut Vec<u32>| (flat[0], flat[7]) = (9, 2);
    assert_eq!(changed(node_and_flag), "number 19");
}

/// A termination that is there but not announced, and the other way round.
#[test]
fn number_19_a_wrong_termination_word() {
    assert_eq!(changed(|flat| flat[7] = 0), "number 19");
    let mut flat = plain(&[[1, 7, 5]]);
    flat[7] = 1;
    assert_eq!(said(&flat), "number 19");
}

/// Sums of counts do not wrap.
#[test]
fn number_19_counts_at_the_end_of_their_range() {
    assert_eq!(said(&[1, 7, 127, u32::MAX, 0, 0]), "number 19");
    for shards in 4294967290..=u32::MAX {
        for flag in [0, 1] {
            assert_eq!(said(&[1, 7, 127, shards, flag, 0]), "number 19");
        }
    }
    // Three times these is the number of words after them, or of their bytes,
    // but for whole turns.
    let words = [&FRONT[..], &[0, 1431655766, 0, 7]].concat();
    assert_eq!(said(&words), "number 19");
    for turns in 1..4u32 {
        let with = |place: usize| {
            let mut flat = plain(&[[1, 7, 5]]);
            flat[place] += turns << 30;
            said(&flat)
        };
        assert_eq!(with(3), "number 19");
        assert_eq!(with(8), "number 19");
    }
    assert_eq!(said(&[&FRONT[..], &[0, u32::MAX]].concat()), "number 19");
    // S so large that the words after it would be those before it.
    assert_eq!(said(&[0, 2, 127, u32::MAX - 3, 7, 7, 7, 7]), "number 19");
    assert_eq!(said(&[0, 0, 1, u32::MAX - 2, 7, 7]), "number 19");
}

#[test]
fn number_20_a_count_of_0() {
    assert_eq!(said(&plain(&[[1, 7, 0]])), "number 20");
    assert_eq!(said(&plain(&[[300, 7, 0]])), "number 20");
    assert_eq!(said(&plain(&[[1, 7, 5], [2, 7, 0]])), "number 20");
    assert_eq!(said(&terminated(&[[1, 0, 0]])), "number 20");
    // Before the node, after a length that is not explained.
    let mut flat = plain(&[[1, 7, 0]]);
    flat[0] = 9;
    assert_eq!(said(&flat), "number 20");
    flat[8] = 2;
    assert_eq!(said(&flat), "number 19");
}

/// So many runs of one shard, views from 1 up.
fn runs(shard: u32, count: u32) -> Vec<[u32; 3]> {
    (1..=count).map(|view| [shard, view, 1]).collect()
}

/// Settings of four nodes and so many shards, and under them a flat report of
/// node 0 in the greatest view.
fn large(shards: u32, termination: bool, runs: &[[u32; 3]]) -> (Vec<u32>, Vec<u32>) {
    let mut settings = vec![4, 1, 1, shards, 0, 0, 0, 0];
    settings.extend((0..shards).map(|shard| shard % 4 * 256 + 1));
    let mut flat = vec![0, u32::MAX - 1, 15, shards];
    flat.extend((0..shards).map(|shard| 1 << (shard / 4)));
    flat.push(u32::from(termination));
    flat.resize(
        flat.len() + usize::from(termination) * 2 * shards as usize,
        0,
    );
    flat.extend(counted(runs));
    (settings, flat)
}

#[test]
fn number_21_more_than_128_records() {
    let said = |shards: u32, termination: bool, runs: &[[u32; 3]]| {
        let (settings, flat) = large(shards, termination, runs);
        (flat.len(), told(from_flat(&settings, &flat, 512)))
    };
    let one = |count: u32| said(1, false, &runs(0, count));
    assert_eq!(one(126), (385, "length 512".into()));
    assert_eq!(one(127), (388, "number 21".into()));
    assert_eq!(one(200), (607, "number 21".into()));
    for count in [126, 127, 200] {
        let mut last_is_0 = runs(0, count);
        last_is_0[count as usize - 1][2] = 0;
        assert_eq!(said(1, false, &last_is_0).1, "number 20");
    }
    assert_eq!(said(16, true, &runs(15, 95)), (339, "length 512".into()));
    assert_eq!(said(16, true, &runs(15, 96)).1, "number 21");
    assert_eq!(said(16, false, &runs(15, 111)).1, "length 512");
    assert_eq!(said(16, false, &runs(15, 112)).1, "number 21");
    // Before all that is wrong with the report itself.
    let (settings, mut flat) = large(1, false, &runs(300, 127));
    flat[0] = 9;
    assert_eq!(told(from_flat(&settings, &flat, 512)), "number 21");
}

/// So many masks, or positions, that the flat report is over 512 words.
#[test]
fn number_21_masks_and_positions() {
    let flat = |shards: u32, termination: bool| {
        let mut flat = vec![1, 7, 127, shards];
        flat.resize(4 + shards as usize, 5);
        flat.push(u32::from(termination));
        flat.resize(
            flat.len() + usize::from(termination) * 2 * shards as usize,
            0,
        );
        flat.push(0);
        flat
    };
    assert_eq!(said(&flat(127, false)), "number 16 4");
    assert_eq!(said(&flat(128, false)), "number 21");
    assert_eq!(said(&flat(63, true)), "number 16 4");
    assert_eq!(said(&flat(64, true)), "number 21");
    assert_eq!(said(&flat(5000, true)), "number 21");
    let mut cut = flat(5000, true);
    cut.pop();
    assert_eq!(said(&cut), "number 19");
}

/// What the reader says of a report is said of one to be turned back.
#[test]
fn back_from_a_message() {
    let ours = cases::printed_report(1);
    let said = |message: &[u32]| told(back(message));
    assert_eq!(said(&ours), "length 12");
    assert_eq!(said(&[]), "number 5");
    assert_eq!(said(&ours[..19]), "number 5");
    assert_eq!(said(&words::padded(&ours, 512)), "length 12");
    assert_eq!(said(&words::padded(&ours, 516)), "number 5");
    let with = |place: usize, word: u32| {
        let mut message = ours.clone();
        message[place] = word;
        said(&message)
    };
    assert_eq!(with(0, 7), "number 6");
    assert_eq!(with(1, 0), "number 7");
    assert_eq!(with(15, 3), "number 8 3");
    assert_eq!(with(6, 1), "number 9 1");
    assert_eq!(with(16, 4 * 256 + 1), "number 9 4");
    assert_eq!(with(16, 3 * 256 + 3), "number 16 4");
    assert_eq!(with(11, 4), "number 17 4");
    assert_eq!(with(9, 0), "number 10");
    assert_eq!(with(18, 0), "number 11");
}

/// Records off the chain carry nothing, and an index is that of the message.
#[test]
fn back_from_a_message_with_gaps() {
    #[rustfmt::skip]
    let mut message = vec![
        1, 7, 127, 2,
        9, 9, 9, 9,
        256, 5, 0, 3,
        257, 82, 0, 5,
        770, 7, 1, 0,
        258, 32, 0, 6,
        769, 7, 5, 0,
    ];
    assert_eq!(before_zeros(back(&message).unwrap()), plain(&[[1, 7, 5]]));
    let there = converted(&plain(&[[1, 7, 5]])).unwrap();
    assert_eq!(before_zeros(there), cases::printed_report(1));
    message[24] = 3 * 256 + 3;
    assert_eq!(told(back(&message)), "number 16 6");
}

/// An order is no report: its termination is followed by what no report has.
#[test]
fn orders_are_not_converted() {
    #[rustfmt::skip]
    let order = [
        4, 8, 63, 1,
        256, 5, 0, 2,
        257, 50, 0, 3,
        258, 8, 0, 4,
        512, 0, 0, 5,
        513, 7, 5, 6,
        514, 0, 0, 7,
        1025, 1, 0, 8,
        1281, 7, 4, 0,
    ];
    assert!(message::read(Form::Order, &SETTINGS, &order).is_ok());
    assert_eq!(told(back(&order)), "number 9 7");
}

/// The longest flat report of an accepted message.
#[test]
fn the_result_fits() {
    let (settings, flat) = large(1, false, &runs(0, 126));
    let ours = before_zeros(from_flat(&settings, &flat, 512).unwrap());
    assert_eq!(ours.len(), 512);
    assert_eq!(before_zeros(to_flat(&settings, &ours, 512).unwrap()), flat);
}
