use super::*;
use crate::number::Number;

/// The settings of case A.
const SETTINGS: [u32; 14] = [7, 3, 4, 3, 0, 0, 1, 1, 1, 2, 2, 2, 3, 1];

fn triple(kind: u32, shard: u32, word1: u32, word2: u32) -> Triple {
    Triple::new(kind, shard, word1, word2)
}

/// Node 1's report of the printed run.
fn report() -> Contents {
    Contents {
        node: 1,
        view: 7,
        members: 127,
        records: vec![
            triple(MEMBERS, 0, 5, 0),
            triple(MEMBERS, 1, 82, 0),
            triple(MEMBERS, 2, 32, 0),
            triple(RUN, 1, 7, 5),
        ],
    }
}

/// Node 4's order of the printed run.
fn order() -> Contents {
    Contents {
        node: 4,
        view: 8,
        members: 63,
        records: vec![
            triple(MEMBERS, 0, 5, 0),
            triple(MEMBERS, 1, 50, 0),
            triple(MEMBERS, 2, 8, 0),
            triple(TERMINATION, 0, 0, 0),
            triple(TERMINATION, 1, 7, 5),
            triple(TERMINATION, 2, 0, 0),
            triple(HOLDER, 1, 1, 0),
            triple(CUT, 1, 7, 4),
        ],
    }
}

fn with_termination() -> Contents {
    let mut contents = report();
    let positions = [(0, 0), (7, 5), (3, 1)];
    for (shard, (view, k)) in positions.into_iter().enumerate() {
        let record = triple(TERMINATION, shard as u32, view, k);
        contents.records.insert(3 + shard, record);
    }
    contents
}

fn read_words(form: Form, words: &[u32]) -> Result<Contents, Refusal> {
    read(form, &SETTINGS, words)
}

/// A refusal without an index.
fn refused(number: u32) -> Option<Refusal> {
    Some(Number(number).into())
}

/// What is said of a message: `number 17 5`, or nothing if it is accepted.
fn said(form: Form, words: &[u32]) -> String {
    let refusal = read_words(form, words).err();
    refusal.map_or(String::new(), |refusal| refusal.to_string())
}

/// The refusal of contents, which reader and writer must agree on.
fn refusal(form: Form, contents: &Contents) -> Option<Refusal> {
    let written = write(form, &SETTINGS, contents, 512);
    let taken = read_words(form, &encode(contents));
    assert_eq!(written.clone().err(), taken.clone().err());
    if written.is_ok() {
        assert_eq!(taken.as_ref(), Ok(contents));
    }
    taken.err()
}

/// The number of contents, which has no index; 0 if they are accepted.
fn number(form: Form, contents: &Contents) -> u32 {
    let refusal = refusal(form, contents);
    assert_eq!(refusal.and_then(|refusal| refusal.index), None);
    refusal.map_or(0, |refusal| refusal.number.0)
}

/// What is said of the report after a change.
fn report_says(change: impl Fn(&mut Contents)) -> String {
    let mut contents = report();
    change(&mut contents);
    let refusal = refusal(Form::Report, &contents);
    refusal.map_or(String::new(), |refusal| refusal.to_string())
}

/// What is said of the order after a change.
fn order_says(change: impl Fn(&mut Contents)) -> String {
    let mut contents = order();
    change(&mut contents);
    let refusal = refusal(Form::Order, &contents);
    refusal.map_or(String::new(), |refusal| refusal.to_string())
}

/// The number of the report after a change.
fn changed_report(change: impl Fn(&mut Contents)) -> u32 {
    let mut contents = report();
    change(&mut contents);
    number(Form::Report, &contents)
}

/// Leaves out one record.
fn without(contents: &mut Contents, index: usize) {
    contents.records.remove(index);
}

fn changed_order(change: impl Fn(&mut Contents)) -> u32 {
    let mut contents = order();
    change(&mut contents);
    number(Form::Order, &contents)
}

#[test]
fn the_printed_messages_are_valid() {
    assert_eq!(number(Form::Report, &report()), 0);
    assert_eq!(number(Form::Report, &with_termination()), 0);
    assert_eq!(number(Form::Order, &order()), 0);
    let said = |form, contents: &Contents| refusal(form, contents).unwrap().to_string();
    assert_eq!(said(Form::Order, &report()), "number 9 4", "a run");
    assert_eq!(said(Form::Report, &order()), "number 9 7", "a holder");
}

#[test]
fn row_1_buffer() {
    let written = |words| write(Form::Report, &[], &report(), words).err();
    assert_eq!(written(511), refused(1));
    assert_eq!(written(513), refused(1));
}

#[test]
fn row_2_settings() {
    assert_eq!(read(Form::Report, &[0], &[]).err(), refused(2));
    assert_eq!(write(Form::Order, &[0], &order(), 512).err(), refused(2));
}

#[test]
fn row_5_length() {
    let mut words = encode(&report());
    assert_eq!(said(Form::Report, &[]), "number 5");
    assert_eq!(said(Form::Report, &words[..6]), "number 5");
    words.resize(512, 0);
    assert!(read_words(Form::Report, &words).is_ok());
    words.resize(516, 0);
    assert_eq!(said(Form::Report, &words), "number 5");

    let runs = |count: u32| {
        let mut contents = report();
        contents.view = 1000;
        contents.records.truncate(3);
        let view_of = |index| triple(RUN, 2, index + 1, 1);
        contents.records.extend((0..count).map(view_of));
        contents
    };
    assert_eq!(number(Form::Report, &runs(124)), 0);
    assert_eq!(number(Form::Report, &runs(125)), 5);
}

#[test]
fn row_6_node() {
    assert_eq!(changed_report(|c| c.node = 7), 6);
    assert_eq!(changed_report(|c| c.node = u32::MAX), 6);
    assert_eq!(changed_order(|c| c.node = 32), 6);
}

#[test]
fn row_7_view_and_members() {
    assert_eq!(changed_report(|c| c.view = 0), 7);
    assert_eq!(changed_report(|c| c.view = u32::MAX), 7);
    assert_eq!(changed_report(|c| c.view = u32::MAX - 1), 0);
    assert_eq!(changed_order(|c| c.view = 1), 7);
    assert_eq!(changed_order(|c| c.view = u32::MAX), 0);
    assert_eq!(changed_report(|c| c.members = 255), 7);
    assert_eq!(changed_report(|c| c.members = 125), 7);
}

#[test]
fn row_8_next_index() {
    let with_next = |record: usize, next: u32| {
        let mut words = encode(&report());
        words[4 * record + 3] = next;
        said(Form::Report, &words)
    };
    assert_eq!(with_next(2, 2), "number 8 2");
    assert_eq!(with_next(2, 1), "number 8 2");
    assert_eq!(with_next(4, 5), "number 8 4");
    assert_eq!(with_next(4, u32::MAX), "number 8 4");
    assert_eq!(with_next(0, 200), "number 8 0");
    // The chain ends before the run: still a report.
    assert_eq!(with_next(3, 0), "");
    // The chain ends before a shard's members.
    assert_eq!(with_next(2, 0), "number 17 2");
    assert_eq!(with_next(0, 0), "number 17 0");
}

/// A message cut short between records names the last one that is left.
#[test]
fn row_8_of_a_cut_message() {
    let words = encode(&report());
    for records in 1..5 {
        let said = said(Form::Report, &words[..4 * records]);
        assert_eq!(said, format!("number 8 {}", records - 1));
    }
    // The head's next index is 3, so it is the head that names too much.
    let mut words = with_gap();
    words[3] = 3;
    assert_eq!(said(Form::Report, &words[..12]), "number 8 0");
}

/// The records of `report` at 0, 1, 2, 4 and 5, with garbage at 3 and 6.
#[rustfmt::skip]
fn with_gap() -> [u32; 28] {
    [
        1, 7, 127, 1,
        256, 5, 0, 2,
        257, 82, 0, 4,
        9 * 256, 7, 7, 1,
        258, 32, 0, 5,
        769, 7, 5, 0,
        u32::MAX, 0, 0, u32::MAX,
    ]
}

#[test]
fn records_off_the_chain_carry_nothing() {
    let mut words = with_gap();
    assert_eq!(read_words(Form::Report, &words), Ok(report()));
    words[2 * 4 + 3] = 3;
    words[3 * 4 + 3] = 4;
    assert_eq!(said(Form::Report, &words), "number 9 3");
}

/// The index is the record's in the message, not its place on the chain.
#[test]
fn indexes_behind_a_gap() {
    let with = |index: usize, word: u32| {
        let mut words = with_gap();
        words[index] = word;
        said(Form::Report, &words)
    };
    assert_eq!(with(4 * 5, 9 * 256), "number 9 5");
    assert_eq!(with(4 * 5, 3 * 256 + 3), "number 16 5");
    assert_eq!(
        with(4 * 5, 258),
        "number 9 5",
        "a word 2 that should be zero"
    );
    assert_eq!(with(4 * 4, 257), "number 17 4", "a repeat");
    assert_eq!(with(4 * 4, 2 * 256), "number 17 5", "masks are missing");
    assert_eq!(with(4 * 5 + 3, 5), "number 8 5");
    assert_eq!(with(4 * 4 + 3, 4), "number 8 4");
}

#[test]
fn row_9_kind_and_word_2() {
    assert_eq!(
        report_says(|c| c.records[3].word0 = 9 * 256 + 1),
        "number 9 4"
    );
    assert_eq!(report_says(|c| c.records[0].word0 = 0), "number 9 1");
    let large = 65536 + 3 * 256;
    assert_eq!(report_says(|c| c.records[3].word0 = large), "number 9 4");
    assert_eq!(report_says(|c| c.records[3].word0 = 4 * 256), "number 9 4");
    assert_eq!(report_says(|c| c.records[3].word0 = 5 * 256), "number 9 4");
    assert_eq!(
        order_says(|c| c.records[6].word0 = 3 * 256 + 1),
        "number 9 7"
    );
    assert_eq!(report_says(|c| c.records[1].word2 = 1), "number 9 2");
    assert_eq!(order_says(|c| c.records[6].word2 = 1), "number 9 7");
    // Kind and word 2 are one number: the first record speaks.
    let both = |kind: usize, word_2: usize| {
        report_says(|c| {
            c.records[kind].word0 = 9 * 256;
            c.records[word_2].word2 = 1;
        })
    };
    assert_eq!(both(3, 2), "number 9 3");
    assert_eq!(both(0, 2), "number 9 1");
}

#[test]
fn number_16_shard() {
    assert_eq!(
        report_says(|c| c.records[3].word0 = 3 * 256 + 3),
        "number 16 4"
    );
    assert_eq!(
        report_says(|c| c.records[3].word0 = 3 * 256 + 255),
        "number 16 4"
    );
    assert_eq!(report_says(|c| c.records[0].word0 = 256 + 3), "number 16 1");
    assert_eq!(
        order_says(|c| c.records[7].word0 = 5 * 256 + 3),
        "number 16 8"
    );
    // A later 9 comes before it, a 17 in front of it after it.
    let with = |word0: u32| {
        report_says(|c| {
            c.records[0].word0 = 256 + 3;
            c.records[3].word0 = word0;
        })
    };
    assert_eq!(with(9 * 256), "number 9 4");
    assert_eq!(with(3 * 256 + 4), "number 16 1");
    let behind = report_says(|c| {
        c.records.swap(0, 1);
        c.records[3].word0 = 3 * 256 + 3;
    });
    assert_eq!(behind, "number 16 4");
}

#[test]
fn number_17_sequence_and_repeats() {
    let with = |record: Triple| report_says(|c| c.records.push(record));
    assert_eq!(report_says(|c| c.records.swap(0, 1)), "number 17 2");
    assert_eq!(with(triple(RUN, 0, 1, 1)), "number 17 5");
    assert_eq!(with(triple(RUN, 1, 7, 6)), "number 17 5");
    assert_eq!(with(triple(RUN, 1, 6, 6)), "number 17 5");
    assert_eq!(with(triple(RUN, 2, 1, 1)), "");
    // The first of two, and before the mask that is missing.
    let two = report_says(|c| {
        c.records
            .extend([triple(RUN, 1, 7, 6), triple(RUN, 1, 7, 7)]);
        c.records.remove(1);
    });
    assert_eq!(two, "number 17 4");
}

#[test]
fn number_17_missing() {
    assert_eq!(report_says(|c| without(c, 1)), "number 17 3");
    assert_eq!(report_says(|c| c.records.truncate(2)), "number 17 2");
    assert_eq!(report_says(|c| c.records.clear()), "number 17 0");
    // Kind 2 for some shards: the others are missing, and the run is the last.
    let positions = |count: usize| {
        let mut contents = with_termination();
        contents.records.drain(3 + count..6);
        refusal(Form::Report, &contents).map(|refusal| refusal.to_string())
    };
    assert_eq!(positions(0), None);
    assert_eq!(positions(1), Some("number 17 5".into()));
    assert_eq!(positions(2), Some("number 17 6".into()));
    assert_eq!(positions(3), None);
    assert_eq!(order_says(|c| without(c, 4)), "number 17 7");
    assert_eq!(order_says(|c| drop(c.records.drain(3..6))), "number 17 5");
    assert_eq!(order_says(|c| without(c, 6)), "number 17 7");
    assert_eq!(order_says(|c| without(c, 7)), "number 17 7");
    assert_eq!(order_says(|c| c.records.clear()), "number 17 0");
}

#[test]
fn number_17_surplus() {
    let with = |place: usize, record: Triple| order_says(|c| c.records.insert(place, record));
    assert_eq!(with(8, triple(CUT, 2, 0, 0)), "number 17 9");
    assert_eq!(with(7, triple(HOLDER, 2, 1, 0)), "number 17 8");
    assert_eq!(with(6, triple(HOLDER, 0, 1, 0)), "number 17 7");
    // Before all masks it is surplus whatever they say.
    assert_eq!(with(0, triple(HOLDER, 1, 1, 0)), "number 17 1");
    // The mask of its shard behind it does not count.
    let early = order_says(|c| {
        c.records.swap(1, 6);
    });
    assert_eq!(early, "number 17 2");
    // The recipient carries no shard.
    let none = |records: usize| {
        order_says(|c| {
            c.records.truncate(records);
            c.records[1].word1 = 34;
        })
    };
    assert_eq!(none(6), "");
    assert_eq!(none(7), "number 17 7");
}

/// A missing record is told at the last one; a surplus one before it speaks
/// first.
#[test]
fn number_17_surplus_and_missing() {
    let both = order_says(|c| {
        c.records.remove(7);
        c.records.insert(6, triple(HOLDER, 0, 1, 0));
    });
    assert_eq!(both, "number 17 7");
}

#[test]
fn row_10_shard_masks() {
    assert_eq!(changed_report(|c| c.records[1].word1 = 0), 10);
    assert_eq!(changed_report(|c| c.records[1].word1 = 128), 10);
    assert_eq!(changed_report(|c| c.records[1].word1 = 83), 10);
    assert_eq!(changed_report(|c| c.members = 95), 10);
    // Across subgroups a node may be shared.
    let mut settings = SETTINGS;
    settings[12] += 256;
    let mut contents = report();
    contents.records[1].word1 = 83;
    assert!(write(Form::Report, &settings, &contents, 512).is_ok());
}

#[test]
fn row_11_positions_and_runs() {
    let run =
        |view: u32, count: u32| changed_report(|c| c.records[3] = triple(RUN, 1, view, count));
    assert_eq!(run(7, 0), 11);
    assert_eq!(run(0, 5), 11);
    assert_eq!(run(8, 1), 11);
    assert_eq!(run(1, u32::MAX), 0);
    let position = |view: u32, k: u32| {
        let mut contents = with_termination();
        contents.records[4] = triple(TERMINATION, 1, view, k);
        number(Form::Report, &contents)
    };
    assert_eq!(position(0, 3), 11);
    assert_eq!(position(3, 0), 11);
    assert_eq!(position(8, 1), 11);
    assert_eq!(position(0, 0), 0);
}

#[test]
fn row_11_of_an_order() {
    assert_eq!(changed_order(|c| c.records[6].word1 = 6), 11);
    assert_eq!(changed_order(|c| c.records[6].word1 = 32), 11);
    // The holder need not be a member of the shard.
    assert_eq!(changed_order(|c| c.records[6].word1 = 0), 0);
    assert_eq!(changed_order(|c| c.records[7].word1 = 8), 11);
    assert_eq!(changed_order(|c| c.records[7].word2 = 0), 11);
    assert_eq!(changed_order(|c| c.records[4].word1 = 8), 11);
    assert_eq!(changed_order(|c| c.records[4].word1 = 7), 0);
}

#[test]
fn the_row_s_place_decides_between_two_faults() {
    // Kind 9 early and a bad next index late: 8.
    let mut words = encode(&report());
    words[4] = 9 * 256;
    words[4 * 4 + 3] = 9;
    assert_eq!(said(Form::Report, &words), "number 8 4");
    // A run of count 0 and an empty shard: 10.
    assert_eq!(
        changed_report(|c| {
            c.records[0].word1 = 0;
            c.records[3].word2 = 0;
        }),
        10
    );
    // An empty shard and a run twice: 17.
    let said_17 = report_says(|c| {
        c.records[0].word1 = 0;
        c.records.push(triple(RUN, 1, 7, 5));
    });
    assert_eq!(said_17, "number 17 5");
    // A bad view and a bad next index: 7.
    words[1] = 0;
    assert_eq!(said(Form::Report, &words), "number 7");
}

#[test]
fn zeros_after_a_message_change_nothing() {
    for (form, contents) in [(Form::Report, report()), (Form::Order, order())] {
        let slot = crate::words::padded(&encode(&contents), 512);
        assert_eq!(read_words(form, &slot), Ok(contents));
    }
}
