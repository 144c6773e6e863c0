//! The harness finds libraries that are wrong. Each stand-in below is the
//! reference with one fault; the comparison must see it.

use differential::expected::{self, Expected, BUFFER_BYTES};
use differential::lent::Place;
use differential::library::{Answer, Library, ACCEPTED};
use differential::messages::{self, Call, Desk};
use differential::mock::{self, Behaviour, Faithful};
use differential::records;
use reference::message::{self, Contents, Form, HOLDER, MEMBERS, RUN, TERMINATION};
use reference::settings::{self, Settings};
use reference::words;

const SEED: u64 = 20_261_115;
const COUNT: u64 = 20_000;

/// The number of inputs up to the first that differs, with what differs. The
/// pieces lie between guard bytes, not at their pages' ends.
fn found(library: &Library) -> Option<(u64, String)> {
    let mut desk = Desk::default();
    (0..COUNT).find_map(|index| {
        let mut input = messages::input(SEED, index);
        input.places = [Place::After(13); 3];
        let difference = messages::compare(library, &mut desk, &input).err();
        difference.map(|what| (index + 1, what))
    })
}

fn assert_found<B: Behaviour>() {
    let found = found(&mock::library::<B>());
    println!("{}: {found:?}", std::any::type_name::<B>());
    assert!(found.is_some(), "not found");
}

#[test]
fn the_reference_agrees_with_itself() {
    assert_eq!(found(&mock::library::<Faithful>()), None);
}

fn refusal(number: u32) -> Expected {
    Expected {
        answer: number,
        output: None,
    }
}

/// The contents that a reader took.
fn taken(expected: &Expected) -> Option<Contents> {
    let output = expected.output.as_ref()?;
    let length = (expected.answer - ACCEPTED) as usize;
    expected::words_contents(&words::whole_words(output)[..length])
}

/// Reads, but refuses with `number` what `bad` says.
fn read_stricter(
    form: Form,
    settings: &[u8],
    message: &[u8],
    buffer: usize,
    number: u32,
    bad: impl Fn(&Contents) -> bool,
) -> Expected {
    let expected = expected::read(form, settings, message, buffer);
    match taken(&expected) {
        Some(contents) if bad(&contents) => refusal(number),
        _ => expected,
    }
}

/// Writes contents that are refused with `number`, as they stand, if cured ones
/// would be accepted.
fn write_laxer(
    form: Form,
    settings: &[u8],
    contents: &[u8],
    number: u32,
    cure: impl Fn(&mut Contents),
) -> Expected {
    let faithful = expected::write(form, settings, contents, BUFFER_BYTES);
    let Some(contents) = expected::words_contents(&words::whole_words(contents)) else {
        return faithful;
    };
    let mut cured = contents.clone();
    cure(&mut cured);
    let cured = words::to_bytes(&expected::contents_words(&cured));
    let cured = expected::write(form, settings, &cured, BUFFER_BYTES);
    let refused = Answer::of(faithful.answer).number() == Some(number);
    if !refused || cured.output.is_none() {
        return faithful;
    }
    let written = message::encode(&contents);
    Expected {
        answer: ACCEPTED + written.len() as u32,
        output: Some(words::to_bytes(&words::padded(&written, 512))),
    }
}

/// Takes two runs of one shard and view.
struct EqualRunViews;

impl Behaviour for EqualRunViews {
    fn write(form: Form, settings: &[u8], contents: &[u8], buffer: usize) -> Expected {
        if buffer != BUFFER_BYTES {
            return refusal(1);
        }
        write_laxer(form, settings, contents, 17, |contents| {
            contents
                .records
                .dedup_by(|a, b| a.kind() == RUN && a.word0 == b.word0 && a.word1 == b.word1)
        })
    }
}

#[test]
fn equal_run_views() {
    assert_found::<EqualRunViews>();
}

/// Takes a termination of some shards only.
struct PartTermination;

impl Behaviour for PartTermination {
    fn write(form: Form, settings: &[u8], contents: &[u8], buffer: usize) -> Expected {
        if buffer != BUFFER_BYTES {
            return refusal(1);
        }
        write_laxer(form, settings, contents, 17, |contents| {
            contents
                .records
                .retain(|record| record.kind() != TERMINATION)
        })
    }
}

#[test]
fn part_of_a_termination() {
    assert_found::<PartTermination>();
}

/// Takes the position (0, k).
struct ViewlessPosition;

impl Behaviour for ViewlessPosition {
    fn write(form: Form, settings: &[u8], contents: &[u8], buffer: usize) -> Expected {
        if buffer != BUFFER_BYTES {
            return refusal(1);
        }
        write_laxer(form, settings, contents, 11, |contents| {
            for record in &mut contents.records {
                if record.kind() == TERMINATION && record.word1 == 0 {
                    record.word2 = 0;
                }
            }
        })
    }
}

#[test]
fn a_position_without_a_view() {
    assert_found::<ViewlessPosition>();
}

/// Wants the holder to be a member of the shard.
struct HolderInShard;

impl Behaviour for HolderInShard {
    fn read(form: Form, settings: &[u8], message: &[u8], buffer: usize) -> Expected {
        read_stricter(form, settings, message, buffer, 11, |contents| {
            contents.of_kind(HOLDER).iter().any(|record| {
                !reference::mask::has(contents.shard_mask(record.shard()), record.word1)
            })
        })
    }
}

#[test]
fn a_holder_outside_the_shard() {
    assert_found::<HolderInShard>();
}

/// Refuses the greatest view of an order.
struct NoLastView;

impl Behaviour for NoLastView {
    fn read(form: Form, settings: &[u8], message: &[u8], buffer: usize) -> Expected {
        read_stricter(form, settings, message, buffer, 7, |contents| {
            contents.view == u32::MAX
        })
    }
}

#[test]
fn the_last_view() {
    assert_found::<NoLastView>();
}

/// Refuses a report that uses all 128 records.
struct NoFullMessage;

impl Behaviour for NoFullMessage {
    fn write(form: Form, settings: &[u8], contents: &[u8], buffer: usize) -> Expected {
        let expected = expected::write(form, settings, contents, buffer);
        if expected.answer == ACCEPTED + 512 {
            return refusal(5);
        }
        expected
    }
}

#[test]
fn a_full_message() {
    assert_found::<NoFullMessage>();
}

/// Looks at records off the chain.
struct OffTheChain;

impl Behaviour for OffTheChain {
    fn read(form: Form, settings: &[u8], message: &[u8], buffer: usize) -> Expected {
        let records = words::whole_words(message).len() / 4;
        read_stricter(form, settings, message, buffer, 9, |contents| {
            contents.records.len() + 1 < records
        })
    }
}

#[test]
fn records_off_the_chain() {
    assert_found::<OffTheChain>();
}

/// Gives row 9 before row 8: a wrong kind in the head's successor.
struct KindBeforeNext;

impl Behaviour for KindBeforeNext {
    fn read(form: Form, settings: &[u8], message: &[u8], buffer: usize) -> Expected {
        let expected = expected::read(form, settings, message, buffer);
        let words = words::whole_words(message);
        let second = words.get(3).map_or(0, |&next| next as usize);
        let word0 = words.get(second.saturating_mul(4)).copied();
        let refused = Answer::of(expected.answer).number() == Some(8);
        if refused && second != 0 && word0.is_some_and(|word| word / 256 != 1) {
            return refusal(9);
        }
        expected
    }
}

#[test]
fn the_order_of_rows() {
    assert_found::<KindBeforeNext>();
}

/// Wants the shards of all subgroups to be disjoint.
struct OneSubgroup;

impl Behaviour for OneSubgroup {
    fn read(form: Form, settings: &[u8], message: &[u8], buffer: usize) -> Expected {
        let mut all = words::whole_words(settings);
        if expected::check_settings(settings) == 0 {
            let first = 4 + all[0] as usize;
            all[first..].iter_mut().for_each(|word| *word %= 256);
            return expected::read(form, &words::to_bytes(&all), message, buffer);
        }
        expected::read(form, settings, message, buffer)
    }
}

#[test]
fn sharing_across_subgroups() {
    assert_found::<OneSubgroup>();
}

/// Takes only a byte of the subgroup.
struct ByteSubgroup;

impl Behaviour for ByteSubgroup {
    fn check_settings(settings: &[u8]) -> u32 {
        let mut all = words::whole_words(settings);
        let nodes = all.first().copied().unwrap_or(0) as usize;
        let shards = all.iter_mut().skip(nodes.saturating_add(4));
        shards.for_each(|word| *word %= 65536);
        if settings.len() == 4 * all.len() {
            return expected::check_settings(&words::to_bytes(&all));
        }
        2
    }
}

#[test]
fn a_subgroup_of_more_than_a_byte() {
    assert_found::<ByteSubgroup>();
}

/// Leaves the end of the buffer as it was.
struct NoZeros;

impl Behaviour for NoZeros {
    fn read(form: Form, settings: &[u8], message: &[u8], buffer: usize) -> Expected {
        let mut expected = expected::read(form, settings, message, buffer);
        if let Some(output) = &mut expected.output {
            output.truncate((expected.answer - ACCEPTED) as usize * 4);
        }
        expected
    }
}

#[test]
fn zeros_at_the_end() {
    assert_found::<NoZeros>();
}

/// Writes into the buffer of a refused call.
struct WritesRefused;

impl Behaviour for WritesRefused {
    fn write(form: Form, settings: &[u8], contents: &[u8], buffer: usize) -> Expected {
        let mut expected = expected::write(form, settings, contents, buffer);
        if expected.answer == 11 {
            expected.output = Some(vec![1]);
        }
        expected
    }
}

#[test]
fn a_refusal_that_writes() {
    assert_found::<WritesRefused>();
}

/// Writes a byte behind the buffer.
struct WritesBehind;

impl Behaviour for WritesBehind {
    fn read(form: Form, settings: &[u8], message: &[u8], buffer: usize) -> Expected {
        let mut expected = expected::read(form, settings, message, buffer);
        if let Some(output) = &mut expected.output {
            output.push(0);
        }
        expected
    }
}

#[test]
fn a_byte_behind_the_buffer() {
    assert_found::<WritesBehind>();
}

/// Changes the message it reads.
unsafe extern "C" fn read_and_change(
    settings: *const u8,
    settings_len: usize,
    message: *const u8,
    message_len: usize,
    buffer: *mut u8,
    buffer_len: usize,
) -> u32 {
    let read = mock::library::<Faithful>().read_report;
    let answer = read(
        settings,
        settings_len,
        message,
        message_len,
        buffer,
        buffer_len,
    );
    if message_len > 0 {
        *message.cast_mut() ^= 1;
    }
    answer
}

#[test]
fn a_changed_input() {
    let mut library = mock::library::<Faithful>();
    library.read_report = read_and_change;
    let (_, what) = found(&library).expect("not found");
    assert_eq!(what, "an input was changed");
}

/// What a stand-in with a fault in numbers 8, 9, 16 and 17 looks at: the records of the
/// chain with their indexes, and the answer.
struct Looked {
    form: Form,
    settings: Settings,
    contents: Contents,
    /// The index of each record on the chain.
    chain: Vec<usize>,
    number: u32,
    index: u32,
}

impl Looked {
    /// The same number at the record with this place on the chain.
    fn at(&self, place: usize) -> u32 {
        self.told(self.number, place)
    }

    fn told(&self, number: u32, place: usize) -> u32 {
        number + 256 * self.chain[place] as u32
    }

    /// The place of the record that the answer names.
    fn place(&self) -> usize {
        let place = self
            .chain
            .iter()
            .position(|&index| index == self.index as usize);
        place.expect("a record on the chain")
    }

    fn last(&self) -> usize {
        self.chain.len() - 1
    }

    /// The place of the first record that is bad.
    fn first(&self, bad: impl Fn(usize) -> bool) -> Option<usize> {
        (1..=self.last()).find(|&place| bad(place))
    }

    fn record(&self, place: usize) -> message::Triple {
        self.contents.records[place - 1]
    }

    fn row_16(&self) -> Option<usize> {
        message::row_16(&self.settings, &self.contents)
    }

    fn row_17(&self) -> Option<usize> {
        message::row_17(self.form, &self.settings, &self.contents)
    }

    /// Number 17 for a record that is missing.
    fn missing(&self) -> bool {
        let place = self.place();
        let wrong = place > 0
            && (message::out_of_sequence(&self.contents, place)
                || message::surplus(&self.contents, place));
        self.number == 17 && !wrong
    }
}

/// Gives another answer for a refusal with the index of a record.
fn told_otherwise(
    form: Form,
    settings: &[u8],
    expected: Expected,
    chain: Vec<usize>,
    contents: Contents,
    told: fn(&Looked) -> u32,
) -> Expected {
    match Answer::of(expected.answer) {
        Answer::Located(number, index) => refusal(told(&Looked {
            form,
            settings: settings::parse(&words::whole_words(settings)).expect("good settings"),
            contents,
            chain,
            number,
            index,
        })),
        _ => expected,
    }
}

/// Defines a stand-in that tells a refusal with an index otherwise, in reading
/// and in writing.
macro_rules! told {
    ($(#[$text:meta])* $name:ident, $test:ident, $told:expr) => {
        $(#[$text])*
        struct $name;

        impl Behaviour for $name {
            fn read(form: Form, settings: &[u8], message: &[u8], buffer: usize) -> Expected {
                let expected = expected::read(form, settings, message, buffer);
                if !matches!(Answer::of(expected.answer), Answer::Located(_, _)) {
                    return expected;
                }
                let words = words::whole_words(message);
                let chain = records::chain(&words);
                let contents = records::on_chain(&words, &chain);
                told_otherwise(form, settings, expected, chain, contents, $told)
            }

            fn write(form: Form, settings: &[u8], contents: &[u8], buffer: usize) -> Expected {
                let expected = expected::write(form, settings, contents, buffer);
                if !matches!(Answer::of(expected.answer), Answer::Located(_, _)) {
                    return expected;
                }
                let words = words::whole_words(contents);
                let contents = expected::words_contents(&words).expect("contents");
                let chain = (0..=contents.records.len()).collect();
                told_otherwise(form, settings, expected, chain, contents, $told)
            }
        }

        #[test]
        fn $test() {
            assert_found::<$name>();
        }
    };
}

told!(
    /// Gives the place on the chain for the index in the message.
    PlaceForIndex,
    a_place_on_the_chain_for_an_index,
    |looked| looked.number + 256 * looked.place() as u32
);

told!(
    /// Counts records from the first after the head.
    HeadNotCounted,
    records_counted_without_the_head,
    |looked| looked.number + 256 * looked.index.saturating_sub(1)
);

told!(
    /// Gives no index.
    NoIndex,
    a_number_without_its_index,
    |looked| looked.number
);

told!(
    /// Tells kind, shard and sequence as one.
    OneNine,
    kind_shard_and_sequence_as_one,
    |looked| match looked.number {
        16 | 17 => 9 + 256 * looked.index,
        number => number + 256 * looked.index,
    }
);

told!(
    /// Tells a shard from S up as a wrong kind.
    ShardAsKind,
    a_shard_told_as_a_kind,
    |looked| match looked.number {
        16 => 9 + 256 * looked.index,
        number => number + 256 * looked.index,
    }
);

told!(
    /// Names the earlier record of a pair out of sequence.
    EarlierOfPair,
    the_earlier_record_of_a_pair,
    |looked| {
        let place = looked.place();
        match looked.number {
            17 if place > 0 && message::out_of_sequence(&looked.contents, place) => {
                looked.at(place - 1)
            }
            _ => looked.at(place),
        }
    }
);

told!(
    /// Names the head for a missing record.
    MissingAtHead,
    a_missing_record_told_at_the_head,
    |looked| looked.at(if looked.missing() { 0 } else { looked.place() })
);

told!(
    /// Names the last mask for a missing mask.
    MissingAtMasks,
    a_missing_mask_told_at_the_last_mask,
    |looked| {
        let masks = looked.contents.of_kind(MEMBERS).len();
        let lacks = masks < looked.settings.shards as usize;
        looked.at(if looked.missing() && lacks { masks } else { looked.place() })
    }
);

told!(
    /// Names the last kind 2 where others are missing.
    PartAtTermination,
    a_part_of_a_termination_told_at_its_end,
    |looked| {
        let is_position = |place: usize| looked.record(place).kind() == TERMINATION;
        let last = (1..=looked.last()).rfind(|&place| is_position(place));
        let part = looked.contents.of_kind(TERMINATION).len();
        let lacks = part > 0 && part < looked.settings.shards as usize;
        match last {
            Some(last) if looked.missing() && lacks => looked.at(last),
            _ => looked.at(looked.place()),
        }
    }
);

told!(
    /// Asks for missing records before surplus ones and the sequence.
    MissingFirst,
    a_missing_record_before_the_sequence,
    |looked| {
        let lacks = |shard| looked.contents.find(MEMBERS, shard).is_none();
        let missing = (0..looked.settings.shards).any(lacks);
        match looked.number {
            17 if missing => looked.at(looked.last()),
            _ => looked.at(looked.place()),
        }
    }
);

told!(
    /// Lets a mask anywhere give the recipient a shard.
    LaterMasks,
    a_mask_behind_the_holder,
    |looked| {
        let given = |place: usize| {
            let mask = looked.contents.shard_mask(looked.record(place).shard());
            reference::mask::has(mask, looked.contents.node)
        };
        let bad = |place: usize| {
            message::out_of_sequence(&looked.contents, place)
                || message::surplus(&looked.contents, place) && !given(place)
        };
        match looked.number {
            17 => looked.at(looked.first(bad).unwrap_or(looked.last())),
            _ => looked.at(looked.place()),
        }
    }
);

told!(
    /// Tells surplus records after all that is out of sequence.
    SequenceFirst,
    the_sequence_before_surplus_records,
    |looked| {
        let bad = |place: usize| message::out_of_sequence(&looked.contents, place);
        match (looked.number, looked.first(bad)) {
            (17, Some(place)) => looked.at(place),
            _ => looked.at(looked.place()),
        }
    }
);

told!(
    /// Asks for words 2 after all kinds.
    WordTwoLast,
    words_2_after_all_kinds,
    |looked| {
        let kinds: &[u32] = match looked.form {
            Form::Report => &[1, 2, 3],
            Form::Order => &[1, 2, 4, 5],
        };
        let bad = |place: usize| !kinds.contains(&looked.record(place).kind());
        match (looked.number, looked.first(bad)) {
            (9, Some(place)) => looked.at(place),
            _ => looked.at(looked.place()),
        }
    }
);

told!(
    /// Names the last bad record rather than the first.
    LastBad,
    the_last_bad_record,
    |looked| {
        let bad = |place: &usize| message::out_of_sequence(&looked.contents, *place);
        match (looked.number, (1..=looked.last()).rfind(bad)) {
            (17, Some(place)) => looked.at(place),
            _ => looked.at(looked.place()),
        }
    }
);

told!(
    /// Gives 16 before 9.
    ShardFirst,
    a_shard_before_a_kind,
    |looked| match (looked.number, looked.row_16()) {
        (9, Some(place)) => looked.told(16, place),
        _ => looked.at(looked.place()),
    }
);

told!(
    /// Gives 17 before 16.
    SequenceBeforeShard,
    a_sequence_before_a_shard,
    |looked| match (looked.number, looked.row_17()) {
        (16, Some(place)) => looked.told(17, place),
        _ => looked.at(looked.place()),
    }
);

told!(
    /// Lets the first bad record speak whatever its number.
    FirstRecord,
    the_first_bad_record_of_any_number,
    |looked| {
        let rows = [(16, looked.row_16()), (17, looked.row_17())];
        let earlier = rows.into_iter().find_map(|(number, place)| {
            let place = place.filter(|&place| place < looked.place())?;
            Some(looked.told(number, place))
        });
        match looked.number {
            9 => earlier.unwrap_or(looked.at(looked.place())),
            _ => looked.at(looked.place()),
        }
    }
);

/// Gives the index that a record names, with 8.
struct NamedIndex;

impl Behaviour for NamedIndex {
    fn read(form: Form, settings: &[u8], message: &[u8], buffer: usize) -> Expected {
        let expected = expected::read(form, settings, message, buffer);
        match Answer::of(expected.answer) {
            Answer::Located(8, index) => {
                let named = words::whole_words(message)[4 * index as usize + 3];
                refusal(8 + 256 * (named % 128))
            }
            _ => expected,
        }
    }
}

#[test]
fn the_index_that_is_named() {
    assert_found::<NamedIndex>();
}

/// Gives an index with a number that has none.
struct IndexOfRun;

impl Behaviour for IndexOfRun {
    fn read(form: Form, settings: &[u8], message: &[u8], buffer: usize) -> Expected {
        let expected = expected::read(form, settings, message, buffer);
        match expected.answer {
            11 => refusal(11 + 256 * 4),
            _ => expected,
        }
    }
}

#[test]
fn an_index_with_another_number() {
    assert_found::<IndexOfRun>();
}

/// Rows 9, 16 and 17 as one.
fn old_row_9(form: Form, settings: &Settings, contents: &Contents) -> bool {
    let records = &contents.records;
    let kinds: &[u32] = match form {
        Form::Report => &[1, 2, 3],
        Form::Order => &[1, 2, 4, 5],
    };
    let key = |r: &message::Triple| (r.word0, if r.kind() == RUN { r.word1 } else { 0 });
    let has = |kind: u32, shard: u32| contents.find(kind, shard).is_some();
    let positions = contents.of_kind(TERMINATION).len() as u32;
    let carried = |shard: u32| {
        let carries = reference::mask::has(contents.shard_mask(shard), contents.node);
        has(4, shard) == carries && has(5, shard) == carries
    };
    records.iter().any(|r| !kinds.contains(&r.kind()))
        || records.iter().any(|r| r.kind() % 3 == 1 && r.word2 != 0)
        || records.iter().any(|r| r.shard() >= settings.shards)
        || records
            .windows(2)
            .any(|pair| key(&pair[0]) >= key(&pair[1]))
        || (0..settings.shards).any(|shard| !has(MEMBERS, shard))
        || positions != settings.shards && (positions != 0 || form == Form::Order)
        || form == Form::Order && !(0..settings.shards).all(carried)
}

/// Numbers 9, 16 and 17 together refuse what one row for all three would, and
/// no more.
#[test]
fn three_numbers_for_the_old_one() {
    let mut refused = 0;
    for index in 0..COUNT {
        let input = messages::input(SEED, index);
        let form = match input.call {
            Call::WriteReport => Form::Report,
            Call::WriteOrder => Form::Order,
            _ => continue,
        };
        let settings = settings::parse(&words::whole_words(&input.settings));
        let contents = expected::words_contents(&words::whole_words(&input.given));
        let (Ok(settings), Some(contents)) = (settings, contents) else {
            continue;
        };
        if contents.node >= 32 {
            continue;
        }
        let rows = [
            message::row_9(form, &contents),
            message::row_16(&settings, &contents),
            message::row_17(form, &settings, &contents),
        ];
        let bad = rows.iter().any(Option::is_some);
        assert_eq!(bad, old_row_9(form, &settings, &contents), "input {index}");
        refused += u32::from(bad);
    }
    assert!(refused > 1000, "{refused} refused");
}

/// A reader that swaps two functions.
#[test]
fn reports_and_orders_swapped() {
    let mut library = mock::library::<Faithful>();
    std::mem::swap(&mut library.read_report, &mut library.read_order);
    assert!(found(&library).is_some());
}

/// Each call's inputs are both accepted and refused.
#[test]
fn inputs_of_every_call() {
    let mut desk = Desk::default();
    let library = mock::library::<Faithful>();
    let mut seen = std::collections::BTreeSet::new();
    for index in 0..COUNT {
        let input = messages::input(SEED, index);
        let answer = messages::compare(&library, &mut desk, &input).unwrap();
        let number = Answer::of(answer).number();
        seen.insert((input.call, number.unwrap_or(ACCEPTED)));
    }
    for call in [Call::ReadReport, Call::ReadOrder] {
        for answer in [1, 2, 5, 6, 7, 8, 9, 10, 11, 16, 17, ACCEPTED] {
            assert!(seen.contains(&(call, answer)), "{call:?} {answer}");
        }
    }
    for call in [Call::WriteReport, Call::WriteOrder] {
        for answer in [1, 2, 5, 6, 7, 9, 10, 11, 16, 17, ACCEPTED] {
            assert!(seen.contains(&(call, answer)), "{call:?} {answer}");
        }
    }
}
