//! The comparison of flat reports finds libraries that are wrong. Each stand-in
//! below is the reference with one fault, which random inputs must show.

use differential::expected::{self, Expected, BUFFER_BYTES};
use differential::flat::{self, MOST_BYTES};
use differential::flat_huge;
use differential::flat_traps::explained_in_turns;
use differential::lent::Place;
use differential::library::{Answer, Library, ACCEPTED};
use differential::messages::{self, Call, Desk};
use differential::mock::{self, Behaviour, Faithful};
use differential::records;
use reference::flat::{Flat, FlatRun};
use reference::log::START;
use reference::message::{self, Form, MOST_RECORDS, MOST_WORDS};
use reference::settings::{self, Settings};
use reference::words;

const SEED: u64 = 20_261_117;
const COUNT: u64 = 20_000;

/// The number of inputs up to the first that differs, with what differs. The
/// pieces lie between guard bytes, not at their pages' ends.
fn found(library: &Library) -> Option<(u64, String)> {
    let mut desk = Desk::new(MOST_BYTES);
    (0..COUNT).find_map(|index| {
        let mut input = flat::input(SEED, index);
        input.places = [Place::After(13); 3];
        let difference = messages::compare(library, &mut desk, &input).err();
        difference.map(|what| (index + 1, what))
    })
}

fn assert_found<B: Behaviour>() {
    let found = found(&mock::library::<B>());
    println!("{}: {found:?}", std::any::type_name::<B>());
    assert!(found.is_some(), "not found");
}

#[test]
fn the_reference_agrees_with_itself() {
    assert_eq!(found(&mock::library::<Faithful>()), None);
}

fn refusal(answer: u32) -> Expected {
    Expected {
        answer,
        output: None,
    }
}

/// What a stand-in is lent, and what the reference says of it.
struct Lent<'a> {
    settings: &'a [u8],
    bytes: &'a [u8],
    buffer: usize,
    said: Expected,
}

impl Lent<'_> {
    fn words(&self) -> Vec<u32> {
        words::whole_words(self.bytes)
    }

    /// The flat report that the bytes are.
    fn flat(&self) -> Option<Flat> {
        Flat::parse(&words::from_bytes(self.bytes)?)
    }

    /// The settings, if the reference got past them.
    fn parsed(&self) -> Option<Settings> {
        settings::parse(&words::whole_words(self.settings)).ok()
    }

    fn number(&self) -> Option<u32> {
        Answer::of(self.said.answer).number()
    }

    /// The number and the index of the record.
    fn located(&self) -> Option<(u32, u32)> {
        match Answer::of(self.said.answer) {
            Answer::Located(number, index) => Some((number, index)),
            _ => None,
        }
    }

    /// The run that is the record with this index.
    fn run(&self, index: u32) -> Option<FlatRun> {
        let flat = self.flat()?;
        let first = flat.records() - flat.runs.len();
        let place = (index as usize).checked_sub(first)?;
        flat.runs.get(place).copied()
    }

    /// Converts other words to ours.
    fn turned(&self, words: &[u32]) -> Expected {
        expected::from_flat(self.settings, &words::to_bytes(words), self.buffer)
    }

    /// Converts the flat report with a change, where there is one.
    fn changed(&self, change: impl Fn(&mut Flat)) -> Expected {
        match self.flat() {
            Some(mut flat) => {
                change(&mut flat);
                self.turned(&flat.words())
            }
            None => self.said.clone(),
        }
    }

    /// Another answer where the condition holds.
    fn refused_if(&self, condition: bool, answer: u32) -> Expected {
        match condition {
            true => refusal(answer),
            false => self.said.clone(),
        }
    }
}

/// Defines a stand-in that turns a flat report into ours otherwise.
macro_rules! to_ours {
    ($(#[$text:meta])* $name:ident, $test:ident, $otherwise:expr) => {
        $(#[$text])*
        struct $name;

        impl Behaviour for $name {
            fn from_flat(settings: &[u8], bytes: &[u8], buffer: usize) -> Expected {
                let said = expected::from_flat(settings, bytes, buffer);
                let otherwise: fn(&Lent) -> Expected = $otherwise;
                otherwise(&Lent { settings, bytes, buffer, said })
            }
        }

        #[test]
        fn $test() {
            assert_found::<$name>();
        }
    };
}

/// Defines a stand-in that turns a report of ours into a flat one otherwise.
macro_rules! to_flat {
    ($(#[$text:meta])* $name:ident, $test:ident, $otherwise:expr) => {
        $(#[$text])*
        struct $name;

        impl Behaviour for $name {
            fn to_flat(settings: &[u8], bytes: &[u8], buffer: usize) -> Expected {
                let said = expected::to_flat(settings, bytes, buffer);
                let otherwise: fn(&Lent) -> Expected = $otherwise;
                otherwise(&Lent { settings, bytes, buffer, said })
            }
        }

        #[test]
        fn $test() {
            assert_found::<$name>();
        }
    };
}

// The length of a flat report.

to_ours!(
    /// Adds up the words modulo 2^32.
    TurnsOfWords,
    counts_of_words_that_wrap,
    |lent| {
        let wrapped = explained_in_turns(&lent.words(), 1);
        lent.refused_if(lent.number() == Some(19) && wrapped, 21)
    }
);

to_ours!(
    /// Adds up the bytes modulo 2^32.
    TurnsOfBytes,
    counts_of_bytes_that_wrap,
    |lent| {
        let wrapped = explained_in_turns(&lent.words(), 4);
        lent.refused_if(lent.number() == Some(19) && wrapped, 21)
    }
);

to_ours!(
    /// Takes no flat report of more than 512 words.
    OneMessageLong,
    a_flat_report_of_more_than_512_words,
    |lent| {
        let past_settings = !matches!(lent.number(), Some(1 | 2));
        lent.refused_if(past_settings && lent.words().len() > MOST_WORDS, 19)
    }
);

to_ours!(
    /// Gives row 5 for no words.
    NoWords,
    no_words_told_as_row_5,
    |lent| lent.refused_if(lent.number() == Some(19) && lent.bytes.is_empty(), 5)
);

to_ours!(
    /// Gives row 5 for a part word.
    PartWord,
    a_part_word_told_as_row_5,
    |lent| lent.refused_if(lent.number() == Some(19) && !lent.bytes.len().is_multiple_of(4), 5)
);

to_ours!(
    /// Drops a part word.
    PartWordDropped,
    a_part_word_dropped,
    |lent| lent.turned(&lent.words())
);

to_ours!(
    /// Takes words after the last triple.
    WordsLeft,
    words_left_over,
    |lent| {
        let words = lent.words();
        let mut shorter = (0..words.len()).rev().map(|length| &words[..length]);
        match shorter.find(|&words| Flat::parse(words).is_some()) {
            Some(words) if lent.number() == Some(19) => lent.turned(words),
            _ => lent.said.clone(),
        }
    }
);

to_ours!(
    /// Takes every word but 0 for a termination.
    AnyFlag,
    a_termination_word_above_1,
    |lent| {
        let mut words = lent.words();
        let flag = words.get(3).map_or(0, |&shards| 4 + shards as usize);
        match words.get_mut(flag) {
            Some(word) if lent.number() == Some(19) && *word > 1 => *word = 1,
            _ => return lent.said.clone(),
        }
        lent.turned(&words)
    }
);

to_ours!(
    /// Looks at the lowest byte of the termination word.
    FlagByte,
    a_termination_word_by_its_lowest_byte,
    |lent| {
        let mut words = lent.words();
        let flag = words.get(3).map_or(0, |&shards| 4 + shards as usize);
        match words.get_mut(flag) {
            Some(word) if lent.number() == Some(19) => *word %= 256,
            _ => return lent.said.clone(),
        }
        lent.turned(&words)
    }
);

to_ours!(
    /// Wants the S of the settings, else 19.
    SameShards,
    another_s_told_as_a_length,
    |lent| {
        let shards = lent.parsed().map_or(0, |settings| settings.shards);
        let other = |flat: Flat| flat.masks.len() != shards as usize;
        let past_settings = !matches!(lent.number(), Some(1 | 2));
        lent.refused_if(past_settings && lent.flat().is_some_and(other), 19)
    }
);

// The places of the numbers.

to_ours!(
    /// Gives 2 before 1.
    SettingsFirst,
    settings_before_the_buffer,
    |lent| lent.refused_if(lent.number() == Some(1) && lent.parsed().is_none(), 2)
);

to_ours!(
    /// Gives row 6 before 19.
    NodeFirst,
    the_node_before_the_length,
    |lent| {
        let nodes = lent.parsed().map_or(0, |settings| settings.nodes);
        let bad = lent.words().first().is_some_and(|&node| node >= nodes);
        lent.refused_if(lent.number() == Some(19) && bad, 6)
    }
);

to_ours!(
    /// Gives row 6 before 20.
    NodeBeforeZero,
    the_node_before_a_count_of_0,
    |lent| {
        let nodes = lent.parsed().map_or(0, |settings| settings.nodes);
        let bad = lent.words().first().is_some_and(|&node| node >= nodes);
        lent.refused_if(lent.number() == Some(20) && bad, 6)
    }
);

to_ours!(
    /// Gives 20 before 19: a count of 0 in the triples that are there.
    ZeroFirst,
    a_count_of_0_before_the_length,
    |lent| {
        let words = lent.words();
        let shards = words.get(3).map_or(0, |&shards| shards as usize);
        let flag = words.get(4 + shards).copied();
        let count_at = match flag {
            Some(0) => 5 + shards,
            Some(1) => 5 + 3 * shards,
            _ => return lent.said.clone(),
        };
        let triples = words.get(count_at + 1..).unwrap_or(&[]);
        let zero = triples.chunks_exact(3).any(|triple| triple[2] == 0);
        lent.refused_if(lent.number() == Some(19) && zero, 20)
    }
);

to_ours!(
    /// Gives 21 before 20.
    RecordsFirst,
    too_many_records_before_a_count_of_0,
    |lent| {
        let many = |flat: Flat| flat.records() > MOST_RECORDS;
        let many = lent.flat().is_some_and(many);
        lent.refused_if(lent.number() == Some(20) && many, 21)
    }
);

to_ours!(
    /// Gives 16 before 20, of a shard too large for a record.
    ShardBeforeZero,
    a_large_shard_before_a_count_of_0,
    |lent| {
        let flat = match (lent.number(), lent.flat()) {
            (Some(20), Some(flat)) => flat,
            _ => return lent.said.clone(),
        };
        let large = flat.runs.iter().position(|run| run.shard > 255);
        let index = large.map(|place| flat.records() - flat.runs.len() + place);
        match index {
            Some(index) if index < MOST_RECORDS => refusal(16 + 256 * index as u32),
            _ => lent.said.clone(),
        }
    }
);

to_ours!(
    /// Looks for a count of 0 in the first 127 triples only.
    FirstZeros,
    a_count_of_0_after_127_triples,
    |lent| {
        let late = |flat: Flat| flat.runs.iter().take(127).all(|run| run.count != 0);
        let late = lent.flat().is_some_and(late);
        lent.refused_if(lent.number() == Some(20) && late, 21)
    }
);

to_ours!(
    /// Gives 20 for a run of view 0.
    ZeroView,
    a_view_of_0_told_as_a_count,
    |lent| {
        let zero = |flat: Flat| flat.runs.iter().any(|run| run.view == 0);
        let zero = lent.flat().is_some_and(zero);
        lent.refused_if(lent.number() == Some(11) && zero, 20)
    }
);

to_ours!(
    /// Gives row 5 for more than 128 records.
    ManyAsRow5,
    too_many_records_told_as_row_5,
    |lent| lent.refused_if(lent.number() == Some(21), 5)
);

to_ours!(
    /// Does not take 128 records.
    NoFullReport,
    a_full_report,
    |lent| lent.refused_if(lent.said.answer == ACCEPTED + 512, 21)
);

to_ours!(
    /// Does not take the greatest view.
    NoLastView,
    the_last_view,
    |lent| {
        let last = lent.words().get(1) == Some(&(u32::MAX - 1));
        lent.refused_if(lent.said.output.is_some() && last, 7)
    }
);

// What is done with the runs and the masks.

to_ours!(
    /// Sorts the runs.
    Sorts,
    runs_that_are_sorted,
    |lent| lent.changed(|flat| flat.runs.sort_by_key(|run| (run.shard, run.view)))
);

to_ours!(
    /// Leaves out a triple with count 0.
    DropsZeros,
    triples_with_count_0_left_out,
    |lent| lent.changed(|flat| flat.runs.retain(|run| run.count != 0))
);

to_ours!(
    /// Takes one of two runs of a shard and view.
    OneOfTwo,
    one_of_two_runs,
    |lent| {
        lent.changed(|flat| {
            let key = |run: &mut FlatRun| (run.shard, run.view);
            flat.runs.dedup_by_key(key)
        })
    }
);

to_ours!(
    /// Leaves out runs of shards that the settings do not have.
    DropsShards,
    runs_of_other_shards_left_out,
    |lent| match (lent.number(), lent.parsed()) {
        (Some(16), Some(settings)) =>
            lent.changed(|flat| flat.runs.retain(|run| run.shard < settings.shards)),
        _ => lent.said.clone(),
    }
);

to_ours!(
    /// Takes the lowest byte of a shard.
    LowByte,
    the_lowest_byte_of_a_shard,
    |lent| lent.changed(|flat| flat.runs.iter_mut().for_each(|run| run.shard %= 256))
);

to_ours!(
    /// Takes the lowest two bytes of a shard.
    LowHalf,
    the_lowest_half_of_a_shard,
    |lent| lent.changed(|flat| flat.runs.iter_mut().for_each(|run| run.shard %= 65536))
);

to_ours!(
    /// Adds a large shard to the kind.
    Spills,
    a_shard_that_spills_into_the_kind,
    |lent| match lent.located() {
        Some((16, index)) => {
            let large = lent.run(index).is_some_and(|run| run.shard > 255);
            lent.refused_if(large, 9 + 256 * index)
        }
        _ => lent.said.clone(),
    }
);

to_ours!(
    /// Takes a termination of zeros for none.
    NoZeroTermination,
    a_termination_of_zeros,
    |lent| {
        lent.changed(|flat| {
            let zeros = |all: &Vec<_>| all.iter().all(|&position| position == START);
            flat.positions.take_if(|positions| zeros(positions));
        })
    }
);

to_ours!(
    /// Leaves out the masks from the settings' S up.
    MasksDropped,
    masks_from_s_up_left_out,
    |lent| match (lent.number(), lent.parsed()) {
        (Some(16), Some(settings)) => lent.changed(|flat| {
            let shards = settings.shards as usize;
            flat.masks.truncate(shards);
            flat.positions.iter_mut().for_each(|all| all.truncate(shards));
        }),
        _ => lent.said.clone(),
    }
);

// The index of a record.

to_ours!(
    /// Counts records from the first after the head.
    HeadNotCounted,
    records_counted_without_the_head,
    |lent| match lent.located() {
        Some((number, index)) => refusal(number + 256 * index.saturating_sub(1)),
        None => lent.said.clone(),
    }
);

to_ours!(
    /// Counts runs from the first run.
    RunsAlone,
    runs_counted_alone,
    |lent| match (lent.located(), lent.flat()) {
        (Some((number, index)), Some(flat)) if lent.run(index).is_some() => {
            let first = (flat.records() - flat.runs.len()) as u32;
            refusal(number + 256 * (index - first))
        }
        _ => lent.said.clone(),
    }
);

to_ours!(
    /// Names the earlier of two runs out of sequence.
    EarlierRun,
    the_earlier_of_two_runs,
    |lent| match (lent.located(), lent.flat()) {
        (Some((17, index)), Some(flat))
            if index > 0 && message::out_of_sequence(&flat.contents(), index as usize) =>
        {
            refusal(17 + 256 * (index - 1))
        }
        _ => lent.said.clone(),
    }
);

to_ours!(
    /// Names the last mask where one is missing.
    MissingAtMasks,
    a_missing_mask_told_at_the_last_mask,
    |lent| match (lent.located(), lent.flat(), lent.parsed()) {
        (Some((17, index)), Some(flat), Some(settings)) => {
            let lacks = flat.masks.len() < settings.shards as usize;
            let last = index as usize + 1 == flat.records();
            lent.refused_if(lacks && last, 17 + 256 * flat.masks.len() as u32)
        }
        _ => lent.said.clone(),
    }
);

to_ours!(
    /// Names the position for a mask too many.
    SurplusAtPosition,
    a_mask_too_many_told_at_its_position,
    |lent| match (lent.located(), lent.flat()) {
        (Some((16, index)), Some(flat)) if flat.positions.is_some() => {
            let masks = flat.masks.len() as u32;
            lent.refused_if(index <= masks, 16 + 256 * (index + masks))
        }
        _ => lent.said.clone(),
    }
);

// What is left in the buffer, and told of it.

to_ours!(
    /// Leaves the end of the buffer as it was.
    NoZeros,
    zeros_at_the_end,
    |lent| {
        let mut said = lent.said.clone();
        let length = said.answer.wrapping_sub(ACCEPTED) as usize * 4;
        said.output.iter_mut().for_each(|output| output.truncate(length));
        said
    }
);

to_ours!(
    /// Writes into the buffer of a refused call.
    WritesRefused,
    a_refusal_that_writes,
    |lent| Expected {
        answer: lent.said.answer,
        output: match lent.number() {
            Some(17) => Some(vec![1]),
            _ => lent.said.output.clone(),
        },
    }
);

to_ours!(
    /// Writes a byte behind the buffer.
    WritesBehind,
    a_byte_behind_the_buffer,
    |lent| {
        let mut said = lent.said.clone();
        said.output.iter_mut().for_each(|output| output.push(0));
        said
    }
);

to_ours!(
    /// Tells the length of the flat report.
    FlatsLength,
    the_length_of_the_flat_report,
    |lent| Expected {
        answer: match lent.said.output {
            Some(_) => ACCEPTED + lent.words().len() as u32,
            None => lent.said.answer,
        },
        output: lent.said.output.clone(),
    }
);

to_ours!(
    /// Lets the last record name the one after it.
    NoLastRecord,
    a_last_record_that_names_another,
    |lent| {
        let mut said = lent.said.clone();
        let length = said.answer.wrapping_sub(ACCEPTED) as usize * 4;
        if let Some(output) = &mut said.output {
            output[length - 4] = (length / 16) as u8;
        }
        said
    }
);

// Back.

to_flat!(
    /// Takes orders.
    TakesOrders,
    orders_turned_into_flat_reports,
    |lent| {
        let settings = words::whole_words(lent.settings);
        match message::read(Form::Order, &settings, &lent.words()) {
            Ok(contents) if lent.said.output.is_none() && lent.buffer == BUFFER_BYTES => {
                let flat = Flat::of(&contents).words();
                Expected {
                    answer: ACCEPTED + flat.len() as u32,
                    output: Some(words::to_bytes(&words::padded(&flat, MOST_WORDS))),
                }
            }
            _ => lent.said.clone(),
        }
    }
);

to_flat!(
    /// Takes the records as they lie.
    AsTheyLie,
    records_off_the_chain,
    |lent| {
        let mut words = lent.words();
        let records = words.len() / 4;
        for index in 0..records {
            words[4 * index + 3] = if index + 1 < records { index as u32 + 1 } else { 0 };
        }
        expected::to_flat(lent.settings, &words::to_bytes(&words), lent.buffer)
    }
);

to_flat!(
    /// Gives the place on the chain for the index in the message.
    PlaceForIndex,
    a_place_on_the_chain_for_an_index,
    |lent| match lent.located() {
        Some((number, index)) => {
            let chain = records::chain(&lent.words());
            let place = chain.iter().position(|&other| other == index as usize);
            refusal(number + 256 * place.unwrap_or(0) as u32)
        }
        None => lent.said.clone(),
    }
);

to_flat!(
    /// Leaves out a termination of zeros.
    ZeroTerminationLost,
    a_termination_of_zeros_lost,
    |lent| changed_output(lent, |flat| {
        let zeros = |all: &Vec<_>| all.iter().all(|&position| position == START);
        flat.positions.take_if(|positions| zeros(positions));
    })
);

to_flat!(
    /// Writes a termination of zeros where there is none.
    ZeroTerminationMade,
    a_termination_of_zeros_made,
    |lent| changed_output(lent, |flat| {
        let zeros = vec![START; flat.masks.len()];
        flat.positions.get_or_insert(zeros);
    })
);

to_flat!(
    /// Gives 19 for a message's length.
    LengthAs19,
    a_message_s_length_told_as_19,
    |lent| lent.refused_if(lent.number() == Some(5), 19)
);

to_flat!(
    /// Gives 21 where the writer would give row 5.
    FullAs21,
    a_full_message_not_turned_back,
    |lent| {
        let full = lent.said.output.is_some() && records::chain(&lent.words()).len() == MOST_RECORDS;
        lent.refused_if(full, 21)
    }
);

to_flat!(
    /// Tells the length of the message.
    MessagesLength,
    the_length_of_the_message,
    |lent| Expected {
        answer: match lent.said.output {
            Some(_) => ACCEPTED + lent.words().len() as u32,
            None => lent.said.answer,
        },
        output: lent.said.output.clone(),
    }
);

to_flat!(
    /// Leaves the end of the buffer as it was.
    NoZerosBack,
    zeros_at_the_end_of_a_flat_report,
    |lent| {
        let mut said = lent.said.clone();
        let length = said.answer.wrapping_sub(ACCEPTED) as usize * 4;
        said.output.iter_mut().for_each(|output| output.truncate(length));
        said
    }
);

to_flat!(
    /// Does not take a message with zeros after it.
    NoSlots,
    a_message_of_a_slot,
    |lent| {
        let words = lent.words();
        let taken = lent.said.output.is_some();
        let behind = taken && 4 * records::chain(&words).len() < words.len();
        lent.refused_if(behind, 5)
    }
);

/// What is left of an accepted report, with a change in the flat one.
fn changed_output(lent: &Lent, change: impl Fn(&mut Flat)) -> Expected {
    let length = lent.said.answer.wrapping_sub(ACCEPTED) as usize;
    match &lent.said.output {
        Some(output) => {
            let words = words::whole_words(output);
            let mut flat = Flat::parse(&words[..length]).expect("a flat report");
            change(&mut flat);
            let words = flat.words();
            Expected {
                answer: ACCEPTED + words.len() as u32,
                output: Some(words::to_bytes(&words::padded(&words, MOST_WORDS))),
            }
        }
        None => lent.said.clone(),
    }
}

/// Changes the flat report it turns.
unsafe extern "C" fn turn_and_change(
    settings: *const u8,
    settings_len: usize,
    given: *const u8,
    given_len: usize,
    buffer: *mut u8,
    buffer_len: usize,
) -> u32 {
    let turn = mock::library::<Faithful>().from_flat;
    let answer = turn(settings, settings_len, given, given_len, buffer, buffer_len);
    if given_len > 0 {
        *given.cast_mut() ^= 1;
    }
    answer
}

#[test]
fn a_changed_input() {
    let mut library = mock::library::<Faithful>();
    library.from_flat = turn_and_change;
    let (_, what) = found(&library).expect("not found");
    assert_eq!(what, "an input was changed");
}

/// Takes a length modulo 2^32.
unsafe extern "C" fn short_lengths(
    settings: *const u8,
    settings_len: usize,
    given: *const u8,
    given_len: usize,
    _: *mut u8,
    buffer_len: usize,
) -> u32 {
    let short = |length: usize| length as u32 as usize;
    let turn = mock::library::<Faithful>().from_flat;
    turn(
        settings,
        short(settings_len),
        given,
        short(given_len),
        [0u8; BUFFER_BYTES].as_mut_ptr(),
        short(buffer_len),
    )
}

#[test]
fn lengths_of_more_than_a_word() {
    let mut library = mock::library::<Faithful>();
    library.from_flat = short_lengths;
    let said = "huge call 1: length 20, not number 19".to_string();
    assert_eq!(flat_huge::play_all(&library), Err(said));
}

/// What the round trips say if calls after the first answer otherwise.
fn round_trips(otherwise: fn(Call, &[u8], &mut Vec<u8>)) -> [Result<(), String>; 2] {
    let settings = words::to_bytes(&[7, 3, 4, 3, 0, 0, 1, 1, 1, 2, 2, 2, 3, 1]);
    let flat = words::to_bytes(&[1, 7, 127, 3, 5, 82, 32, 0, 1, 1, 7, 5]);
    let ours = expected::from_flat(&settings, &flat, BUFFER_BYTES);
    let ours = ours.output.expect("accepted");
    let message = &ours[..80];
    let back = expected::to_flat(&settings, message, BUFFER_BYTES);
    let back = back.output.expect("accepted");
    let mut again = |call: Call, given: &[u8]| {
        let said = match call {
            Call::FromFlat => expected::from_flat(&settings, given, BUFFER_BYTES),
            Call::ToFlat => expected::to_flat(&settings, given, BUFFER_BYTES),
            Call::ReadReport => expected::read(Form::Report, &settings, given, BUFFER_BYTES),
            _ => expected::write(Form::Report, &settings, given, BUFFER_BYTES),
        };
        let mut output = said.output.expect("accepted");
        otherwise(call, given, &mut output);
        let length = (said.answer - ACCEPTED) as usize * 4;
        Ok((output[..length].to_vec(), output))
    };
    [
        flat::there_and_back(&mut again, &flat, 80, &ours),
        flat::back_and_there(&mut again, message, 48, &back),
    ]
}

#[test]
fn round_trips_that_fail() {
    assert_eq!(round_trips(|_, _, _| ()), [Ok(()), Ok(())]);
    let said = |what: &str| Err(format!("round trip: {what}"));
    let in_words = said("the flat report comes back with other words");
    let in_writer = said("the writer makes another message of the contents");
    let in_slot = said("zeros after the message change its flat report");
    let in_records = said("our report comes back with other records");
    let last_word = round_trips(|call, given, output| {
        output[44] ^= u8::from(call == Call::ToFlat && given.len() == 80)
    });
    assert_eq!(last_word, [in_words.clone(), Ok(())]);
    let from_slot = round_trips(|call, given, output| {
        output[44] ^= u8::from(call == Call::ToFlat && given.len() == BUFFER_BYTES)
    });
    assert_eq!(from_slot, [in_words, in_slot]);
    let written = round_trips(|call, _, output| output[76] ^= u8::from(call == Call::WriteReport));
    assert_eq!(written, [in_writer, in_records.clone()]);
    let zeros = round_trips(|call, _, output| output[2047] ^= u8::from(call == Call::FromFlat));
    assert_eq!(zeros, [Ok(()), in_records]);
}
