//! Questions on open views: all of a few machines, and random ones of up to 32;
//! and the comparison of their answers with the reference.

use crate::library::{Answer, Library, VIEW};
use crate::random::Random;
use reference::mask;
use reference::open_view::{self, Finding};
use std::collections::BTreeMap;
use std::fmt;

/// The masks of a question, in the call's order.
#[derive(Clone, Copy, Debug, PartialEq, Eq)]
pub struct Question {
    pub members: u32,
    pub known: u32,
    pub have: u32,
    pub lack: u32,
    pub passed: u32,
}

impl fmt::Display for Question {
    fn fmt(&self, f: &mut fmt::Formatter) -> fmt::Result {
        let Question { members, known, .. } = self;
        let Question {
            have, lack, passed, ..
        } = self;
        write!(f, "members {members:#x}, known {known:#x}, have {have:#x}, lack {lack:#x}, passed {passed:#x}")
    }
}

/// Where the machines of the small questions lie.
const PLACES: [u32; 4] = [0, 1, 16, 31];
/// How many small questions there are: every combination of five masks.
pub const SMALL: u32 = 1 << (5 * PLACES.len());

/// Small question `code`.
pub fn small(code: u32) -> Question {
    let masks = [0, 1, 2, 3, 4].map(|field| {
        let machines = code >> (PLACES.len() * field);
        let set = (0..PLACES.len()).filter(|&place| machines >> place & 1 == 1);
        set.map(|place| 1 << PLACES[place]).sum()
    });
    let [members, known, have, lack, passed] = masks;
    Question {
        members,
        known,
        have,
        lack,
        passed,
    }
}

/// Random question `index` of a seed: of 0 to 32 machines, mostly near to what
/// the rule is about.
pub fn question(seed: u64, index: u64) -> Question {
    let random = &mut Random::of_input(seed, index);
    let machines = (1u64 << random.between(0, 32)) - 1;
    let all = machines as u32;
    let members = match random.between(0, 9) {
        0 => 0,
        1 => all,
        2 => one_of(random, all),
        _ => random.word() & all,
    };
    let others = all & !members;
    let have = match random.between(0, 9) {
        0..=3 => members | random.word() & others,
        4..=6 => (members & !one_of(random, members)) | random.word() & others,
        7 => random.word() & all,
        8 => random.word() & members,
        _ => 0,
    };
    let lack = match random.between(0, 9) {
        0..=2 => 0,
        3..=5 => random.word() & others,
        6..=7 => one_of(random, members),
        _ => random.word() & all,
    };
    Question {
        members,
        known: few(random, all),
        have,
        lack,
        passed: few(random, all),
    }
}

/// One machine of the mask; none of an empty one.
fn one_of(random: &mut Random, machines: u32) -> u32 {
    match &mask::nodes(machines)[..] {
        [] => 0,
        nodes => 1 << random.pick(nodes),
    }
}

/// No machine, more often than not.
fn few(random: &mut Random, all: u32) -> u32 {
    match random.between(0, 9) {
        0..=5 => 0,
        6..=7 => one_of(random, all),
        _ => random.word() & all,
    }
}

/// What the reference answers.
pub fn expected(question: &Question) -> u32 {
    VIEW + match found(question) {
        Finding::Sure => 1,
        Finding::Never => 2,
        Finding::Undecided => 3,
        Finding::Contradicted => 4,
    }
}

fn found(question: &Question) -> Finding {
    let Question {
        members,
        known,
        have,
        lack,
        passed,
    } = *question;
    open_view::judge(members, known, have, lack, passed)
}

/// Compares one answer with the reference's; else what differs.
pub fn compare(library: &Library, question: &Question) -> Result<(), String> {
    let Question {
        members,
        known,
        have,
        lack,
        passed,
    } = *question;
    // Nothing is lent.
    let answer = unsafe { (library.open_view)(members, known, have, lack, passed) };
    let expected = expected(question);
    if answer == expected {
        return Ok(());
    }
    let (answer, expected) = (Answer::of(answer), Answer::of(expected));
    Err(format!(
        "open view, {question}: {answer}, and the reference says {expected}"
    ))
}

/// How often each situation came.
pub type Situations = BTreeMap<String, u64>;

/// Every combination of what is said for and against a view.
const CASES: u32 = 16;
/// Cases of their own, which a rule that is nearly right gets wrong.
const NO_MEMBERS: &str = "no members";
const ALL_BUT_ONE: &str = "undecided, all members but one have it";
const STRANGERS_LACK: &str = "undecided, and no member lacks it, but others do";

/// What a question is about: which of the four things are said, and more.
pub fn situations(question: &Question) -> Vec<String> {
    let Question {
        members,
        known,
        have,
        lack,
        passed,
    } = *question;
    let of = mask::nodes(members);
    let without = of.iter().filter(|&&node| !mask::has(have, node)).count();
    let all_have = !of.is_empty() && without == 0;
    let lacks = of.iter().any(|&node| mask::has(lack, node));
    let finding = found(question);
    let mut names = vec![case([known != 0, all_have, lacks, passed != 0])];
    let undecided = finding == Finding::Undecided;
    let near = [
        (NO_MEMBERS, of.is_empty()),
        (ALL_BUT_ONE, undecided && without == 1 && of.len() > 1),
        (STRANGERS_LACK, undecided && lack != 0),
    ];
    names.extend(
        near.iter()
            .filter(|(_, is)| *is)
            .map(|(name, _)| name.to_string()),
    );
    names
}

/// The name of a case: known, all have it, a member lacks it, passed by.
fn case(said: [bool; 4]) -> String {
    let words = ["known", "all have it", "a member lacks it", "passed by"];
    let said: Vec<&str> = words
        .iter()
        .zip(said)
        .filter(|(_, is)| *is)
        .map(|(word, _)| *word)
        .collect();
    if said.is_empty() {
        "nothing said".into()
    } else {
        said.join(", ")
    }
}

/// The situations that came to fewer than one question in 200.
pub fn rare(situations: &Situations, count: u64) -> Vec<String> {
    let cases = (0..CASES).map(|code| case([0, 1, 2, 3].map(|at| code >> at & 1 == 1)));
    let near = [NO_MEMBERS, ALL_BUT_ONE, STRANGERS_LACK].map(String::from);
    let times = |name: &String| situations.get(name).copied().unwrap_or(0);
    cases
        .chain(near)
        .filter(|name| times(name) * 200 < count)
        .collect()
}

/// Compares every small question.
pub fn compare_small(library: &Library) -> Result<(), String> {
    (0..SMALL).try_for_each(|code| compare(library, &small(code)))
}

/// Compares so many random questions, and counts what they were about.
pub fn compare_random(
    library: &Library,
    seed: u64,
    first: u64,
    count: u64,
) -> Result<Situations, String> {
    let mut situations_of = Situations::new();
    for index in first..first + count {
        let question = question(seed, index);
        compare(library, &question)
            .map_err(|what| format!("seed {seed}, question {index}: {what}"))?;
        for name in situations(&question) {
            *situations_of.entry(name).or_default() += 1;
        }
    }
    Ok(situations_of)
}
