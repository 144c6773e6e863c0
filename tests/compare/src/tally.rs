//! Counts of what the compared calls answered, and whether every answer and
//! every situation was common enough to show something.

use crate::calls::{Kind, Outcome};
use crate::events::Step;
use crate::library::Answer;
use crate::situations;
use crate::unsound::{
    PLAN_AS_GOOD, PLAN_OF_FEWER_STAYS, PLAN_OF_FEW_NODES, PLAN_OF_FEW_SETS, PLAN_OF_MORE_MOVES,
    PLAN_OVER_CAP,
};
use std::collections::BTreeMap;

/// From this many calls on, rare answers are a failure.
pub const JUDGED: u64 = 100_000;
/// Every answer is at least one in so many of its call's answers.
const COMMON: u64 = 200;
/// Every situation comes at least so often.
const LEAST: u64 = 5;
/// Faults in a plan's members that must be refused at least so often.
const REFUSED: [&str; 3] = [PLAN_OVER_CAP, PLAN_OF_FEW_SETS, PLAN_OF_FEW_NODES];
/// And those that must be taken.
const TAKEN: [&str; 3] = [PLAN_OF_MORE_MOVES, PLAN_OF_FEWER_STAYS, PLAN_AS_GOOD];

#[derive(Default)]
pub struct Tally {
    pub calls: u64,
    answers: BTreeMap<(Kind, String), u64>,
    situations: BTreeMap<&'static str, u64>,
    /// For each fault how many calls with it alone were taken and refused.
    faults: BTreeMap<&'static str, (u64, u64)>,
}

/// The answers that a call has, without lengths, values and indexes.
pub fn wanted(kind: Kind) -> Vec<String> {
    let (good, numbers): (&[&str], &[u32]) = match kind {
        Kind::Fresh => (&["accepted"], &[3]),
        Kind::CheckState => (&["accepted"], &[1, 2, 3]),
        Kind::Report => (
            &["accepted"],
            &[1, 2, 3, 4, 5, 6, 7, 8, 9, 10, 11, 12, 13, 16, 17, 18],
        ),
        Kind::Decide => (
            &["plan", "wait 1", "wait 2", "wait 3", "wait 4", "wait 5"],
            &[1, 2, 3, 4],
        ),
        Kind::Order => (&["length"], &[1, 2, 3, 4, 6, 14]),
        Kind::Drop | Kind::Fetched | Kind::Prepared => (&["accepted"], &[1, 2, 3, 4, 6, 14]),
        Kind::Page => (&["length"], &[1, 2, 3, 15]),
        Kind::Preview => (
            &["plan", "wait 2", "wait 3", "wait 4", "wait 5"],
            &[1, 2, 15, 3, 4, 6, 14],
        ),
        Kind::PreviewAll => (&["length"], &[1, 2, 15, 3, 4]),
        Kind::DecideWithin => (
            &[
                "plan",
                "plan with gap",
                "wait 1",
                "wait 2",
                "wait 3",
                "wait 4",
                "wait 5",
            ],
            &[1, 2, 15, 3, 4],
        ),
    };
    let numbers = numbers.iter().map(|number| format!("number {number}"));
    let good = good.iter().map(|answer| answer.to_string());
    good.chain(numbers).collect()
}

/// An answer without its length, value and index.
pub fn class(answer: Answer) -> String {
    match answer {
        Answer::Length(_) => "length".into(),
        Answer::PlanWithin(_) => "plan with gap".into(),
        Answer::Located(number, _) => format!("number {number}"),
        Answer::Wait(reason, _) => format!("wait {reason}"),
        other => other.to_string(),
    }
}

impl Tally {
    pub fn count(&mut self, step: &Step, outcome: &Outcome) {
        let answer = outcome.answer();
        self.calls += 1;
        let key = (step.asked.kind, class(answer));
        *self.answers.entry(key).or_default() += 1;
        for name in situations::of(&step.asked, outcome) {
            *self.situations.entry(name).or_default() += 1;
        }
        if let [fault] = step.faults[..] {
            let (taken, refused) = self.faults.entry(fault).or_default();
            if answer.refused() {
                *refused += 1;
            } else {
                *taken += 1;
            }
        }
    }

    /// Prints all counts.
    pub fn print(&self) {
        for ((kind, answer), times) in &self.answers {
            let percent = 100.0 * *times as f64 / self.of_kind(*kind) as f64;
            println!("  {} {answer}: {times} ({percent:.1} %)", kind.name());
        }
        for (name, times) in &self.situations {
            println!("  {name}: {times}");
        }
        for (name, (taken, refused)) in &self.faults {
            println!("  fault in {name}: taken {taken}, refused {refused}");
        }
    }

    fn of_kind(&self, wanted: Kind) -> u64 {
        let own = self.answers.iter().filter(|((kind, _), _)| *kind == wanted);
        own.map(|(_, times)| times).sum()
    }

    /// What is too rare for the calls to show much.
    pub fn rare(&self) -> Vec<String> {
        let mut rare = Vec::new();
        for kind in Kind::EVENTS {
            for answer in wanted(kind) {
                let times = self.answers.get(&(kind, answer.clone()));
                let times = times.copied().unwrap_or(0);
                if times == 0 || times * COMMON < self.of_kind(kind) {
                    rare.push(format!("{} {answer}", kind.name()));
                }
            }
        }
        for name in situations::ALL {
            if self.situations.get(name).copied().unwrap_or(0) < LEAST {
                rare.push(name.into());
            }
        }
        for name in REFUSED {
            if self
                .faults
                .get(name)
                .is_none_or(|&(_, refused)| refused < LEAST)
            {
                rare.push(format!("{name}, refused"));
            }
        }
        for name in TAKEN {
            if self
                .faults
                .get(name)
                .is_none_or(|&(taken, _)| taken < LEAST)
            {
                rare.push(format!("{name}, taken"));
            }
        }
        rare
    }
}
