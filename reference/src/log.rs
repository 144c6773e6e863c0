//! Logs and positions (restart-model(7), Updates, positions, runs, logs), and
//! cuts (ORDERS).

use crate::message::{Contents, RUN};
use std::cmp::Ordering;

/// A place in a shard's log: update k of a view. Ordered by view, then k.
#[derive(Clone, Copy, Debug, PartialEq, Eq, PartialOrd, Ord)]
pub struct Position {
    pub view: u32,
    pub k: u32,
}

/// Before all updates; an empty log's end.
pub const START: Position = Position { view: 0, k: 0 };

impl Position {
    pub fn new(view: u32, k: u32) -> Position {
        Position { view, k }
    }
}

/// A run: the log holds updates (view, 1) to (view, count).
#[derive(Clone, Copy, Debug, PartialEq, Eq)]
pub struct Run {
    pub view: u32,
    pub count: u32,
}

/// The log of one shard: its runs, by ascending view.
#[derive(Clone, Debug, Default, PartialEq, Eq)]
pub struct Log {
    pub runs: Vec<Run>,
}

impl Log {
    /// The log of `shard` that a report tells of.
    pub fn of(report: &Contents, shard: u32) -> Log {
        let runs = report.of_kind(RUN).into_iter();
        let own = runs.filter(|record| record.shard() == shard);
        let run = own.map(|record| Run {
            view: record.word1,
            count: record.word2,
        });
        Log {
            runs: run.collect(),
        }
    }

    /// The last position in the log; (0, 0) if it is empty.
    pub fn end(&self) -> Position {
        let last = self.runs.last();
        last.map_or(START, |run| Position::new(run.view, run.count))
    }

    /// Whether the log holds the update at `position`.
    pub fn holds(&self, position: Position) -> bool {
        position.k >= 1
            && self
                .runs
                .iter()
                .any(|run| run.view == position.view && position.k <= run.count)
    }

    /// Whether the log has a target: any log has (0, 0).
    pub fn has(&self, target: Position) -> bool {
        target == START || self.holds(target)
    }

    /// The log without the updates past `target`.
    pub fn up_to(&self, target: Position) -> Log {
        let left = |run: &Run| match run.view.cmp(&target.view) {
            Ordering::Less => run.count,
            Ordering::Equal => run.count.min(target.k),
            Ordering::Greater => 0,
        };
        let shorter = self.runs.iter().map(|run| Run {
            view: run.view,
            count: left(run),
        });
        Log {
            runs: shorter.filter(|run| run.count > 0).collect(),
        }
    }
}

/// The cut of a placed node: the end of the longest
/// stretch of updates that its log and the holder's, up to the target, share
/// from their beginning. Runs of one view begin alike; after two of other
/// lengths, or two of other views, nothing more is shared.
pub fn cut(node: &Log, holder: &Log, target: Position) -> Position {
    let mut end = START;
    for (own, wanted) in node.runs.iter().zip(&holder.up_to(target).runs) {
        if own.view != wanted.view {
            break;
        }
        end = Position::new(own.view, own.count.min(wanted.count));
        if own.count != wanted.count {
            break;
        }
    }
    end
}

#[cfg(test)]
mod tests {
    use super::*;

    fn log(runs: &[(u32, u32)]) -> Log {
        let run = |&(view, count)| Run { view, count };
        Log {
            runs: runs.iter().map(run).collect(),
        }
    }

    fn at(view: u32, k: u32) -> Position {
        Position::new(view, k)
    }

    #[test]
    fn ends_and_updates() {
        let some = log(&[(5, 3), (7, 2)]);
        assert_eq!(some.end(), at(7, 2));
        assert_eq!(log(&[]).end(), START);
        assert!(some.holds(at(5, 3)) && some.holds(at(7, 1)));
        assert!(!some.holds(at(5, 4)) && !some.holds(at(6, 1)));
        assert!(!some.holds(START) && some.has(START) && log(&[]).has(START));
    }

    /// Case G.
    #[test]
    fn case_g() {
        let holder = log(&[(5, 3), (6, 8)]);
        let cut = cut(&log(&[(5, 3), (6, 9)]), &holder, at(6, 8));
        assert_eq!(cut, at(6, 8));
    }

    /// Case H.
    #[test]
    fn case_h() {
        let holder = log(&[(5, 3), (7, 2)]);
        let cut = |node: &Log| cut(node, &holder, at(7, 2));
        assert_eq!(cut(&log(&[(5, 3), (6, 9)])), at(5, 3));
        assert_eq!(cut(&log(&[(5, 2)])), at(5, 2));
        assert_eq!(cut(&log(&[])), START);
    }

    /// Case J.
    #[test]
    fn case_j() {
        let holder = log(&[(5, 3), (6, 2)]);
        let cut = |node: &Log| cut(node, &holder, at(6, 2));
        assert_eq!(cut(&log(&[(5, 2), (6, 2)])), at(5, 2));
        // A longer older run parts the logs at the same place as a shorter one.
        assert_eq!(cut(&log(&[(5, 4), (6, 2)])), at(5, 3));
        assert_eq!(cut(&log(&[(4, 1), (5, 3), (6, 2)])), START);
        assert_eq!(cut(&log(&[(6, 2)])), START);
    }

    #[test]
    fn cuts_at_the_ends() {
        let holder = log(&[(5, 3), (7, 2)]);
        assert_eq!(cut(&holder, &holder, at(7, 2)), at(7, 2));
        assert_eq!(cut(&holder, &holder, at(7, 1)), at(7, 1));
        assert_eq!(cut(&holder, &holder, at(6, 9)), at(5, 3));
        assert_eq!(cut(&holder, &holder, START), START);
        assert_eq!(cut(&log(&[(4, 9)]), &holder, at(7, 2)), START);
    }

    /// A target inside a run, and counts at the end of their range.
    #[test]
    fn cuts_inside_a_run() {
        let one = |count: u32| log(&[(6, count)]);
        for (own, k) in [(4, 4), (5, 5), (6, 5), (9, 5)] {
            assert_eq!(cut(&one(own), &one(8), at(6, 5)), at(6, k));
        }
        let most = u32::MAX;
        assert_eq!(cut(&one(most), &one(most), at(6, most)), at(6, most));
        assert_eq!(
            cut(&one(most), &one(most - 1), at(6, most)),
            at(6, most - 1)
        );
        let longer = log(&[(6, most - 1), (7, 1)]);
        assert_eq!(cut(&longer, &one(most), at(6, most)), at(6, most - 1));
    }

    /// Every log with views 1 to 3 and counts up to 3.
    fn small_logs() -> Vec<Log> {
        let mut logs = Vec::new();
        for code in 0..64 {
            let counts = [code / 16, code / 4 % 4, code % 4];
            let runs = (1..).zip(counts).filter(|&(_, count)| count > 0);
            logs.push(log(&runs.collect::<Vec<_>>()));
        }
        logs
    }

    /// The log's updates one by one.
    fn updates(log: &Log) -> Vec<Position> {
        let of_run = |run: &Run| {
            let view = run.view;
            (1..=run.count).map(move |k| Position::new(view, k))
        };
        log.runs.iter().flat_map(of_run).collect()
    }

    /// The cut by runs is the one found update by update; and what the node
    /// keeps, followed by what it fetches, is the holder's log up to the target.
    #[test]
    fn cuts_of_small_logs() {
        let places = || (0..5).flat_map(|view| (0..5).map(move |k| at(view, k)));
        let mut logs = 0;
        for node in small_logs() {
            for holder in small_logs() {
                for target in places() {
                    let cut = cut(&node, &holder, target);
                    let own = updates(&node);
                    let mut wanted = updates(&holder);
                    wanted.retain(|&update| update <= target);
                    let pairs = own.iter().zip(&wanted);
                    let shared = pairs.take_while(|(own, wanted)| own == wanted);
                    let last = shared.last().map_or(START, |(&update, _)| update);
                    assert_eq!(cut, last, "{node:?} {holder:?} {target:?}");

                    let kept = own.into_iter().filter(|&update| update <= cut);
                    let fetched = wanted.iter().copied().filter(|&update| update > cut);
                    let log: Vec<Position> = kept.chain(fetched).collect();
                    assert_eq!(log, wanted, "{node:?} {holder:?} {target:?}");
                    logs += 1;
                }
            }
        }
        assert_eq!(logs, 64 * 64 * 25);
    }
}
