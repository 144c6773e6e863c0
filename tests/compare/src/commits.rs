//! The inputs of the `arrivals` program, second half: random sequences of all
//! calls beside a log of what happened.
//!
//! After each call the state is committed exactly when the log says so: a plan was
//! made and, since the last one, each held node was marked fetched and then
//! prepared, with no accepted drop. The nodes that are held are those of the log
//! too, and what is refused, waits or only reads changes nothing. Settings and desk
//! are other ones now and then, for one call or from then on.
//!
//! An input depends on the seed and its index alone.

use crate::arrivals::{asked, broken, Broken, Tested};
use crate::calls::{Asked, Kind, Outcome, Table};
use crate::events::{self, place};
use crate::games::{self, Lends};
use crate::library::Answer;
use crate::pages::ROLES;
use crate::random::Random;
use crate::world::{self, World};
use crate::{damage, sequences, unsound};
use reference::game::MOST_ROUNDS;
use reference::roles::PLANNER;
use reference::{mask, settings, words};

/// What an accepted call did.
#[derive(Clone, Copy, Debug, PartialEq, Eq)]
pub enum Happened {
    Reported(u32),
    Dropped(u32),
    Planned,
    Fetched(u32),
    Prepared(u32),
}

/// What happened since the fresh state, in its order.
#[derive(Clone, Debug, Default)]
pub struct Log(pub Vec<Happened>);

impl Log {
    /// What happened since the last plan, if one was made.
    fn since(&self) -> Option<&[Happened]> {
        let planned = |happened: &Happened| *happened == Happened::Planned;
        let last = self.0.iter().rposition(planned)?;
        Some(&self.0[last + 1..])
    }

    /// Whether a plan was made and, since the last one, each of these nodes was
    /// marked fetched and then prepared, with no drop.
    pub fn committing(&self, held: u32) -> bool {
        let Some(since) = self.since() else {
            return false;
        };
        let dropped = |happened: &Happened| matches!(happened, Happened::Dropped(_));
        let marked = |node: u32| {
            let fetched = since.iter().position(|h| *h == Happened::Fetched(node));
            fetched.is_some_and(|at| since[at..].contains(&Happened::Prepared(node)))
        };
        !since.iter().any(dropped) && mask::nodes(held).into_iter().all(marked)
    }

    /// The nodes that have reported and not been dropped: while a plan stands, a
    /// drop is one of all.
    pub fn held(&self) -> u32 {
        let (mut held, mut plan) = (0, false);
        for happened in &self.0 {
            match *happened {
                Happened::Reported(node) => held |= mask::only(node),
                Happened::Dropped(_) if plan => (held, plan) = (0, false),
                Happened::Dropped(node) => held &= !mask::only(node),
                Happened::Planned => plan = true,
                Happened::Fetched(_) | Happened::Prepared(_) => {}
            }
        }
        held
    }

    fn note(&mut self, asked: &Asked, outcome: &Outcome) {
        let node = asked.node;
        match asked.kind {
            Kind::Fresh => self.0.clear(),
            Kind::Report => {
                let sender = words::whole_words(&asked.message)[0];
                self.0.push(Happened::Reported(sender));
            }
            Kind::Drop => self.0.push(Happened::Dropped(node)),
            Kind::Fetched => self.0.push(Happened::Fetched(node)),
            Kind::Prepared => self.0.push(Happened::Prepared(node)),
            kind if plans(kind, outcome) => self.0.push(Happened::Planned),
            _ => {}
        }
    }

    /// The log as lines.
    fn story(&self) -> Vec<String> {
        self.0.iter().map(|h| format!("{h:?}")).collect()
    }
}

/// The calls that decide.
const DECIDING: [Kind; 2] = [Kind::Decide, Kind::DecideWithin];

/// Whether a call made a plan. A preview does not.
fn plans(kind: Kind, outcome: &Outcome) -> bool {
    DECIDING.contains(&kind) && outcome.answer().planned()
}

/// The words of a state.
const PHASE: usize = 0;
const HELD: usize = 52;
const FETCHED: usize = 53;
const PREPARED: usize = 54;
const COMMITTED: u32 = 3;

/// A sequence under way.
struct Sequence {
    world: World,
    table: Table,
    log: Log,
    /// The settings under which the last plan was made.
    planned_with: Vec<u8>,
    /// Whether it was made by rounds.
    by_rounds: bool,
    /// Whether a call was refused since, while it stood.
    refused_since_plan: bool,
}

/// What differs from the sequence's own in what a call is lent.
#[derive(Clone, Copy, Default)]
struct Other {
    settings: bool,
    desk: bool,
}

/// Plays sequence `index` of a seed.
pub fn play(tested: &mut Tested, seed: u64, index: u64) -> Result<(), Box<Broken>> {
    let random = &mut Random::of_input(!seed, index);
    let nodes = random.pick(&[1, 2, 2, 3, 3, 3, 4, 4, 5, 5, 6, 7, 12, 32]);
    let world = world::of_size(random, nodes);
    let fresh = sequences::Table::fresh(random, &world.words);
    let left = random.between(30, 80) + 5 * nodes;
    let mut sequence = Sequence {
        table: Table {
            settings: words::to_bytes(&fresh.settings),
            state: words::to_bytes(&fresh.state),
            desk: words::to_bytes(&fresh.desk),
        },
        world,
        log: Log::default(),
        planned_with: Vec::new(),
        by_rounds: false,
        refused_since_plan: false,
    };
    let mut lends = Lends::default();
    for _ in 0..left {
        if random.chance(2) {
            sequence.game(tested, &mut lends, random)?;
        }
        sequence.step(tested, random)?;
    }
    tested.tally.sequences += 1;
    Ok(())
}

impl Sequence {
    fn state(&self) -> Vec<u32> {
        words::whole_words(&self.table.state)
    }

    /// Makes one call and looks at the state that it leaves.
    fn step(&mut self, tested: &mut Tested, random: &mut Random) -> Result<(), Box<Broken>> {
        let mut asked = self.event(random);
        let other = self.lend(random, &mut asked);
        let outcome = match tested.call(random, &asked) {
            Ok(outcome) => outcome,
            Err(broken) => return Err(self.because(&asked, broken.what)),
        };
        let answer = outcome.answer();
        let refused = answer.refused();
        let waits = matches!(answer, Answer::Wait(_, _));
        let idle = refused || waits || asked.kind.reads();
        let same = outcome.state == asked.table.state && outcome.desk == asked.table.desk;
        if idle && !same {
            return Err(self.because(&asked, format!("{answer}, and bytes are changed")));
        }
        if asked.table.state != self.table.state {
            // What was lent in the state's place is put aside.
            return Ok(());
        }
        self.count(tested, &asked, &outcome, other);
        if !refused {
            self.log.note(&asked, &outcome);
            self.table.state.clone_from(&outcome.state);
            if asked.kind == Kind::Report || other.desk && random.chance(50) {
                self.table.desk.clone_from(&outcome.desk);
            }
            if other.settings && random.chance(50) {
                self.table.settings.clone_from(&asked.table.settings);
            }
        }
        match self.wrong() {
            Some(what) => Err(self.because(&asked, what)),
            None => Ok(()),
        }
    }

    /// What the state says otherwise than the log.
    fn wrong(&self) -> Option<String> {
        let state = self.state();
        let (committed, held) = (state[PHASE] == COMMITTED, state[HELD]);
        if held != self.log.held() {
            let wanted = self.log.held();
            return Some(format!("held is {held:#b}, by the log {wanted:#b}"));
        }
        let committing = self.log.committing(held);
        let text = match (committed, committing) {
            (true, false) => "committed, and the log has no reason",
            (false, true) => "not committed, though the log has every mark",
            _ => return None,
        };
        Some(text.into())
    }

    fn because(&self, asked: &Asked, what: String) -> Box<Broken> {
        let mut story = self.log.story();
        story.push(format!("call {}, node {}", asked.kind.name(), asked.node));
        broken(what, story)
    }

    /// A game over what is there, which changes nothing: its memory is read-only.
    fn game(
        &mut self,
        tested: &mut Tested,
        lends: &mut Lends,
        random: &mut Random,
    ) -> Result<(), Box<Broken>> {
        let nodes = self.world.settings.nodes;
        let asked = games::Asked {
            role: PLANNER,
            table: self.table.clone(),
            held: random.word() & mask::below(nodes),
            rounds: random.between(0, MOST_ROUNDS),
        };
        let places = [(); 3].map(|()| place(random));
        tested.tally.calls += 1;
        match games::call(tested.game, lends, &asked, places) {
            Ok(answer) => {
                let played = !Answer::of(answer).refused();
                tested.tally.put(played, "reads: a game");
                tested.tally.put(!played, "reads: a game, refused");
                Ok(())
            }
            Err(what) => Err(broken(format!("game: {what}"), self.log.story())),
        }
    }

    /// A call, mostly one that the phase takes.
    fn event(&self, random: &mut Random) -> Asked {
        let state = self.state();
        let held = state[HELD];
        let all = mask::below(self.world.settings.nodes);
        let (report, decide) = (Kind::Report, random.pick(&DECIDING));
        let wanted = match (state[PHASE], random.between(0, 99)) {
            (COMMITTED, 0..=24) => return asked(Kind::Fresh, self.table.clone()),
            (0..=2, 0) if random.chance(30) => return asked(Kind::Fresh, self.table.clone()),
            (_, 0..=11) => self.reading(random),
            (0, 12..=70) if held != all => report,
            (0, 12..=30) => report,
            (0, 31..=93) => decide,
            (0, 94..=97) => Kind::Drop,
            (1, 12..=84) => Kind::Fetched,
            (1, 85..=90) => Kind::Drop,
            (2, 12..=86) => Kind::Prepared,
            (2, 87..=92) => Kind::Drop,
            _ => random.pick(&[report, decide, Kind::Drop, Kind::Fetched, Kind::Prepared]),
        };
        let unmarked = match wanted {
            Kind::Fetched => held & !state[FETCHED],
            Kind::Prepared => held & !state[PREPARED],
            Kind::Report if random.chance(85) => all & !held,
            Kind::Report => all,
            _ => held,
        };
        let from = match random.between(0, 99) {
            0..=84 => unmarked,
            85..=92 => held,
            93..=96 => all & !held,
            _ => 0,
        };
        let node = match mask::nodes(from) {
            none if none.is_empty() => {
                random.pick(&[0, 1, self.world.settings.nodes, 32, u32::MAX])
            }
            some => random.pick(&some),
        };
        let node = match wanted {
            Kind::Page => random.between(0, 4),
            Kind::DecideWithin => random.pick(&[0, 0, 1, 2, 128]),
            _ => node,
        };
        let message = match wanted {
            Kind::Report => {
                let sender = node % self.world.settings.nodes;
                words::to_bytes(&self.world.message(random, sender))
            }
            _ => Vec::new(),
        };
        let role = match random.chance(2) {
            true => random.pick(&ROLES),
            false => PLANNER,
        };
        Asked {
            role,
            node,
            message,
            ..asked(wanted, self.table.clone())
        }
    }

    /// A call that changes nothing.
    fn reading(&self, random: &mut Random) -> Kind {
        random.pick(&[
            Kind::CheckState,
            Kind::Order,
            Kind::Page,
            Kind::Preview,
            Kind::PreviewAll,
        ])
    }

    /// Now and then other settings, another desk or a state that is not sound are
    /// lent to a call.
    fn lend(&self, random: &mut Random, asked: &mut Asked) -> Other {
        let mut other = Other::default();
        if asked.kind == Kind::Fresh {
            return other;
        }
        let table = &mut asked.table;
        if random.chance(12) {
            let changed = other_settings(random, &words::whole_words(&table.settings));
            table.settings = words::to_bytes(&changed);
            other.settings = table.settings != self.table.settings;
        }
        if random.chance(12) {
            let held = self.state()[HELD];
            events::in_words(&mut table.desk, |desk| {
                other_desk(random, &self.world, held, desk)
            });
            other.desk = table.desk != self.table.desk;
        }
        if random.chance(2) {
            events::in_words(&mut table.state, |state| {
                unsound::state(random, &self.world.settings, state)
            });
        }
        other
    }

    fn count(&mut self, tested: &mut Tested, asked: &Asked, outcome: &Outcome, other: Other) {
        let tally = &mut *tested.tally;
        let (before, after) = (self.state(), words::whole_words(&outcome.state));
        let (kind, answer) = (asked.kind, outcome.answer());
        let name = kind.name();
        let taken = !answer.refused();
        let standing = before[PHASE] == 1 || before[PHASE] == 2;
        let reads = if kind.reads() { "reads: " } else { "" };
        let refused = if taken { "" } else { ", refused" };
        tally.put(true, &format!("{reads}{name}{refused}"));
        tally.put(taken && other.settings, &format!("{name}, other settings"));
        tally.put(taken && other.desk, &format!("{name}, another desk"));
        let dropped = taken && kind == Kind::Drop;
        let fetched = dropped && before[PHASE] == 1 && before[FETCHED] != 0;
        tally.put(dropped && before[PHASE] == 0, "drop: while gathering");
        tally.put(fetched, "drop: while ordered, some fetched");
        let prepared = dropped && before[PREPARED] != 0;
        tally.put(prepared, "drop: while preparing, some prepared");
        let late = !taken && kind == Kind::Drop && before[PHASE] == COMMITTED;
        tally.put(late, "drop: refused once committed");
        if plans(kind, outcome) {
            let again = self.log.since().is_some();
            tally.put(again, "plan: another one");
            self.planned_with.clone_from(&asked.table.settings);
            self.by_rounds = kind == Kind::DecideWithin;
            self.refused_since_plan = false;
        } else if DECIDING.contains(&kind) {
            tally.put(taken, "wait");
        }
        self.refused_since_plan |= !taken && standing;
        let node = mask::has(before[HELD], asked.node);
        let early = !taken && kind == Kind::Prepared && before[PHASE] == 1 && node;
        tally.put(early, "prepared: refused while ordered");
        let twice = !taken && standing && node && answer == Answer::Number(14);
        tally.put(twice, "a mark refused: marked already");
        if taken && after[PHASE] == COMMITTED && before[PHASE] != COMMITTED {
            let plans = self.log.0.iter().filter(|h| **h == Happened::Planned);
            let dropped = |happened: &Happened| matches!(happened, Happened::Dropped(_));
            tally.put(true, "committed");
            tally.put(plans.count() > 1, "committed: by a second plan");
            let drops = self.log.0.iter().any(dropped);
            tally.put(drops, "committed: after a drop before the plan");
            let calls = self.refused_since_plan;
            tally.put(calls, "committed: with refused calls since the plan");
            let others = self.planned_with != asked.table.settings;
            tally.put(others, "committed: under other settings than planned");
            let all = mask::below(self.world.settings.nodes);
            tally.put(before[HELD] != all, "committed: without some node");
            let alone = mask::count(before[HELD]) == 1;
            tally.put(alone, "committed: one node alone");
            tally.put(self.by_rounds, "committed: by a plan of rounds");
        }
    }
}

/// Settings under which what is held may be sound as well, mostly.
fn other_settings(random: &mut Random, own: &[u32]) -> Vec<u32> {
    let mut words = own.to_vec();
    let (nodes, sets, shards) = (words[0], words[1], words[3]);
    let shard = (4 + nodes + random.between(0, shards - 1)) as usize;
    match random.between(0, 6) {
        0 | 1 => words[2] = random.between(1, nodes),
        2 => words[4 + random.between(0, nodes - 1) as usize] = random.between(0, sets - 1),
        3 => words[shard] = words[shard] % 65_536 + 16 * 65_536,
        4 => words[shard] = words[shard] / 256 * 256 + 1,
        5 if nodes < 32 => {
            words[0] += 1;
            words.insert(4 + nodes as usize, random.between(0, sets - 1));
        }
        _ if settings::parse(&words).is_ok() => damage::settings(random, &mut words),
        _ => {}
    }
    words
}

/// Changes the desk: an absent node's slot, or something in a held one's.
fn other_desk(random: &mut Random, world: &World, held: u32, desk: &mut [u32]) -> &'static str {
    let absent = mask::nodes(!held);
    if absent.is_empty() || random.chance(70) {
        return unsound::desk(random, world, held, desk);
    }
    let first = 512 * random.pick(&absent) as usize;
    desk[first..first + 512].fill_with(|| random.word());
    "absent slot"
}

/// What must be found among a thousand sequences at least, and how often.
pub const WANTED: [(&str, u64); 50] = [
    ("committed", 300),
    ("committed: by a second plan", 50),
    ("committed: after a drop before the plan", 100),
    ("committed: with refused calls since the plan", 100),
    ("committed: under other settings than planned", 20),
    ("committed: without some node", 50),
    ("committed: one node alone", 20),
    ("committed: by a plan of rounds", 100),
    ("plan: another one", 100),
    ("wait", 500),
    ("drop: while gathering", 300),
    ("drop: while ordered, some fetched", 50),
    ("drop: while preparing, some prepared", 50),
    ("drop: refused once committed", 20),
    ("prepared: refused while ordered", 20),
    ("a mark refused: marked already", 50),
    ("report", 1000),
    ("report, refused", 300),
    ("report, other settings", 100),
    ("report, another desk", 100),
    ("drop", 300),
    ("drop, refused", 100),
    ("drop, other settings", 20),
    ("drop, another desk", 20),
    ("decide", 500),
    ("decide, refused", 100),
    ("decide, other settings", 50),
    ("decide, another desk", 50),
    ("decide_within", 500),
    ("decide_within, refused", 100),
    ("decide_within, other settings", 50),
    ("decide_within, another desk", 50),
    ("fetched", 500),
    ("fetched, refused", 100),
    ("fetched, other settings", 20),
    ("fetched, another desk", 20),
    ("prepared", 500),
    ("prepared, refused", 100),
    ("prepared, other settings", 20),
    ("prepared, another desk", 20),
    ("fresh", 100),
    ("reads: check_state", 300),
    ("reads: order", 50),
    ("reads: order, refused", 50),
    ("reads: page", 300),
    ("reads: preview", 50),
    ("reads: preview, refused", 50),
    ("reads: preview_all", 50),
    ("reads: a game", 50),
    ("reads: a game, refused", 50),
];

#[cfg(test)]
mod tests {
    use super::Happened::{Dropped, Fetched, Planned, Prepared, Reported};
    use super::*;

    /// Whether the log of two nodes says committed, and who is held by it.
    fn said(log: &[Happened]) -> (bool, u32) {
        let log = Log(log.to_vec());
        (log.committing(log.held()), log.held())
    }

    #[test]
    fn logs_by_hand() {
        let came = [Reported(0), Reported(1)];
        let marks = [Fetched(0), Fetched(1), Prepared(1), Prepared(0)];
        let after = |parts: &[&[Happened]]| said(&parts.concat());
        assert_eq!(said(&[]), (false, 0));
        assert_eq!(after(&[&came, &marks]), (false, 3));
        assert_eq!(after(&[&came, &[Planned]]), (false, 3));
        assert_eq!(after(&[&came, &[Planned], &marks]), (true, 3));
        assert_eq!(after(&[&came, &[Planned], &marks[..3]]), (false, 3));
        assert_eq!(after(&[&came, &[Planned], &marks[1..]]), (false, 3));
        // A drop since the plan, of all, and then a new plan.
        let stopped = [&came[..], &[Planned], &marks[..2], &[Dropped(1)]].concat();
        assert_eq!(said(&stopped), (false, 0));
        assert_eq!(after(&[&stopped, &came, &marks[2..]]), (false, 3));
        assert_eq!(
            after(&[&stopped, &came, &[Planned], &marks[2..]]),
            (false, 3)
        );
        assert_eq!(after(&[&stopped, &came, &[Planned], &marks]), (true, 3));
        // A drop while gathering, of one.
        let one = [Reported(0), Reported(1), Dropped(1), Planned, Fetched(0)];
        assert_eq!(said(&one), (false, 1));
        assert_eq!(after(&[&one, &[Prepared(0)]]), (true, 1));
        // Marks in the other order.
        let turned = [Prepared(0), Fetched(0), Prepared(1), Fetched(1)];
        assert_eq!(after(&[&came, &[Planned], &turned]), (false, 3));
    }
}
