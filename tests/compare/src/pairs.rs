//! Pairs of worlds that agree on a subgroup: all that its page may depend on is
//! the same in both, and the rest is made anew. Both are sound.
//!
//! What stays: nodes and sets, the subgroup's shards, phase, kept number, held
//! nodes and the view that each reported, whether a termination is kept, and the
//! subgroup's masks, positions, runs and plan. A cap that is 0 may become m.

use crate::calls::{Table, DESK_BYTES};
use crate::generate;
use crate::random::Random;
use reference::desk::{self, SLOT_WORDS};
use reference::log::{Log, Position};
use reference::message::{Contents, Triple, MEMBERS, MOST_RECORDS, RUN, TERMINATION};
use reference::placement::Subgroup;
use reference::settings::{self, Settings, MOST_NODES, MOST_SETS, MOST_SHARDS, SUBGROUPS};
use reference::state::{self, Phase, Plan, State, View};
use reference::{mask, soundness, words};

/// A sound world, taken apart.
pub struct World {
    pub words: Vec<u32>,
    pub settings: Settings,
    pub state: State,
    /// The held nodes' reports, ascending.
    pub reports: Vec<Contents>,
}

/// The world of a table, if it is sound.
pub fn world(table: &Table) -> Option<World> {
    let words = words::from_bytes(&table.settings)?;
    let settings = settings::parse(&words).ok()?;
    let state = state::decode(&settings, &words::from_bytes(&table.state)?)?;
    let desk = words::from_bytes(&table.desk).filter(|_| table.desk.len() == DESK_BYTES)?;
    let reports = soundness::sound(&settings, &state, &desk)?;
    Some(World {
        words,
        settings,
        state,
        reports,
    })
}

/// Another world that agrees with this one on a subgroup, if one is found.
pub fn partner(random: &mut Random, world: &World, subgroup: u32) -> Option<Table> {
    let maker = Maker {
        world,
        subgroup,
        own: world.settings.shards_of(subgroup),
    };
    (0..4).find_map(|_| maker.table(random))
}

struct Maker<'a> {
    world: &'a World,
    subgroup: u32,
    /// The subgroup's shards.
    own: Vec<u32>,
}

impl Maker<'_> {
    fn table(&self, random: &mut Random) -> Option<Table> {
        let members: Vec<u32> = self.members(random);
        let words = self.settings(random, &members)?;
        let settings = settings::parse(&words).expect("settings made anew are good");
        let mut state = self.state(random, &settings, &members);
        let mut reports = self.reports(random, &settings, &state, &members);
        self.terminate(random, &settings, &mut state, &mut reports);
        self.plan(random, &settings, &mut state, &reports)?;
        if reports.iter().any(|r| r.records.len() >= MOST_RECORDS) {
            return None;
        }
        let desk = self.desk(random, &reports);
        soundness::sound(&settings, &state, &desk)?;
        Some(Table {
            settings: words::to_bytes(&words),
            state: words::to_bytes(&state::encode(&state)),
            desk: words::to_bytes(&desk),
        })
    }

    fn gathering(&self) -> bool {
        self.world.state.phase == Phase::Gathering
    }

    /// The held nodes that reported the kept view.
    fn reporters(&self) -> u32 {
        let kept = self.world.state.kept.as_ref().map_or(0, |view| view.number);
        let reports = self.world.reports.iter();
        let own = reports.filter(|report| report.view == kept);
        own.map(|report| mask::only(report.node)).sum()
    }

    /// The members of the kept view, and of each report: those that there were,
    /// or others.
    fn members(&self, random: &mut Random) -> Vec<u32> {
        let World {
            settings,
            state,
            reports,
            ..
        } = self.world;
        let mut other = |members: u32, masks: &[u32], must: u32| {
            if random.chance(50) {
                return members;
            }
            let own = self.own.iter().map(|&shard| masks[shard as usize]);
            let fewest = own.fold(must, |all, mask| all | mask);
            fewest | members & random.word() | mask::below(settings.nodes) & random.word()
        };
        let Some(view) = &state.kept else {
            return vec![0];
        };
        let mut kept = other(view.members, &view.masks, self.reporters());
        if !self.gathering() && 2 * mask::count(kept & state.held) <= mask::count(kept) {
            kept = view.members;
        }
        let of_report = |report: &Contents| match report.view == view.number {
            true => kept,
            false => {
                let masks = report.shard_masks(settings);
                other(report.members, &masks, mask::only(report.node))
            }
        };
        let all: Vec<u32> = reports.iter().map(of_report).collect();
        [vec![kept], all].concat()
    }

    /// The words of other settings, under which each other subgroup has at most
    /// as many shards as the members of every view can fill.
    fn settings(&self, random: &mut Random, members: &[u32]) -> Option<Vec<u32>> {
        let World {
            settings,
            state,
            words,
            ..
        } = self.world;
        let mut room = members.iter().map(|&own| mask::count(own)).min()?;
        let mut most_nodes = settings.nodes;
        if !self.gathering() {
            room = room.min(mask::count(self.reporters()));
            most_nodes = mask::count(state.held);
        }
        if state.kept.is_none() {
            room = MOST_SHARDS;
        }
        let fewest = self.own.last().map_or(1, |last| last + 1);
        let shards = match random.chance(20) {
            true => settings.shards.max(fewest),
            false => random.between(fewest, MOST_SHARDS),
        };
        let needs = self.own.iter().map(|&shard| settings.need(shard));
        let used = settings.set_of.iter().map(|set| set + 1);
        let sets = random.between(used.chain(needs).max()?, MOST_SETS);
        let mut all = vec![settings.nodes, sets, random.between(1, most_nodes)];
        all.push(shards);
        all.extend(&settings.set_of);
        let mut taken = [0; SUBGROUPS as usize];
        taken[self.subgroup as usize] = u32::MAX;
        let narrow = random.chance(50);
        for shard in 0..shards {
            if self.own.contains(&shard) {
                let first = 4 + settings.nodes as usize;
                all.push(other_cap(random, words[first + shard as usize]));
                continue;
            }
            let free = |number: &u32| taken[*number as usize] < room;
            let free: Vec<u32> = (0..SUBGROUPS).filter(free).collect();
            let subgroup = match free.is_empty() {
                true if shard < fewest => return None,
                true => {
                    all[3] = shard;
                    break;
                }
                false => random.pick(&free),
            };
            taken[subgroup as usize] += 1;
            let need = match narrow || !self.gathering() && random.chance(80) {
                true => 1,
                false => random.between(1, sets.min(4)),
            };
            let above = random.between(need, 16);
            let cap = random.pick(&[0, 0, need, 16, above]);
            all.push(cap * 65536 + subgroup * 256 + need);
        }
        Some(all)
    }

    /// Whether a shard is the subgroup's.
    fn is_own(&self, shard: u32) -> bool {
        self.own.contains(&shard)
    }

    /// Masks of a view: the subgroup's as they were, and others. Each shard of
    /// another subgroup has one of the nodes `first`.
    fn masks(
        &self,
        random: &mut Random,
        settings: &Settings,
        masks: &[u32],
        members: u32,
        first: u32,
    ) -> Vec<u32> {
        let mut all = vec![0; settings.shards as usize];
        for &shard in &self.own {
            all[shard as usize] = masks[shard as usize];
        }
        let keep = random.between(0, 100);
        let others = (0..SUBGROUPS).filter(|&number| number != self.subgroup);
        for number in others {
            let shards = settings.shards_of(number);
            let mut nodes = mask::nodes(first);
            random.shuffle(&mut nodes);
            nodes.truncate(shards.len());
            let mut left = members;
            for (&shard, node) in shards.iter().zip(nodes) {
                all[shard as usize] = mask::only(node);
                left &= !mask::only(node);
            }
            for node in mask::nodes(left) {
                if !shards.is_empty() && random.chance(keep) {
                    all[random.pick(&shards) as usize] |= mask::only(node);
                }
            }
        }
        all
    }

    /// The state without its termination and plan, with other marks and another
    /// memory.
    fn state(&self, random: &mut Random, settings: &Settings, members: &[u32]) -> State {
        let before = &self.world.state;
        let mut state = state::fresh();
        state.phase = before.phase;
        state.held = before.held;
        let some = random.word();
        let part = match before.held & some {
            all if all == before.held => before.held & (before.held - 1),
            part => part,
        };
        (state.fetched, state.prepared) = match before.phase {
            Phase::Gathering => (0, 0),
            Phase::Ordered => (part, 0),
            Phase::Preparing => (before.held, part),
            Phase::Committed => (before.held, before.held),
        };
        let Some(view) = &before.kept else {
            return state;
        };
        let first = match self.gathering() {
            true => members[0],
            false => self.reporters(),
        };
        state.kept = Some(View {
            number: view.number,
            members: members[0],
            masks: self.masks(random, settings, &view.masks, members[0], first),
        });
        for node in 0..settings.nodes.min(MOST_NODES) {
            let reported = self.world.reports.iter().find(|r| r.node == node);
            let any = random.word();
            state.remembered[node as usize] = match reported {
                Some(report) => random.between(report.view, view.number),
                None => random.pick(&[0, view.number, any]),
            };
        }
        state
    }

    /// The reports with their masks and runs, and no termination.
    fn reports(
        &self,
        random: &mut Random,
        settings: &Settings,
        state: &State,
        members: &[u32],
    ) -> Vec<Contents> {
        let Some(kept) = &state.kept else {
            return Vec::new();
        };
        let mut all = Vec::new();
        for (report, &members) in self.world.reports.iter().zip(&members[1..]) {
            let masks = match report.view == kept.number {
                true => kept.masks.clone(),
                false => {
                    let masks = report.shard_masks(&self.world.settings);
                    self.masks(random, settings, &masks, members, members)
                }
            };
            let mut records = Vec::new();
            for (shard, mask) in (0..).zip(masks) {
                records.push(Triple::new(MEMBERS, shard, mask, 0));
            }
            for shard in 0..settings.shards {
                let runs = match self.is_own(shard) {
                    true => Log::of(report, shard).runs,
                    false => other_runs(random, report.view),
                };
                let runs = runs.iter();
                records.extend(runs.map(|run| Triple::new(RUN, shard, run.view, run.count)));
            }
            all.push(Contents {
                node: report.node,
                view: report.view,
                members,
                records,
            });
        }
        all
    }

    /// Puts the terminations in: the kept one, which some of the reports of the
    /// kept view carry, and those of older reports that carried one.
    fn terminate(
        &self,
        random: &mut Random,
        settings: &Settings,
        state: &mut State,
        reports: &mut [Contents],
    ) {
        let before = &self.world.state;
        let Some(view) = state.kept.as_ref() else {
            return;
        };
        let mut kept = before.termination.clone();
        if let Some(positions) = &mut kept {
            positions.resize(settings.shards as usize, Position::new(0, 0));
            for shard in (0..settings.shards).filter(|&shard| !self.is_own(shard)) {
                let own = view.masks[shard as usize] & self.reporters();
                let other = other_position(random, view.number);
                positions[shard as usize] = match random.chance(30) && self.gathering() {
                    true => other,
                    false => reached(random, reports, own, shard),
                };
            }
        }
        for (report, older) in reports.iter_mut().zip(&self.world.reports) {
            let positions = match report.view == view.number {
                true => kept.clone().filter(|_| random.chance(50)),
                false => soundness::termination(older).map(|mut positions| {
                    positions.resize(settings.shards as usize, Position::new(0, 0));
                    for shard in (0..settings.shards).filter(|&shard| !self.is_own(shard)) {
                        positions[shard as usize] = other_position(random, report.view);
                    }
                    positions
                }),
            };
            let record =
                |(shard, at): (u32, &Position)| Triple::new(TERMINATION, shard, at.view, at.k);
            let records: Vec<Triple> = (0..).zip(positions.iter().flatten()).map(record).collect();
            let at = settings.shards as usize;
            report.records.splice(at..at, records);
        }
        state.termination = kept;
    }

    /// Puts the plan in, with the subgroup's masks and valid ones for the
    /// others, if there are.
    fn plan(
        &self,
        random: &mut Random,
        settings: &Settings,
        state: &mut State,
        reports: &Vec<Contents>,
    ) -> Option<()> {
        let Some(before) = &self.world.state.plan else {
            return Some(());
        };
        let (view, holdings) = soundness::gathered(settings, state, reports)
            .quorum()
            .map(|(view, holdings)| (view.clone(), holdings))
            .ok()?;
        let mut masks = vec![0; settings.shards as usize];
        for &shard in &self.own {
            masks[shard as usize] = before.masks[shard as usize];
        }
        let others: Vec<u32> = masks.iter().map(|_| random.word()).collect();
        let wild = random.chance(50);
        let mut total = 0;
        for number in 0..SUBGROUPS {
            let subgroup = |old| Subgroup {
                settings,
                number,
                held: state.held,
                old,
            };
            if number != self.subgroup {
                let old = if wild { &others } else { &view.masks };
                let placed = subgroup(old).any_best()?;
                for shard in settings.shards_of(number) {
                    masks[shard as usize] = placed[shard as usize];
                }
            }
            total += subgroup(&view.masks).moves(&masks);
        }
        state.plan = Some(Plan {
            number: view.number + 1,
            members: state.held,
            total,
            masks,
            holders: holdings.iter().map(|h| h.holder).collect(),
            targets: holdings.iter().map(|h| h.target).collect(),
        });
        Some(())
    }

    /// The desk with the reports laid out anew, words off the chain at the
    /// slots' ends, and anything in the slots of nodes that are not held.
    fn desk(&self, random: &mut Random, reports: &[Contents]) -> Vec<u32> {
        let mut all = vec![random.pick(&[0, 1, u32::MAX]); desk::DESK_WORDS];
        for node in 0..MOST_NODES {
            let first = node as usize * SLOT_WORDS;
            let slot = &mut all[first..first + SLOT_WORDS];
            if random.chance(50) {
                slot.fill_with(|| random.word());
            } else {
                slot.fill(random.pick(&[0, 7]));
            }
            if let Some(report) = reports.iter().find(|report| report.node == node) {
                let words = generate::message(random, report);
                slot[..words.len()].copy_from_slice(&words);
            }
        }
        all
    }
}

/// A shard's word with a cap that means the same.
fn other_cap(random: &mut Random, word: u32) -> u32 {
    let need = word % 256;
    match word / 65536 {
        0 if random.chance(50) => word + need * 65536,
        cap if cap == need && random.chance(50) => word - need * 65536,
        _ => word,
    }
}

/// Up to three runs of views up to `last`.
fn other_runs(random: &mut Random, last: u32) -> Vec<reference::log::Run> {
    let mut runs = Vec::new();
    for view in last.saturating_sub(2).max(1)..=last {
        if random.chance(40) {
            let count = random.pick(&[1, 2, 5, 9, u32::MAX]);
            runs.push(reference::log::Run { view, count });
        }
    }
    runs
}

fn other_position(random: &mut Random, last: u32) -> Position {
    let (view, k) = generate::position(random, last);
    Position::new(view, k)
}

/// A position that the log of one of these nodes has.
fn reached(random: &mut Random, reports: &[Contents], nodes: u32, shard: u32) -> Position {
    let own: Vec<&Contents> = reports
        .iter()
        .filter(|report| mask::has(nodes, report.node))
        .collect();
    if own.is_empty() || random.chance(20) {
        return Position::new(0, 0);
    }
    let runs = Log::of(random.pick(&own), shard).runs;
    match runs.is_empty() {
        true => Position::new(0, 0),
        false => {
            let run = random.pick(&runs);
            Position::new(run.view, random.between(1, run.count))
        }
    }
}

/// Whether two worlds agree on all that a subgroup's page may depend on. Of the
/// kept view's members, on which it may, it is not asked: no page shows them.
pub fn agree(one: &World, other: &World, subgroup: u32) -> bool {
    let of_settings = |world: &World| {
        let settings = &world.settings;
        let shards = settings.shards_of(subgroup).into_iter();
        let shards = shards.map(|shard| (shard, settings.need(shard), settings.cap(shard)));
        let shards: Vec<(u32, u32, u32)> = shards.collect();
        (settings.nodes, settings.set_of.clone(), shards)
    };
    let own = one.settings.shards_of(subgroup);
    let masks = |masks: &[u32]| -> Vec<u32> {
        let shards = own.iter();
        shards.map(|&shard| masks[shard as usize]).collect()
    };
    let of_state = |world: &World| {
        let state = &world.state;
        let kept = state.kept.as_ref();
        let positions = state.termination.as_ref().map(|all| -> Vec<Position> {
            let shards = own.iter();
            shards.map(|&shard| all[shard as usize]).collect()
        });
        (
            (state.phase, state.held, positions),
            kept.map(|view| (view.number, masks(&view.masks))),
            state.plan.as_ref().map(|plan| masks(&plan.masks)),
        )
    };
    let of_report = |world: &World, report: &Contents| {
        let logs: Vec<Log> = own.iter().map(|&shard| Log::of(report, shard)).collect();
        let masks = masks(&report.shard_masks(&world.settings));
        (report.node, report.view, masks, logs)
    };
    let mut reports = one.reports.iter().zip(&other.reports);
    of_settings(one) == of_settings(other)
        && of_state(one) == of_state(other)
        && one.reports.len() == other.reports.len()
        && reports.all(|(left, right)| of_report(one, left) == of_report(other, right))
}

/// The parts in which two worlds differ, by name.
pub fn differing(one: &World, other: &World) -> Vec<&'static str> {
    let plans = |world: &World| world.state.plan.clone();
    let records = |world: &World, kind: u32| -> Vec<Vec<Triple>> {
        let reports = world.reports.iter();
        reports.map(|report| report.of_kind(kind)).collect()
    };
    let members = |world: &World| -> Vec<u32> { world.reports.iter().map(|r| r.members).collect() };
    let kept = |world: &World| world.state.kept.as_ref().map(|view| view.members);
    let decided = |world: &World| {
        let quorum = soundness::gathered(&world.settings, &world.state, &world.reports);
        let wait = quorum.quorum().err();
        wait.map(|wait| (wait.reason(), wait.value()))
    };
    let (left, right) = (&one.settings, &other.settings);
    let (before, after) = (&one.state, &other.state);
    let marks = |state: &State| (state.fetched, state.prepared);
    let all = [
        ("S", left.shards != right.shards),
        ("F", left.sets != right.sets),
        (
            "least size",
            left.least_group_size != right.least_group_size,
        ),
        ("words of shards", one.words != other.words),
        ("kept members", kept(one) != kept(other)),
        ("members of reports", members(one) != members(other)),
        ("masks", records(one, MEMBERS) != records(other, MEMBERS)),
        ("runs", records(one, RUN) != records(other, RUN)),
        (
            "terminations of reports",
            records(one, TERMINATION) != records(other, TERMINATION),
        ),
        ("kept termination", before.termination != after.termination),
        ("marks", marks(before) != marks(after)),
        ("memory", before.remembered != after.remembered),
        (
            "plan's total",
            plans(one).map(|p| p.total) != plans(other).map(|p| p.total),
        ),
        (
            "plan's masks",
            plans(one).map(|p| p.masks) != plans(other).map(|p| p.masks),
        ),
        ("waits 1 to 4", decided(one) != decided(other)),
    ];
    let all = all.into_iter().filter(|(_, differ)| *differ);
    all.map(|(name, _)| name).collect()
}

/// Every part in which pairs must often differ.
pub const PARTS: [&str; 15] = [
    "S",
    "F",
    "least size",
    "words of shards",
    "kept members",
    "members of reports",
    "masks",
    "runs",
    "terminations of reports",
    "kept termination",
    "marks",
    "memory",
    "plan's total",
    "plan's masks",
    "waits 1 to 4",
];
