//! Names for what an accepted call, or a refusal with number 14, was about, to
//! show that the random sequences go into every corner.

use crate::calls::{Asked, Kind, Outcome};
use crate::library::Answer;
use crate::records;
use reference::log::{Log, Position, START};
use reference::message::{self, Contents, Form, CUT, HOLDER, TERMINATION};
use reference::settings::{self, Settings};
use reference::state::{self, Phase, Plan, State, View, STATE_WORDS};
use reference::{desk, mask, soundness, words};
use std::collections::BTreeSet;

/// Every situation that enough sequences must come to.
pub const ALL: [&str; 95] = [
    "report: the first",
    "report: a greater view",
    "report: a greater view without termination takes the kept one away",
    "report: a greater view with termination",
    "report: the kept view",
    "report: the kept view adds its termination",
    "report: the kept view repeats its termination",
    "report: the kept view without its termination",
    "report: a smaller view",
    "report: a smaller view's termination",
    "report: replaces one of the node",
    "report: repeats the node's view",
    "report: raises the node's view",
    "report: after a drop, of a view not below the remembered",
    "report: a smaller view than another node's",
    "report: replaces a longer one",
    "report: records off the chain",
    "report: of 512 words",
    "report: of node 31",
    "report: number 18 of a held node",
    "report: number 18 after a drop",
    "report: number 18 though the view is the kept one or greater",
    "report: number 18 before 12",
    "report: number 18 before 13",
    "report: number 11 before 18",
    "report: number 8 at the head",
    "report: number 8 in line",
    "report: number 8 behind a gap",
    "report: number 9 in line",
    "report: number 9 behind a gap",
    "report: number 16 in line",
    "report: number 16 behind a gap",
    "report: number 17 sequence in line",
    "report: number 17 repeat in line",
    "report: number 17 sequence behind a gap",
    "report: number 17 missing at the head",
    "report: number 17 missing in line",
    "report: number 17 missing behind a gap",
    "drop: in gathering",
    "drop: in gathering, the last held",
    "drop: while ordered",
    "drop: while preparing",
    "plan: without termination",
    "plan: with termination",
    "plan: without moves",
    "plan: with moves",
    "plan: a stale machine held",
    "plan: a held node of no shard",
    "plan: a node in shards of two subgroups",
    "plan: a holder that leaves its shard",
    "plan: a target that is not (0, 0)",
    "plan: of all 32 nodes",
    "plan: with the greatest number",
    "plan: a stale member has a longer log",
    "plan: a holder without the greatest end",
    "plan: few members reported the kept view",
    "plan: caps at m alone",
    "plan: a shard with more members than it needs",
    "plan: a shard with as many members as its cap, which is above m",
    "plan: a set twice in a shard",
    "plan: a cap above N",
    "plan: a held member leaves a shard that has reached its cap, which is above m",
    "plan: a held member leaves a shard that has not reached its cap",
    "number 2: a cap below m alone",
    "number 2: a cap above 16 alone",
    "number 2: a cap above 255 alone",
    "order: to a node of no shard",
    "order: to a node of one shard",
    "order: to a node of more shards",
    "order: to a holder",
    "order: cut at (0, 0)",
    "order: cut at the node's end",
    "order: cut before the node's end",
    "order: cut before the target",
    "order: cut between (0, 0) and both the node's end and the target",
    "order: the node's end is the target, and the cut before it",
    "order: the ends' views alone give a later cut",
    "order: the logs part inside a view that both have",
    "order: the logs part at runs of two views",
    "order: the logs part at their first runs",
    "order: the logs share updates after the cut",
    "order: a target inside the holder's run",
    "fetched: one of some",
    "fetched: the last",
    "prepared: one of some",
    "prepared: the last",
    "number 14: not held",
    "number 14: marked already",
    "decide: a wait with machines held",
    "decide: a wait with half of the members held",
    "number 3: nothing remembered, with machines held",
    "number 3: remembered of a node from N up",
    "number 3: a word from 154 up",
    "memory: more of a held node than its report",
    "memory: more of an absent node than the kept view",
];

struct Names(Vec<&'static str>);

impl Names {
    fn put(&mut self, holds: bool, name: &'static str) {
        if holds {
            self.0.push(name);
        }
    }
}

/// The situations of a call that was compared.
pub fn of(asked: &Asked, outcome: &Outcome) -> Vec<&'static str> {
    let mut names = Names(Vec::new());
    let whole = |bytes: &[u8]| words::whole_words(bytes);
    let Ok(settings) = settings::parse(&whole(&asked.table.settings)) else {
        if outcome.answer == 2 {
            bad_caps(&mut names, &whole(&asked.table.settings));
        }
        return names.0;
    };
    if outcome.answer == 3 {
        unsound(&mut names, &settings, &whole(&asked.table.state));
    }
    let before = state::decode(&settings, &whole(&asked.table.state));
    let after = state::decode(&settings, &whole(&outcome.state));
    let (Some(before), Some(after)) = (before, after) else {
        return names.0;
    };
    if asked.kind != Kind::Fresh && !outcome.answer().refused() {
        memory(&mut names, &settings, asked, &before);
    }
    match (asked.kind, outcome.answer()) {
        (Kind::Report, Answer::Number(11 | 18)) => {
            went_back(&mut names, &settings, asked, &before, outcome.answer);
        }
        (kind, Answer::Number(14)) => refused_node(&mut names, kind, &before, asked.node),
        (Kind::Report, Answer::Located(number, index)) => {
            let message = whole(&asked.message);
            let looked_at = records::of_message(Form::Report, &message, number, index);
            let name = format!("report: number {looked_at}");
            names.0.extend(ALL.iter().find(|other| **other == name));
        }
        (_, Answer::Number(_) | Answer::Located(_, _)) => {}
        (Kind::Report, _) => report(&mut names, &settings, asked, &before),
        (Kind::Drop, _) => dropped(&mut names, &before, &after),
        (Kind::Decide, Answer::Plan) => plan(&mut names, &settings, asked, &after),
        (Kind::Decide, _) => waited(&mut names, &before),
        (Kind::Order, _) => order(&mut names, &settings, asked, outcome),
        (Kind::Fetched, _) => {
            let last = after.phase == Phase::Preparing;
            names.put(!last, "fetched: one of some");
            names.put(last, "fetched: the last");
        }
        (Kind::Prepared, _) => {
            let last = after.phase == Phase::Committed;
            names.put(!last, "prepared: one of some");
            names.put(last, "prepared: the last");
        }
        (Kind::Fresh | Kind::CheckState | Kind::Page, _) => {}
        (Kind::Preview | Kind::PreviewAll | Kind::DecideWithin, _) => {}
    }
    names.0
}

/// Settings that would be good but for their caps.
fn bad_caps(names: &mut Names, words: &[u32]) {
    let Some((counts, shards)) = words.split_at_checked(4 + first_word(words) as usize) else {
        return;
    };
    let without: Vec<u32> = shards.iter().map(|word| word % 65536).collect();
    if settings::parse(&[counts, &without].concat()).is_err() {
        return;
    }
    for word in shards {
        let (cap, need) = (word / 65536, word % 256);
        let below = 0 < cap && cap < need;
        names.put(below, "number 2: a cap below m alone");
        names.put(cap > 16, "number 2: a cap above 16 alone");
        names.put(cap > 255, "number 2: a cap above 255 alone");
    }
}

/// N, or what stands in its place.
fn first_word(words: &[u32]) -> u32 {
    words.first().map_or(0, |&nodes| nodes.min(32))
}

fn refused_node(names: &mut Names, kind: Kind, before: &State, node: u32) {
    let held = mask::has(before.held, node);
    names.put(!held, "number 14: not held");
    let marking = matches!(kind, Kind::Fetched | Kind::Prepared);
    names.put(held && marking, "number 14: marked already");
}

fn report(names: &mut Names, settings: &Settings, asked: &Asked, before: &State) {
    let message = words::whole_words(&asked.message);
    let Ok(report) = message::read_with(Form::Report, settings, &message) else {
        return;
    };
    view(names, before, &report);
    remembered(names, before, &report);
    if mask::has(before.held, report.node) {
        let desk = words::whole_words(&asked.table.desk);
        replaced(names, &desk, &message, &report);
    }
    let records = 1 + report.records.len();
    names.put(4 * records < message.len(), "report: records off the chain");
    names.put(message.len() == 512, "report: of 512 words");
    names.put(report.node == 31, "report: of node 31");
}

/// Where an unsound state's words on remembered views may be wrong.
fn unsound(names: &mut Names, settings: &Settings, words: &[u32]) {
    if words.len() != STATE_WORDS {
        return;
    }
    let any = |from: usize, to: usize| words[from..to].iter().any(|&word| word != 0);
    let nothing = !any(122, 154) && words[52] != 0;
    names.put(nothing, "number 3: nothing remembered, with machines held");
    let dead = any(122 + settings.nodes as usize, 154);
    names.put(dead, "number 3: remembered of a node from N up");
    names.put(any(154, STATE_WORDS), "number 3: a word from 154 up");
}

/// What a sound state remembers beside what is held.
fn memory(names: &mut Names, settings: &Settings, asked: &Asked, before: &State) {
    let kept = before.kept.as_ref().map_or(0, |kept| kept.number);
    for node in 0..settings.nodes {
        let remembered = before.remembered[node as usize];
        if !mask::has(before.held, node) {
            let more = remembered > kept;
            names.put(more, "memory: more of an absent node than the kept view");
        } else {
            let first = 4 * (desk::SLOT_WORDS * node as usize + 1);
            let view = words::whole_words(&asked.table.desk[first..first + 4])[0];
            let more = remembered > view;
            names.put(more, "memory: more of a held node than its report");
        }
    }
}

/// A report refused with 18, or with 11 where 18 comes after it.
fn went_back(names: &mut Names, settings: &Settings, asked: &Asked, before: &State, number: u32) {
    let message = words::whole_words(&asked.message);
    let (node, view) = (message[0], message[1]);
    let smaller = view < before.remembered[node as usize];
    if number == 11 {
        names.put(smaller, "report: number 11 before 18");
        return;
    }
    let held = mask::has(before.held, node);
    let kept = before.kept.as_ref().map_or(0, |kept| kept.number);
    names.put(held, "report: number 18 of a held node");
    names.put(!held, "report: number 18 after a drop");
    names.put(
        view >= kept,
        "report: number 18 though the view is the kept one or greater",
    );
    if let Ok(report) = message::read_with(Form::Report, settings, &message) {
        let masks = soundness::row_12(settings, before, &report);
        names.put(masks, "report: number 18 before 12");
        let termination = soundness::row_13(before, &report);
        names.put(termination, "report: number 18 before 13");
    }
}

/// The reported view beside those that are remembered.
fn remembered(names: &mut Names, before: &State, report: &Contents) {
    let own = before.remembered[report.node as usize];
    let held = mask::has(before.held, report.node);
    names.put(
        held && report.view == own,
        "report: repeats the node's view",
    );
    names.put(held && report.view > own, "report: raises the node's view");
    names.put(
        !held && own > 0,
        "report: after a drop, of a view not below the remembered",
    );
    let greater = before.remembered.iter().any(|&view| view > report.view);
    names.put(greater, "report: a smaller view than another node's");
}

/// The reported view and termination beside the kept ones.
fn view(names: &mut Names, before: &State, report: &Contents) {
    let terminated = !report.of_kind(TERMINATION).is_empty();
    let kept_one = before.termination.is_some();
    match before.kept.as_ref().map(|kept| kept.number) {
        None => names.put(true, "report: the first"),
        Some(kept) if report.view > kept => {
            names.put(true, "report: a greater view");
            names.put(terminated, "report: a greater view with termination");
            names.put(
                !terminated && kept_one,
                "report: a greater view without termination takes the kept one away",
            );
        }
        Some(kept) if report.view == kept => {
            names.put(true, "report: the kept view");
            match (terminated, kept_one) {
                (true, false) => names.put(true, "report: the kept view adds its termination"),
                (true, true) => names.put(true, "report: the kept view repeats its termination"),
                (false, true) => names.put(true, "report: the kept view without its termination"),
                (false, false) => {}
            }
        }
        Some(_) => {
            names.put(true, "report: a smaller view");
            names.put(terminated, "report: a smaller view's termination");
        }
    }
}

fn replaced(names: &mut Names, desk: &[u32], message: &[u32], report: &Contents) {
    let slot = desk::slot(desk, report.node);
    names.put(true, "report: replaces one of the node");
    let rest = slot.iter().skip(message.len());
    let longer = rest.copied().any(|word| word != 0);
    names.put(longer, "report: replaces a longer one");
}

fn dropped(names: &mut Names, before: &State, after: &State) {
    let gathering = before.phase == Phase::Gathering;
    names.put(gathering, "drop: in gathering");
    names.put(
        gathering && after.held == 0,
        "drop: in gathering, the last held",
    );
    names.put(before.phase == Phase::Ordered, "drop: while ordered");
    names.put(before.phase == Phase::Preparing, "drop: while preparing");
}

fn waited(names: &mut Names, before: &State) {
    names.put(before.held != 0, "decide: a wait with machines held");
    let members = before.kept.as_ref().map_or(0, |kept| kept.members);
    let half = 2 * mask::count(before.held & members) == mask::count(members);
    names.put(
        half && members != 0,
        "decide: a wait with half of the members held",
    );
}

fn plan(names: &mut Names, settings: &Settings, asked: &Asked, after: &State) {
    let (Some(plan), Some(kept)) = (&after.plan, &after.kept) else {
        return;
    };
    let carried = |&node: &u32| carried(plan, node);
    let held = mask::nodes(after.held);
    let terminated = after.termination.is_some();
    names.put(!terminated, "plan: without termination");
    names.put(terminated, "plan: with termination");
    names.put(plan.total == 0, "plan: without moves");
    names.put(plan.total > 0, "plan: with moves");
    let none = held.iter().any(|node| carried(node) == 0);
    names.put(none, "plan: a held node of no shard");
    let two = held.iter().any(|node| carried(node) > 1);
    names.put(two, "plan: a node in shards of two subgroups");
    let mut holders = plan.holders.iter().zip(&plan.masks);
    let leaves = holders.any(|(&holder, &own)| !mask::has(own, holder));
    names.put(leaves, "plan: a holder that leaves its shard");
    let targets = plan.targets.iter().any(|target| target.view > 0);
    names.put(targets, "plan: a target that is not (0, 0)");
    names.put(plan.members == u32::MAX, "plan: of all 32 nodes");
    names.put(plan.number == u32::MAX, "plan: with the greatest number");
    caps(names, settings, after.held, plan, kept);
    let desk = words::whole_words(&asked.table.desk);
    let held = held.into_iter();
    let reports: Vec<Contents> = held
        .filter_map(|node| desk::report(settings, &desk, node))
        .collect();
    reported(names, plan, kept, &reports, terminated);
}

/// The shards' members beside their needs and caps.
fn caps(names: &mut Names, settings: &Settings, held: u32, plan: &Plan, kept: &View) {
    let narrow = settings.cap_of == settings.need_of;
    names.put(narrow, "plan: caps at m alone");
    for shard in 0..settings.shards {
        let (need, cap) = (settings.need(shard), settings.cap(shard));
        let own = plan.masks[shard as usize];
        let count = mask::count(own);
        names.put(
            count > need,
            "plan: a shard with more members than it needs",
        );
        let reached = count == cap && cap > need;
        names.put(
            reached,
            "plan: a shard with as many members as its cap, which is above m",
        );
        let sets: BTreeSet<u32> = mask::nodes(own)
            .into_iter()
            .map(|node| settings.set(node))
            .collect();
        names.put(sets.len() < count as usize, "plan: a set twice in a shard");
        names.put(cap > settings.nodes, "plan: a cap above N");
        let leaves = kept.masks[shard as usize] & held & !own != 0;
        names.put(
            leaves && reached,
            "plan: a held member leaves a shard that has reached its cap, which is above m",
        );
        names.put(
            leaves && count < cap,
            "plan: a held member leaves a shard that has not reached its cap",
        );
    }
}

/// What a plan was made of.
fn reported(names: &mut Names, plan: &Plan, kept: &View, reports: &[Contents], terminated: bool) {
    let stale = |report: &Contents| report.view < kept.number;
    names.put(reports.iter().any(stale), "plan: a stale machine held");
    let is_member = |report: &&Contents| mask::has(kept.members, report.node);
    let fresh = reports.iter().filter(is_member).filter(|r| !stale(r));
    names.put(
        2 * fresh.count() <= mask::count(kept.members) as usize,
        "plan: few members reported the kept view",
    );
    for (shard, &own) in (0..).zip(&kept.masks) {
        let end = |report: &Contents| Log::of(report, shard).end();
        let target = plan.targets[shard as usize];
        let holder = plan.holders[shard as usize];
        let of_holder = reports.iter().find(|r| r.node == holder).map(end);
        let members = || reports.iter().filter(|r| mask::has(own, r.node));
        let longer = members().any(|r| stale(r) && end(r) > target);
        names.put(
            longer && !terminated,
            "plan: a stale member has a longer log",
        );
        let greater = members().any(|r| !stale(r) && Some(end(r)) > of_holder);
        names.put(greater, "plan: a holder without the greatest end");
    }
}

/// How many shards a node carries.
fn carried(plan: &Plan, node: u32) -> usize {
    let has = |own: &&u32| mask::has(**own, node);
    plan.masks.iter().filter(has).count()
}

fn order(names: &mut Names, settings: &Settings, asked: &Asked, outcome: &Outcome) {
    let buffer = words::whole_words(&outcome.buffer);
    let desk = words::whole_words(&asked.table.desk);
    let order = message::read_with(Form::Order, settings, &buffer);
    let own = desk::report(settings, &desk, asked.node);
    let (Ok(order), Some(own)) = (order, own) else {
        return;
    };
    let cuts = order.of_kind(CUT);
    names.put(cuts.is_empty(), "order: to a node of no shard");
    names.put(cuts.len() == 1, "order: to a node of one shard");
    names.put(cuts.len() > 1, "order: to a node of more shards");
    let holds = |record: &message::Triple| record.word1 == asked.node;
    let holder = order.of_kind(HOLDER).iter().any(holds);
    names.put(holder, "order: to a holder");
    for cut in cuts {
        let end = Log::of(&own, cut.shard()).end();
        let target = order.find(TERMINATION, cut.shard());
        let target = target.map_or((0, 0), |target| (target.word1, target.word2));
        let (end, cut) = ((end.view, end.k), (cut.word1, cut.word2));
        names.put(cut == (0, 0), "order: cut at (0, 0)");
        names.put(cut == end && cut.0 > 0, "order: cut at the node's end");
        names.put(cut < end, "order: cut before the node's end");
        names.put(cut < target, "order: cut before the target");
        names.put(
            cut != (0, 0) && cut < end && cut < target,
            "order: cut between (0, 0) and both the node's end and the target",
        );
    }
    for holder in order.of_kind(HOLDER) {
        let shard = holder.shard();
        let at = |kind| {
            let record = order.find(kind, shard);
            record.map_or(START, |record| Position::new(record.word1, record.word2))
        };
        if let Some(holder) = desk::report(settings, &desk, holder.word1) {
            let (own, holder) = (Log::of(&own, shard), Log::of(&holder, shard));
            parted(names, &own, &holder, at(TERMINATION), at(CUT));
        }
    }
}

/// How the node's log and the holder's part, and where the cut lies.
fn parted(names: &mut Names, own: &Log, holder: &Log, target: Position, cut: Position) {
    let wanted = holder.up_to(target);
    let end = own.end();
    names.put(
        end == target && cut < target,
        "order: the node's end is the target, and the cut before it",
    );
    let by_views = wanted.up_to(Position::new(end.view, u32::MAX)).end();
    names.put(
        cut < end.min(by_views),
        "order: the ends' views alone give a later cut",
    );
    let next = |log: &Log| {
        let mut later = log.runs.iter().filter(|run| run.view >= cut.view);
        let run = later.find(|run| run.view > cut.view || run.count > cut.k);
        run.map(|run| run.view)
    };
    if let (Some(own_view), Some(view)) = (next(own), next(&wanted)) {
        let inside = own_view == cut.view || view == cut.view;
        names.put(
            inside && cut.view > 0,
            "order: the logs part inside a view that both have",
        );
        names.put(!inside, "order: the logs part at runs of two views");
        names.put(cut == START, "order: the logs part at their first runs");
    }
    let in_both = |view: u32| own.holds(Position::new(view, 1));
    let again = wanted
        .runs
        .iter()
        .any(|run| run.view > cut.view && in_both(run.view));
    names.put(again, "order: the logs share updates after the cut");
    let past = target.k.checked_add(1);
    let inside = past.is_some_and(|k| holder.holds(Position::new(target.view, k)));
    names.put(inside, "order: a target inside the holder's run");
}
