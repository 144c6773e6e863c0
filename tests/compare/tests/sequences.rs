//! Random sequences of events on the reference itself: every accepted event
//! keeps the state sound, every order can be written and its cuts are what two
//! logs share, every plan is valid and complete, and each node's greatest
//! reported view is remembered.

use differential::random::Random;
use differential::sequences::{self, Event, Given, Table};
use differential::world;
use reference::events::Decision;
use reference::log::{Log, Position, START};
use reference::mask;
use reference::message::{self, Contents, Form, CUT, HOLDER, TERMINATION};
use reference::settings::{self, Settings};
use reference::state::{self, Phase, State};
use reference::{desk, soundness};
use std::collections::{BTreeMap, BTreeSet};

const SEQUENCES: u64 = 700;
const EVENTS: u64 = 120;

fn decoded(settings: &Settings, table: &Table) -> State {
    state::decode(settings, &table.state).expect("a state's words")
}

fn is_sound(settings: &Settings, table: &Table) -> bool {
    soundness::sound(settings, &decoded(settings, table), &table.desk).is_some()
}

fn name(event: &Event) -> &'static str {
    match event {
        Event::Report(_) => "report",
        Event::Drop(_) => "drop",
        Event::Decide => "decide",
        Event::Order(_) => "order",
        Event::Fetched(_) => "fetched",
        Event::Prepared(_) => "prepared",
    }
}

fn label(event: &Event, given: &Given) -> String {
    match given {
        Given::Decision(Decision::Wait(wait)) => format!("wait {}", wait.reason()),
        Given::Decision(Decision::Plan) => "plan".into(),
        _ => name(event).into(),
    }
}

#[test]
fn accepted_events_keep_the_state_sound() {
    let mut seen: BTreeMap<String, u32> = BTreeMap::new();
    for index in 0..SEQUENCES {
        let random = &mut Random::of_input(11, index);
        let world = world::world(random);
        let settings = settings::parse(&world.words).unwrap();
        let mut table = Table::fresh(random, &world.words);
        let mut greatest = [0; 32];
        for _ in 0..EVENTS {
            let state = decoded(&settings, &table);
            let event = sequences::event(random, &world, &state);
            match table.after(&event) {
                Ok((next, given)) => {
                    check(&settings, &table, &next, &event, &given);
                    if let Event::Report(message) = &event {
                        let own: &mut u32 = &mut greatest[message[0] as usize];
                        assert!(message[1] >= *own, "a step back");
                        *own = message[1];
                    }
                    assert_eq!(decoded(&settings, &next).remembered, greatest);
                    *seen.entry(label(&event, &given)).or_default() += 1;
                    table = next;
                }
                Err(refusal) => {
                    check_step_back(&event, &greatest, refusal.number.0);
                    let label = format!("{} number {}", name(&event), refusal.number.0);
                    *seen.entry(label).or_default() += 1;
                }
            }
        }
        if decoded(&settings, &table).phase == Phase::Committed {
            *seen.entry("committed".into()).or_default() += 1;
        }
    }
    println!("{seen:#?}");
    let wanted = "report drop plan order fetched prepared committed";
    for label in wanted.split(' ') {
        assert!(seen.get(label).is_some_and(|&times| times >= 50), "{label}");
    }
    for reason in 1..=5 {
        assert!(
            seen.contains_key(&format!("wait {reason}")),
            "wait {reason}"
        );
    }
    for number in (4..=13).chain(16..=18) {
        assert!(
            seen.contains_key(&format!("report number {number}")),
            "{number}"
        );
    }
}

/// Number 18 is given only to a smaller view than the node's earlier one, and
/// such a view gets no later number.
fn check_step_back(event: &Event, greatest: &[u32; 32], number: u32) {
    if let Event::Report(message) = event {
        let own = message
            .first()
            .and_then(|&node| greatest.get(node as usize));
        let back = own.is_some_and(|&own| message.get(1).is_some_and(|&view| view < own));
        assert!(number != 18 || back, "{event:?}");
        assert!(number != 12 && number != 13 || !back, "{event:?}");
    }
}

fn check(settings: &Settings, before: &Table, after: &Table, event: &Event, given: &Given) {
    assert!(is_sound(settings, after), "{event:?}");
    assert_eq!(before.settings, after.settings);
    if !matches!(event, Event::Report(_)) {
        assert_eq!(before.desk, after.desk);
    }
    match (event, given) {
        (Event::Decide, Given::Decision(Decision::Plan)) => check_plan(settings, after),
        (Event::Decide, _) => assert_eq!(before, after),
        (Event::Order(node), Given::Order(words)) => {
            assert_eq!(before, after);
            check_order(settings, before, *node, words);
        }
        _ => {}
    }
}

/// The new view keeps the rule of views, and moves are at most 128.
fn check_plan(settings: &Settings, after: &Table) {
    let state = decoded(settings, after);
    let (plan, kept) = (state.plan.unwrap(), state.kept.unwrap());
    assert_eq!(plan.number, kept.number + 1);
    assert!(2 * mask::count(plan.members & kept.members) > mask::count(kept.members));
    assert!(plan.total <= 128);
    for shard in 0..settings.shards {
        let own = plan.masks[shard as usize];
        let sets: BTreeSet<u32> = mask::nodes(own)
            .into_iter()
            .map(|node| settings.set(node))
            .collect();
        assert!(sets.len() >= settings.need(shard) as usize);
        assert!(mask::count(own) <= settings.cap(shard));
        // A node more than is needed is one that stays.
        let moved = mask::count(own & !kept.masks[shard as usize]);
        assert!(moved <= settings.need(shard));
    }
}

/// Up to the cut both logs are one, and the next updates differ or are missing.
fn check_cut(node: &Log, holder: &Log, target: Position, cut: Position) {
    let wanted = holder.up_to(target);
    assert_eq!(node.up_to(cut), wanted.up_to(cut));
    let next = |log: &Log| {
        let same = Position::new(cut.view, cut.k.saturating_add(1));
        let later = log.runs.iter().find(|run| run.view > cut.view);
        let later = later.map(|run| Position::new(run.view, 1));
        if cut.k < u32::MAX && log.holds(same) {
            Some(same)
        } else {
            later
        }
    };
    assert!(next(node).is_none() || next(node) != next(&wanted));
}

/// The order is read back, and each cut is (0, 0) or in the holder's log, and
/// not past the target or the node's end.
fn check_order(settings: &Settings, table: &Table, node: u32, words: &[u32]) {
    let order = message::read_with(Form::Order, settings, words).unwrap();
    assert_eq!(order.node, node);
    let log = |node, shard| {
        let report: Contents = desk::report(settings, &table.desk, node).unwrap();
        Log::of(&report, shard)
    };
    for cut in order.of_kind(CUT) {
        let shard = cut.shard();
        let cut = Position::new(cut.word1, cut.word2);
        let holder = order.find(HOLDER, shard).unwrap().word1;
        let target = order.find(TERMINATION, shard).unwrap();
        let target = Position::new(target.word1, target.word2);
        assert!(log(holder, shard).has(target));
        assert!(cut == START || log(holder, shard).holds(cut));
        assert!(cut <= target && cut <= log(node, shard).end());
        check_cut(&log(node, shard), &log(holder, shard), target, cut);
        if node == holder {
            assert_eq!(cut, target);
        }
    }
}
