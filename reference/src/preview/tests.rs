use super::*;
use crate::cases::{random_world, report as report_of, terminated, Random, World, SETTINGS};
use crate::log::Position;
use crate::message::encode;
use crate::quorum::Wait;
use crate::state::{Plan, View};

const SEVEN: [u32; 7] = [0, 1, 2, 3, 4, 5, 6];

impl World {
    /// A preview, by both ways to find a placement.
    fn preview(&self, node: u32) -> Result<(Decision, World), Number> {
        let before = self.clone();
        let World {
            settings,
            state,
            desk,
        } = self;
        let by = |choice: Choice| preview_by(choice, Role::Planner, settings, state, desk, node);
        let answer = by(order::greedy);
        assert_eq!(by(order::exhaustive), answer);
        assert_eq!(self, &before);
        answer.map(|(decision, state)| (decision, World { state, ..before }))
    }

    /// The mask, by both ways.
    fn losses(&self) -> Result<u32, Number> {
        let World {
            settings,
            state,
            desk,
        } = self;
        let by = |choice: Choice| losses_by(choice, Role::Planner, settings, state, desk);
        let lost = by(order::greedy);
        assert_eq!(by(order::exhaustive), lost);
        lost
    }

    /// What the previews of all nodes below N say in short: `plan`, or a wait as
    /// `restart` prints it, or a number.
    fn previews(&self) -> Vec<String> {
        let short = |node: u32| match self.preview(node) {
            Ok((Decision::Plan, _)) => "plan".to_string(),
            Ok((Decision::Wait(wait), _)) => match wait.value() {
                Some(value) => format!("wait {} {value}", wait.reason()),
                None => format!("wait {}", wait.reason()),
            },
            Err(number) => format!("number {}", number.0),
        };
        (0..self.settings[0]).map(short).collect()
    }

    /// The plan that is in the state of a preview.
    fn planned(&self, node: u32) -> Plan {
        let (decision, copy) = self.preview(node).unwrap();
        assert_eq!(decision, Decision::Plan);
        assert_eq!(copy.check(), 0);
        copy.state().plan.unwrap()
    }

    /// The numbers of preview and mask.
    fn numbers(&self, role: Role, node: u32) -> (u32, u32) {
        let World {
            settings,
            state,
            desk,
        } = self;
        let one = preview(role, settings, state, desk, node);
        let all = losses(role, settings, state, desk);
        let of = |refused: Option<Number>| refused.map_or(0, |number| number.0);
        (of(one.err()), of(all.err()))
    }
}

#[test]
fn case_a_with_all_seven() {
    let world = World::printed(&SETTINGS, &SEVEN);
    assert_eq!(world.losses(), Ok(32));
    let plan = "plan";
    assert_eq!(
        world.previews(),
        [plan, plan, plan, plan, plan, "wait 4 2", plan]
    );
    let case_a = Plan {
        number: 8,
        members: 63,
        total: 2,
        masks: vec![5, 50, 8],
        holders: vec![0, 1, 5],
        targets: [(0, 0), (7, 5), (0, 0)]
            .map(|(view, k)| Position::new(view, k))
            .to_vec(),
    };
    assert_eq!(world.planned(6), case_a);
    assert_eq!(world.planned(0).members, 126);
    for node in [7, 8, 31, 32, 39, u32::MAX] {
        assert_eq!(world.preview(node), Err(Number(6)), "{node}");
    }
}

#[test]
fn case_a_itself() {
    let world = World::printed(&SETTINGS, &[0, 1, 2, 3, 4, 5]);
    assert_eq!(world.losses(), Ok(63));
    let wait = "wait 5 0";
    assert_eq!(
        world.previews(),
        [wait, wait, wait, wait, wait, "wait 4 2", "number 14"]
    );
    assert_eq!(world.preview(7), Err(Number(6)));
}

/// A stale machine still fills a place.
#[test]
fn a_stale_machine() {
    let mut world = World::printed(&SETTINGS, &[0, 1, 2, 3, 4, 5]);
    world.add(&encode(&report_of(6, 6, &[])));
    assert_eq!(world.losses(), Ok(32));
    assert_eq!(
        world.previews(),
        World::printed(&SETTINGS, &SEVEN).previews()
    );
}

/// Node 4's log ends at (7, 4): nobody but node 1 has the termination's update.
#[test]
fn a_kept_termination() {
    let positions = [(0, 0), (7, 5), (0, 0)];
    let mut world = World::printed(&SETTINGS, &[0, 1, 2, 3, 4, 5]);
    world.add(&encode(&terminated(&report_of(6, 7, &[]), positions)));
    assert_eq!(world.losses(), Ok(34));
    let plan = "plan";
    assert_eq!(
        world.previews(),
        [plan, "wait 4 1", plan, plan, plan, "wait 4 2", plan]
    );
}

/// The termination remains though node 1 alone reported it. Without it node 4's
/// end, (7, 4), would be the target.
#[test]
fn a_termination_remains() {
    let mut world = World::printed(&SETTINGS, &[0, 2, 3, 4, 5, 6]);
    let first = report_of(1, 7, &[(7, 5)]);
    world.add(&encode(&terminated(&first, [(0, 0), (7, 3), (0, 0)])));
    let plan = world.planned(1);
    assert_eq!(plan.holders, [0, 4, 5]);
    assert_eq!(plan.targets[1], Position::new(7, 3));
    let (_, copy) = world.preview(1).unwrap();
    assert_eq!(copy.state().termination, world.state().termination);
    let without = World::printed(&SETTINGS, &SEVEN).planned(1);
    assert_eq!(without.targets[1], Position::new(7, 4));
}

#[test]
fn one_alone() {
    let world = World::printed(&SETTINGS, &[3]);
    assert_eq!(world.losses(), Ok(8));
    assert_eq!(world.previews()[2..5], ["number 14", "wait 2", "number 14"]);
}

/// View 8 stays kept though node 5 alone reported it, and so does what is
/// remembered of node 5.
#[test]
fn a_view_remains() {
    let mut world = World::printed(&SETTINGS, &SEVEN);
    world.add(&encode(&report_of(5, 8, &[])));
    assert_eq!(world.losses(), Ok(127));
    assert_eq!(world.previews(), ["wait 4 0"; 7]);
    let (_, copy) = world.preview(5).unwrap();
    let kept = View {
        number: 8,
        members: 127,
        masks: vec![5, 82, 32],
    };
    assert_eq!(copy.state().kept, Some(kept));
    assert_eq!(copy.state().remembered, world.state().remembered);
    assert_eq!(copy.state().remembered[5], 8);
}

/// The cap keeps nodes 1 to 3; without it the first two of different sets stay.
#[test]
fn a_cap() {
    for (cap, members) in [(4, 14), (0, 6)] {
        let settings = [6, 3, 3, 1, 0, 0, 1, 1, 2, 2, cap * 65536 + 2];
        let world = World::plain(&settings, 63, 63, &[15]);
        assert_eq!(world.losses(), Ok(0));
        let plan = world.planned(0);
        assert_eq!((plan.masks, plan.total), (vec![members], 0));
    }
}

/// Nobody held: every node is 14, and nobody's loss means waiting, though decide
/// waits.
#[test]
fn nobody_held() {
    let mut world = World::of(&SETTINGS, &[]);
    assert_eq!(world.losses(), Ok(0));
    assert_eq!(world.previews(), ["number 14"; 7]);
    assert_eq!(world.decide(), Decision::Wait(Wait::NoView));
    let mut world = World::printed(&SETTINGS, &[2]);
    world.mark(events::drop_node, 2);
    assert_eq!(world.losses(), Ok(0));
    assert_eq!(world.previews(), ["number 14"; 7]);
}

/// Waits of every reason but the first, which no held node has.
#[test]
fn every_reason() {
    let mut settings = SETTINGS;
    settings[2] = 7;
    let world = World::printed(&settings, &SEVEN);
    assert_eq!(world.previews(), ["wait 3"; 7]);
    assert_eq!(world.losses(), Ok(127));
    let world = World::printed(&SETTINGS, &[0, 1, 4, 5]);
    assert_eq!(world.previews()[..2], ["wait 2", "wait 2"]);
    assert_eq!(world.losses(), Ok(0b11_0011));
    // The lowest subgroup without a placement.
    let settings = [3, 2, 1, 2, 0, 1, 1, 256 + 2, 3 * 256 + 2];
    let world = World::plain(&settings, 7, 7, &[6, 5]);
    assert_eq!(world.previews(), ["wait 5 1", "plan", "plan"]);
    assert_eq!(world.losses(), Ok(1));
}

/// Node 31 of 32: a place for each of 31 nodes, and then for each of 32.
#[test]
fn the_last_node() {
    let mut settings = vec![32, 16, 1, 2];
    settings.extend((0..32).map(|node| node / 2));
    settings.extend([16, 15]);
    let masks = [0x5555_5555, 0x2AAA_AAAA];
    let by_flow = |settings: &[u32], node: u32| {
        let World { state, desk, .. } = World::plain(settings, u32::MAX, u32::MAX, &masks);
        let one = preview(Role::Planner, settings, &state, &desk, node).unwrap();
        let all = losses(Role::Planner, settings, &state, &desk).unwrap();
        (one.0, one.1[52], one.1[58..60].to_vec(), all)
    };
    // Node 30's loss leaves its place in shard 0 to node 31.
    let (decision, held, placed, lost) = by_flow(&settings, 31);
    assert_eq!((decision, held), (Decision::Plan, 0x7FFF_FFFF));
    assert_eq!(placed, masks);
    assert_eq!(lost, 0);
    let (decision, held, placed, _) = by_flow(&settings, 30);
    assert_eq!((decision, held), (Decision::Plan, 0xBFFF_FFFF));
    assert_eq!(placed, [0x9555_5555, 0x2AAA_AAAA]);
    settings[37] = 16;
    let (decision, held, placed, lost) = by_flow(&settings, 31);
    assert_eq!(decision, Decision::Wait(Wait::NoPlacement(0)));
    assert_eq!((held, placed), (0x7FFF_FFFF, vec![0, 0]));
    assert_eq!(lost, u32::MAX);
}

/// Rows 1, 2, 15, 3, 4, then 6 and 14 of the node, in this order.
#[test]
fn rows() {
    let good = World::printed(&SETTINGS, &[0, 1, 2, 3, 4, 5]);
    let planner = Role::Planner;
    assert_eq!(good.numbers(planner, 0), (0, 0));
    assert_eq!(good.numbers(planner, 6), (14, 0));
    assert_eq!(good.numbers(planner, 7), (6, 0));
    let mut world = good.clone();
    assert_eq!(world.decide(), Decision::Plan);
    for node in [0, 6, 7] {
        assert_eq!(world.numbers(planner, node), (4, 4));
    }
    world.state[57] += 1;
    assert_eq!(world.numbers(planner, 7), (3, 3));
    for role in [Role::Watcher(0), Role::Watcher(3), Role::Nobody] {
        assert_eq!(world.numbers(role, 7), (15, 15));
        assert_eq!(good.numbers(role, 0), (15, 15));
    }
    world.settings[0] = 0;
    assert_eq!(world.numbers(Role::Nobody, 7), (2, 2));
    world.desk.pop();
    assert_eq!(world.numbers(Role::Nobody, 7), (1, 1));

    let mut world = good.clone();
    world.desk[0] = 1;
    assert_eq!(world.numbers(planner, 7), (3, 3), "a held slot");
    let mut world = good.clone();
    world.desk[6 * 512] = 1;
    assert_eq!(world.numbers(planner, 0), (0, 0), "a slot that is not held");
    world.state.pop();
    assert_eq!(world.numbers(planner, 0), (3, 3));
}

#[test]
fn only_in_gathering() {
    let mut world = World::printed(&SETTINGS, &[0, 1, 2, 3, 4, 5]);
    assert_eq!(world.decide(), Decision::Plan);
    for event in [events::fetched, events::prepared] {
        for node in 0..6 {
            assert_eq!(world.numbers(Role::Planner, node), (4, 4));
            world.mark(event, node);
        }
    }
    assert_eq!(world.numbers(Role::Planner, 0), (4, 4));
}

/// What stands in the lent words.
#[test]
fn lent_words() {
    let World {
        settings,
        state,
        desk,
    } = World::printed(&SETTINGS, &SEVEN);
    for node in 0..8 {
        let with = |words| preview_into(Role::Planner, &settings, &state, &desk, node, words);
        let copy = preview(Role::Planner, &settings, &state, &desk, node);
        assert_eq!(with(512).is_ok(), copy.is_ok());
        if let (Ok(lent), Ok(copy)) = (with(512), copy) {
            assert_eq!(lent.0, copy.0);
            assert_eq!(lent.1[..160], copy.1);
            assert_eq!(lent.1[160..], [0; 352]);
        }
        for words in [0, 1, 160, 511, 513] {
            assert_eq!(with(words), Err(Number(1)));
        }
    }
    let with = |words| losses_into(Role::Planner, &settings, &state, &desk, words);
    let lent = with(512).unwrap();
    assert_eq!((lent[0], lent.len()), (32, 512));
    assert_eq!(lent[1..], [0; 511]);
    for words in [0, 1, 511, 513] {
        assert_eq!(with(words), Err(Number(1)));
    }
    let refused = losses_into(Role::Nobody, &[], &state, &desk, 0);
    assert_eq!(refused, Err(Number(1)));
}

/// Drop and decide, one after the other, say what the preview says; no held
/// node's preview is refused. What a wait leaves is the state with the node's
/// bit gone.
#[test]
fn drop_then_decide() {
    let mut random = Random(0x04_0004);
    let (mut plans, mut waits, mut several) = (0, [0; 6], 0);
    for _ in 0..700 {
        let world = random_world(&mut random, 6);
        let held = world.state().held;
        let mut lost = 0;
        for node in 0..world.settings[0] {
            let World {
                settings,
                state,
                desk,
            } = &world;
            let answer = preview(Role::Planner, settings, state, desk, node);
            if !mask::has(held, node) {
                assert_eq!(answer, Err(Number(14)));
                continue;
            }
            let (decision, copy) = answer.unwrap();
            let mut by_hand = world.clone();
            by_hand.state[52] &= !mask::only(node);
            let without = by_hand.clone();
            let mut by_events = world.clone();
            by_events.mark(events::drop_node, node);
            assert_eq!(by_events, without);
            assert_eq!(by_events.decide(), decision);
            assert_eq!(by_hand.decide(), decision);
            assert_eq!((&by_events.state, &by_hand.state), (&copy, &copy));
            match decision {
                Decision::Plan => plans += 1,
                Decision::Wait(wait) => {
                    assert_eq!(copy, without.state);
                    lost |= mask::only(node);
                    waits[wait.reason() as usize] += 1;
                }
            }
        }
        let World {
            settings,
            state,
            desk,
        } = &world;
        assert_eq!(losses(Role::Planner, settings, state, desk), Ok(lost));
        several += u32::from(lost != 0 && lost != held);
    }
    println!("{plans} plans, waits by reason {waits:?}, {several} masks that part the held nodes");
    assert!(plans > 400 && waits[2..].iter().all(|&count| count > 50) && several > 50);
}
