//! The comparison finds planners that are wrong about caps: in what a plan
//! keeps, in the settings that they take, and in the plans that they hold for
//! sound. Each stand-in below is the reference with one fault.

use differential::calls::{self, Asked, Kind, Outcome, Pages, DESK_BYTES};
use differential::library::Planner;
use differential::mock::{self, Behaviour};
use differential::plans::{self, Size};
use differential::{events, regressions};
use reference::mask;
use reference::order::{self, Choice};
use reference::placement::{Placement, Subgroup};
use reference::settings::{self, Settings, SUBGROUPS};
use reference::soundness;
use reference::state::{self, State};
use reference::words;
use std::cmp::Reverse;

const SEED: u64 = 20_261_117;
const SEQUENCES: u64 = 1500;
const CASES: u64 = 4000;

/// What differs in the first case of a small plan that does.
fn found_in_plans(planner: &Planner) -> Option<String> {
    let mut pages = Pages::new(false);
    (0..CASES).find_map(|index| {
        let case = plans::case(SEED, Size::Small, index);
        let difference = plans::compare(planner, &mut pages, &case).err();
        difference.map(|what| format!("case {index}: {what}"))
    })
}

/// What differs in the first sequence that does.
fn found_in_events(planner: &Planner) -> Option<String> {
    let mut pages = Pages::new(false);
    (0..SEQUENCES).find_map(|index| {
        let sequence = events::sequence(SEED, index);
        let difference = events::play(planner, &mut pages, sequence, |_, _| {}).err();
        difference.map(|difference| format!("sequence {index}: {}", difference.what))
    })
}

/// What differs in the stored cases.
fn found_in_stored(planner: &Planner) -> Option<String> {
    regressions::play_all(planner, &mut Pages::new(false)).err()
}

/// Defines a stand-in by the placement that it chooses, and its test.
macro_rules! chooses {
    ($(#[$text:meta])* $name:ident, $test:ident, $choice:expr) => {
        $(#[$text])*
        struct $name;

        impl Behaviour for $name {
            fn event(asked: &Asked) -> Outcome {
                let choice: Choice = $choice;
                calls::expected_by(choice, asked)
            }
        }

        #[test]
        fn $test() {
            let found = found_in_plans(&mock::planner::<$name>());
            println!("{}: {found:?}", stringify!($name));
            assert!(found.is_some(), "not found");
        }
    };
}

/// The least of a subgroup's placements by a key.
fn least_by<K: Ord>(
    placements: Vec<Placement>,
    key: impl Fn(&Placement) -> K,
) -> Option<Placement> {
    placements.into_iter().min_by_key(key)
}

fn lists(masks: &[u32]) -> Vec<Vec<u32>> {
    masks.iter().map(|&own| mask::nodes(own)).collect()
}

/// The choice under other caps.
fn with_caps(subgroup: &Subgroup, cap: fn(u32, u32) -> u32) -> Option<Placement> {
    let mut settings = subgroup.settings.clone();
    let both = settings.need_of.iter().zip(&subgroup.settings.cap_of);
    settings.cap_of = both.map(|(&need, &own)| cap(need, own)).collect();
    order::greedy(&Subgroup {
        settings: &settings,
        ..subgroup.clone()
    })
}

chooses!(
    /// Lets the order decide among least moves.
    NoStays,
    stays_do_not_count,
    |subgroup| least_by(subgroup.all(), |masks| (
        subgroup.moves(masks),
        lists(masks)
    ))
);

chooses!(
    /// Has the longer of two lists first where one goes on after the other.
    LongerFirst,
    a_longer_list_comes_first,
    |subgroup| {
        least_by(order::all_best(subgroup), |masks| {
            let mut lists = lists(masks);
            lists.iter_mut().for_each(|list| list.push(u32::MAX));
            lists
        })
    }
);

chooses!(
    /// Knows no caps.
    NoCaps,
    caps_do_not_count,
    |subgroup| with_caps(subgroup, |need, _| need)
);

chooses!(
    /// Keeps one more than the cap.
    OneMore,
    one_more_than_the_cap,
    |subgroup| with_caps(subgroup, |need, cap| if cap > need { cap + 1 } else { cap })
);

chooses!(
    /// Keeps every old member where there is a cap above m.
    AllMembers,
    a_cap_is_no_limit,
    |subgroup| with_caps(subgroup, |need, cap| if cap > need { 32 } else { cap })
);

chooses!(
    /// Keeps members of different sets alone, where it can.
    SetsOnce,
    a_set_any_number_of_times,
    |subgroup| {
        let once = |own: &u32| {
            let mut sets: Vec<u32> = mask::nodes(*own)
                .into_iter()
                .map(|node| subgroup.settings.set(node))
                .collect();
            sets.sort_unstable();
            sets.windows(2).all(|pair| pair[0] < pair[1])
        };
        let mut all = subgroup.all();
        all.retain(|masks| masks.iter().all(once));
        least_by(all, |masks| {
            let stays = subgroup.stays(masks);
            (subgroup.moves(masks), Reverse(stays), lists(masks))
        })
    }
);

chooses!(
    /// Has most stays in the first shard, then in the next, and not in all.
    ShardByShard,
    stays_are_counted_together,
    |subgroup| {
        least_by(subgroup.all(), |masks| {
            let both = masks.iter().zip(subgroup.old);
            let stays: Vec<_> = both
                .map(|(own, old)| Reverse(mask::count(own & old)))
                .collect();
            (subgroup.moves(masks), stays, lists(masks))
        })
    }
);

/// Compares masks as numbers, which is seldom another order: a stored case has
/// it.
struct ByNumbers;

impl Behaviour for ByNumbers {
    fn event(asked: &Asked) -> Outcome {
        calls::expected_by(
            |subgroup| match mask::count(subgroup.held) < 6 {
                true => least_by(order::all_best(subgroup), Placement::clone),
                false => order::greedy(subgroup),
            },
            asked,
        )
    }
}

#[test]
fn masks_as_numbers() {
    let found = found_in_stored(&mock::planner::<ByNumbers>());
    assert!(found.is_some_and(|what| what.contains("lists are no numbers")));
}

/// Defines a stand-in by what it does in the place of an event, and its test.
macro_rules! takes {
    ($(#[$text:meta])* $name:ident, $test:ident, $event:expr) => {
        $(#[$text])*
        struct $name;

        impl Behaviour for $name {
            fn event(asked: &Asked) -> Outcome {
                let event: fn(&Asked, Outcome) -> Outcome = $event;
                event(asked, calls::expected(asked))
            }
        }

        #[test]
        fn $test() {
            let planner = mock::planner::<$name>();
            let (found, stored) = (found_in_events(&planner), found_in_stored(&planner));
            println!("{}: {found:?}; {stored:?}", stringify!($name));
            assert!(found.is_some(), "not found by events");
            assert!(stored.is_some(), "not found by a stored case");
        }
    };
}

/// What the reference says with other words for the shards.
fn with_words(asked: &Asked, word: fn(u32) -> u32) -> Outcome {
    let mut asked = asked.clone();
    if let Some(mut all) = words::from_bytes(&asked.table.settings) {
        let first_shard = 4 + all.first().map_or(0, |&nodes| nodes.min(32) as usize);
        all.iter_mut()
            .skip(first_shard)
            .for_each(|own| *own = word(*own));
        asked.table.settings = words::to_bytes(&all);
    }
    calls::expected(&asked)
}

takes!(
    /// Takes a cap below m for m.
    CapBelowNeed,
    a_cap_below_m,
    |asked, _| with_words(asked, |word| {
        let (cap, need) = (word / 65536, word % 256);
        if cap < need { word % 65536 } else { word }
    })
);

takes!(
    /// Takes every cap above 16 for 16.
    CapAbove16,
    a_cap_above_16,
    |asked, _| with_words(asked, |word| word % 65536 + (word / 65536).min(16) * 65536)
);

takes!(
    /// Reads the cap from one byte.
    CapInAByte,
    a_cap_of_more_than_a_byte,
    |asked, _| with_words(asked, |word| word % (1 << 24))
);

takes!(
    /// Does without caps, the word's upper half being of no account.
    NoUpperHalf,
    no_upper_half,
    |asked, _| with_words(asked, |word| word % 65536)
);

takes!(
    /// Refuses a word with an upper half.
    UpperHalf,
    an_upper_half,
    |asked, outcome| {
        let words = words::whole_words(&asked.table.settings);
        let first_shard = 4 + words.first().map_or(0, |&nodes| nodes.min(32) as usize);
        let upper = words.iter().skip(first_shard).any(|&word| word > 65535);
        let good = settings::parse(&words).is_ok() && asked.table.desk.len() == DESK_BYTES;
        match upper && good && asked.kind != Kind::Fresh && outcome.answer != 1 {
            true => Outcome::unchanged(asked, 2),
            false => outcome,
        }
    }
);

/// A table with a plan.
struct Planned {
    settings: Settings,
    state: State,
    desk: Vec<u32>,
}

impl Planned {
    fn of(asked: &Asked) -> Option<Planned> {
        let whole = |bytes: &[u8]| words::from_bytes(bytes);
        let settings = settings::parse(&whole(&asked.table.settings)?).ok()?;
        let state = state::decode(&settings, &whole(&asked.table.state)?)?;
        let desk = whole(&asked.table.desk).filter(|desk| 4 * desk.len() == DESK_BYTES)?;
        let planned = state.plan.is_some() && state.kept.is_some();
        (planned && !settings.too_wide(state.held)).then_some(Planned {
            settings,
            state,
            desk,
        })
    }

    fn masks(&self) -> &[u32] {
        self.state.plan.as_ref().map_or(&[], |plan| &plan.masks)
    }

    fn subgroups(&self) -> impl Iterator<Item = Subgroup<'_>> {
        (0..SUBGROUPS).map(|number| Subgroup {
            settings: &self.settings,
            number,
            held: self.state.held,
            old: self.state.kept.as_ref().map_or(&[], |kept| &kept.masks),
        })
    }

    fn sound(&self) -> bool {
        soundness::sound(&self.settings, &self.state, &self.desk).is_some()
    }

    /// Whether some shard's members are as said.
    fn any(&self, bad: impl Fn(&Settings, u32, u32) -> bool) -> bool {
        (0..)
            .zip(self.masks())
            .any(|(shard, &own)| bad(&self.settings, shard, own))
    }
}

/// Refuses with 3 instead, if `bad` says so of a sound table with a plan.
fn refused_if(asked: &Asked, outcome: Outcome, bad: fn(&Planned) -> bool) -> Outcome {
    match Planned::of(asked) {
        Some(planned) if !outcome.answer().refused() && planned.sound() && bad(&planned) => {
            Outcome::unchanged(asked, 3)
        }
        _ => outcome,
    }
}

takes!(
    /// Wants exactly m members.
    ExactlyNeeded,
    exactly_m_members,
    |asked, outcome| refused_if(asked, outcome, |planned| {
        planned.any(|settings, shard, own| mask::count(own) > settings.need(shard))
    })
);

takes!(
    /// Wants members of different sets.
    DifferentSets,
    members_of_different_sets,
    |asked, outcome| refused_if(asked, outcome, |planned| {
        planned.any(|settings, _, own| sets_of(settings, own) < mask::count(own))
    })
);

/// The number of different sets that nodes are from.
fn sets_of(settings: &Settings, nodes: u32) -> u32 {
    let sets = mask::nodes(nodes)
        .into_iter()
        .map(|node| settings.set(node));
    mask::count(sets.fold(0, |all, set| all | mask::only(set)))
}

takes!(
    /// Wants most stays again in every event.
    StaysAgain,
    most_stays_asked_again,
    |asked, outcome| refused_if(asked, outcome, |planned| {
        planned.subgroups().any(|subgroup| {
            let best = subgroup.any_best().expect("a valid plan");
            subgroup.moves(planned.masks()) == subgroup.moves(&best)
                && subgroup.stays(planned.masks()) < subgroup.stays(&best)
        })
    })
);

takes!(
    /// Wants the first of the best again in every event.
    OrderAgain,
    the_order_asked_again,
    |asked, outcome| refused_if(asked, outcome, |planned| {
        planned.subgroups().any(|subgroup| {
            let best = subgroup.first_best().expect("a valid plan");
            let own = |shard: u32| planned.masks()[shard as usize] == best[shard as usize];
            let shards = subgroup.settings.shards_of(subgroup.number);
            subgroup.moves(planned.masks()) == subgroup.moves(&best)
                && subgroup.stays(planned.masks()) == subgroup.stays(&best)
                && !shards.into_iter().all(own)
        })
    })
);

takes!(
    /// Does not ask whether a plan keeps to the caps.
    CapsNotAsked,
    plans_over_a_cap,
    |asked, outcome| match asked.kind {
        Kind::Decide => outcome,
        _ if outcome.answer == 3 => with_words(asked, |word| {
            if settings_word(word) { 16 * 65536 + word % 65536 } else { word }
        }),
        _ => outcome,
    }
);

/// Whether a shard's word has a good cap.
fn settings_word(word: u32) -> bool {
    let (cap, need) = (word / 65536, word % 256);
    cap == 0 || (need..=16).contains(&cap)
}

takes!(
    /// Counts the nodes of a plan's shard and not their sets.
    NodesNotSets,
    plans_of_few_sets,
    |asked, outcome| {
        let Some(mut planned) = Planned::of(asked).filter(|_| outcome.answer == 3) else {
            return outcome;
        };
        // Sound with the best placement, and enough nodes in the plan's own.
        let few = planned.any(|settings, shard, own| {
            let count = mask::count(own);
            !(settings.need(shard)..=settings.cap(shard)).contains(&count)
        });
        let mut best = vec![0; planned.settings.shards as usize];
        let (mut least, mut own) = (0, 0);
        for subgroup in planned.subgroups() {
            let Some(masks) = subgroup.any_best() else {
                return outcome;
            };
            least += subgroup.moves(&masks);
            own += subgroup.moves(planned.masks());
            best.iter_mut().zip(masks).for_each(|(all, one)| *all |= one);
        }
        let plan = planned.state.plan.as_mut().expect("a plan");
        let right = plan.total == own;
        (plan.masks, plan.total) = (best, least);
        match !few && right && planned.sound() && asked.kind == Kind::CheckState {
            true => Outcome::unchanged(asked, 0),
            false => outcome,
        }
    }
);
