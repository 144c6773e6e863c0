//! The comparison of pages and roles finds libraries that are wrong. Each
//! stand-in below is the reference with one fault in what roles and pages are; the
//! random restarts must come to it. Some let something else of the restart show
//! on a page: those are found by pairs of worlds alone, without a reference.

use differential::calls::{self, Asked, Kind, Outcome, Pages, STATE_BYTES};
use differential::library::{Answer, Planner};
use differential::mock::{self, Behaviour, Faithful};
use differential::pages::{self, Tally, ROLES};
use differential::pairs::{self, World};
use differential::regressions;
use reference::desk::{DESK_WORDS, SLOT_WORDS};
use reference::message::{MEMBERS, RUN, TERMINATION};
use reference::order;
use reference::placement::Subgroup;
use reference::roles::{Role, PLANNER, WATCHER};
use reference::settings::SUBGROUPS;
use reference::state::Phase;
use reference::{mask, soundness, words};

const SEED: u64 = 20_261_117;
const COUNT: u64 = 150;

/// The restart with the first difference, and what differs.
fn found(planner: &Planner) -> Option<(u64, String)> {
    let mut pages = Pages::new(false);
    (0..COUNT).find_map(|index| {
        let played = pages::play(planner, &mut pages, SEED, index, &mut Tally::default());
        played.err().map(|difference| (index, difference.what))
    })
}

/// The same by pairs of worlds alone.
fn found_by_pairs(planner: &Planner) -> Option<(u64, String)> {
    let mut pages = Pages::new(false);
    (0..COUNT).find_map(|index| {
        let played = pages::play_pairs(planner, &mut pages, SEED, index);
        played.err().map(|difference| (index, difference.what))
    })
}

#[test]
fn the_reference_agrees_with_itself() {
    let planner = mock::planner::<Faithful>();
    let mut pages = Pages::new(true);
    let mut tally = Tally::default();
    for index in 0..40 {
        let played = pages::play(&planner, &mut pages, SEED, index, &mut tally);
        assert!(played.is_ok(), "restart {index}");
        let played = pages::play_pairs(&planner, &mut pages, SEED, index);
        assert!(played.is_ok(), "pairs of restart {index}");
    }
    assert!(tally.calls > 5000 && tally.pages > 2000 && tally.pairs > 200);
}

fn assert_found<B: Behaviour>() {
    let planner = mock::planner::<B>();
    let found = found(&planner);
    let stored = regressions::play_all(&planner, &mut Pages::new(false)).err();
    println!("{}: {found:?}; {stored:?}", std::any::type_name::<B>());
    assert!(found.is_some(), "not found");
}

/// Defines a stand-in by what it does in the place of a call, and its test.
macro_rules! wrong {
    ($(#[$text:meta])* $name:ident, $test:ident, $event:expr) => {
        $(#[$text])*
        struct $name;

        impl Behaviour for $name {
            fn event(asked: &Asked) -> Outcome {
                let event: fn(&Asked, Outcome) -> Outcome = $event;
                event(asked, calls::expected(asked))
            }
        }

        #[test]
        fn $test() {
            assert_found::<$name>();
        }
    };
}

/// What the reference says in another role.
fn in_role(asked: &Asked, role: u32) -> Outcome {
    calls::expected(&Asked {
        role,
        ..asked.clone()
    })
}

/// An accepted page with other words.
fn with_page(
    asked: &Asked,
    mut outcome: Outcome,
    change: impl FnOnce(&World, &mut [u32]),
) -> Outcome {
    let read = asked.kind == Kind::Page && matches!(outcome.answer(), Answer::Length(_));
    if let (true, Some(world)) = (read, pairs::world(&asked.table)) {
        let mut page = words::whole_words(&outcome.buffer);
        change(&world, &mut page);
        outcome.buffer = words::to_bytes(&page);
    }
    outcome
}

/// The subgroup of a page, to be placed.
fn subgroup<'a>(asked: &Asked, world: &'a World, nobody: &'a [u32; 16]) -> Subgroup<'a> {
    Subgroup {
        settings: &world.settings,
        number: asked.node,
        held: world.state.held,
        old: world.state.kept.as_ref().map_or(nobody, |view| &view.masks),
    }
}

/// Puts a placement on a page.
fn put_masks(asked: &Asked, world: &World, page: &mut [u32], placed: Option<Vec<u32>>) {
    page[4] = placed.is_some().into();
    page[5..6].fill(0);
    page[56..72].fill(0);
    if let Some(placed) = placed {
        page[5] = subgroup(asked, world, &[0; 16]).moves(&placed);
        for shard in world.settings.shards_of(asked.node) {
            page[56 + shard as usize] = placed[shard as usize];
        }
    }
}

wrong!(
    /// Shows the kept termination's position where nobody has it.
    TerminationWithoutHolder,
    a_position_without_holder,
    |asked, outcome| with_page(asked, outcome, |world, page| {
        let positions = world.state.termination.iter().flatten();
        for (shard, at) in positions.enumerate() {
            if page[2] >> shard & 1 == 1 {
                page[24 + 2 * shard] = at.view;
                page[25 + 2 * shard] = at.k;
            }
        }
    })
);

wrong!(
    /// Shows all masks of the plan.
    AllMasks,
    masks_of_another_subgroup,
    |asked, outcome| with_page(asked, outcome, |world, page| {
        if let Some(plan) = &world.state.plan {
            page[56..56 + plan.masks.len()].copy_from_slice(&plan.masks);
        }
    })
);

wrong!(
    /// Shows the plan's total as the moves.
    TotalMoves,
    the_total_as_moves,
    |asked, outcome| with_page(asked, outcome, |world, page| {
        if let Some(plan) = &world.state.plan {
            page[5] = plan.total;
        }
    })
);

wrong!(
    /// Gives 15 before 2.
    FifteenBeforeTwo,
    number_15_before_2,
    |asked, mut outcome| {
        let allowed = in_role(asked, PLANNER);
        let barred = Role::of(asked.role) != Role::Planner && asked.kind != Kind::Page;
        if allowed.answer == 2 && barred {
            outcome.answer = 15;
        }
        outcome
    }
);

wrong!(
    /// Gives 15 for a page before 2.
    PageFifteenBeforeTwo,
    number_15_of_a_page_before_2,
    |asked, mut outcome| {
        let barred = !Role::of(asked.role).may_read(asked.node);
        if asked.kind == Kind::Page && outcome.answer == 2 && barred {
            outcome.answer = 15;
        }
        outcome
    }
);

wrong!(
    /// Gives 15 before 1.
    FifteenBeforeOne,
    number_15_before_1,
    |asked, mut outcome| {
        if outcome.answer == 1 && !Role::of(asked.role).may_plan() && asked.kind != Kind::Page {
            outcome.answer = 15;
        }
        outcome
    }
);

wrong!(
    /// Gives 3 before 15.
    ThreeBeforeFifteen,
    number_3_before_15,
    |asked, mut outcome| {
        if outcome.answer == 15 && in_role(asked, PLANNER).answer == 3 {
            outcome.answer = 3;
        }
        outcome
    }
);

wrong!(
    /// Takes a role that was never set for the planner's.
    ZeroIsPlanner,
    zero_as_the_planner,
    |asked, outcome| match asked.role {
        0 => in_role(asked, PLANNER),
        _ => outcome,
    }
);

wrong!(
    /// Looks at one bit of the planner's word.
    OneBit,
    one_bit_of_the_planners_word,
    |asked, outcome| match asked.role & PLANNER {
        0 => outcome,
        _ => in_role(asked, PLANNER),
    }
);

wrong!(
    /// Looks at the upper bytes of the planner's word.
    AnyOfKindOne,
    the_planners_word_by_its_kind,
    |asked, outcome| match asked.role / 256 {
        1 => in_role(asked, PLANNER),
        _ => outcome,
    }
);

wrong!(
    /// Takes 516 for the watcher of subgroup 0.
    Wraps,
    a_subgroup_that_wraps,
    |asked, outcome| match asked.role {
        word if word == WATCHER + SUBGROUPS => in_role(asked, WATCHER),
        _ => outcome,
    }
);

wrong!(
    /// Lets a watcher read every page.
    ReadsAll,
    a_watcher_of_all,
    |asked, outcome| match (asked.kind, Role::of(asked.role)) {
        (Kind::Page, Role::Watcher(_)) => in_role(asked, PLANNER),
        _ => outcome,
    }
);

wrong!(
    /// Lets the planner read no page.
    PlannerReadsNone,
    a_planner_without_pages,
    |asked, outcome| match (asked.kind, asked.role) {
        (Kind::Page, PLANNER) => in_role(asked, 0),
        _ => outcome,
    }
);

wrong!(
    /// Lets a watcher check the state.
    ChecksState,
    a_watcher_that_checks,
    |asked, outcome| match (asked.kind, Role::of(asked.role)) {
        (Kind::CheckState, Role::Watcher(_)) => in_role(asked, PLANNER),
        _ => outcome,
    }
);

wrong!(
    /// Lets a watcher report.
    Reports,
    a_watcher_that_reports,
    |asked, outcome| match (asked.kind, Role::of(asked.role)) {
        (Kind::Report, Role::Watcher(_)) => in_role(asked, PLANNER),
        _ => outcome,
    }
);

wrong!(
    /// Gives the fresh state to anybody.
    FreshForAll,
    a_fresh_state_for_all,
    |asked, outcome| match asked.kind {
        Kind::Fresh => in_role(asked, PLANNER),
        _ => outcome,
    }
);

wrong!(
    /// Looks at a fresh state's length before the role.
    FreshLength,
    the_length_of_a_fresh_state_first,
    |asked, mut outcome| {
        if asked.kind == Kind::Fresh && asked.table.state.len() != STATE_BYTES {
            outcome.answer = 3;
        }
        outcome
    }
);

wrong!(
    /// Marks the node although the role is not allowed to.
    MarksAnyway,
    a_mark_that_is_refused,
    |asked, mut outcome| {
        if asked.kind == Kind::Fetched && outcome.answer == 15 {
            outcome.state = in_role(asked, PLANNER).state;
        }
        outcome
    }
);

wrong!(
    /// Shows the planner an empty page of a subgroup above 3.
    PageAboveThree,
    a_page_above_3,
    |asked, mut outcome| {
        let above = asked.kind == Kind::Page && asked.node >= SUBGROUPS;
        if above && asked.role == PLANNER && outcome.answer == 15 {
            let page = Asked {
                node: 3,
                ..asked.clone()
            };
            outcome = calls::expected(&page);
        }
        outcome
    }
);

wrong!(
    /// Reads a subgroup's lowest two bits.
    PageWraps,
    a_page_that_wraps,
    |asked, outcome| match asked.kind {
        Kind::Page => calls::expected(&Asked {
            node: asked.node % SUBGROUPS,
            ..asked.clone()
        }),
        _ => outcome,
    }
);

wrong!(
    /// Shows no placement where decide waits.
    WaitsCount,
    a_placement_only_where_decide_plans,
    |asked, outcome| with_page(asked, outcome, |world, page| {
        let gathered = soundness::gathered(&world.settings, &world.state, &world.reports);
        let plans = match gathered.quorum() {
            Ok((view, _)) => gathered.layout(view).each(order::greedy).is_ok(),
            Err(_) => false,
        };
        if world.state.plan.is_none() && !plans {
            put_masks(asked, world, page, None);
        }
    })
);

wrong!(
    /// Shows no placement where another subgroup has none.
    OthersCount,
    a_placement_only_where_all_have_one,
    |asked, outcome| with_page(asked, outcome, |world, page| {
        let gathered = soundness::gathered(&world.settings, &world.state, &world.reports);
        let all = world.state.kept.as_ref().map(|view| gathered.layout(view).each(order::greedy));
        if matches!(all, Some(Err(_))) && world.state.plan.is_none() {
            put_masks(asked, world, page, None);
        }
    })
);

wrong!(
    /// Shows the best placement where the plan is another one.
    BestAgain,
    the_best_and_not_the_plans,
    |asked, outcome| with_page(asked, outcome, |world, page| {
        let best = subgroup(asked, world, &[0; 16]).first_best();
        put_masks(asked, world, page, best);
    })
);

wrong!(
    /// Shows any placement of least moves and most stays.
    AnyBest,
    any_of_the_best,
    |asked, outcome| with_page(asked, outcome, |world, page| {
        if world.state.plan.is_none() {
            let best = subgroup(asked, world, &[0; 16]).any_best();
            put_masks(asked, world, page, best);
        }
    })
);

wrong!(
    /// Counts moves alone.
    MovesAlone,
    a_placement_by_moves_alone,
    |asked, outcome| with_page(asked, outcome, |world, page| {
        if world.state.plan.is_none() {
            let subgroup = subgroup(asked, world, &[0; 16]);
            let least = subgroup.least_moves();
            let first = least.and_then(|least| subgroup.first_within(least));
            put_masks(asked, world, page, first);
        }
    })
);

wrong!(
    /// Shows pages while gathering alone.
    GatheringAlone,
    pages_in_one_phase,
    |asked, outcome| match (asked.kind, outcome.answer(), pairs::world(&asked.table)) {
        (Kind::Page, Answer::Length(_), Some(world)) if world.state.phase != Phase::Gathering => {
            Outcome::unchanged(asked, 4)
        }
        _ => outcome,
    }
);

wrong!(
    /// Shows no pages of a committed restart.
    NotCommitted,
    no_pages_after_commit,
    |asked, outcome| match (asked.kind, outcome.answer(), pairs::world(&asked.table)) {
        (Kind::Page, Answer::Length(_), Some(world)) if world.state.phase == Phase::Committed => {
            Outcome::unchanged(asked, 4)
        }
        _ => outcome,
    }
);

wrong!(
    /// Leaves what was in the buffer after the page.
    LeavesTheRest,
    the_rest_of_the_buffer,
    |asked, mut outcome| {
        if asked.kind == Kind::Page && matches!(outcome.answer(), Answer::Length(_)) {
            outcome.buffer[4 * 72..].copy_from_slice(&asked.buffer[4 * 72..]);
        }
        outcome
    }
);

wrong!(
    /// Takes a buffer that is as long as a page.
    ShortBuffer,
    a_buffer_of_72_words,
    |asked, mut outcome| {
        if asked.kind == Kind::Page && outcome.answer == 1 && asked.buffer.len() > 288 {
            let page = calls::expected(&Asked {
                buffer: vec![0; 2048],
                ..asked.clone()
            });
            outcome.answer = page.answer;
        }
        outcome
    }
);

wrong!(
    /// Clears the buffer of a page that is not allowed.
    ClearsBuffer,
    a_buffer_cleared_on_refusal,
    |asked, mut outcome| {
        if asked.kind == Kind::Page && outcome.answer == 15 {
            outcome.buffer.fill(0);
        }
        outcome
    }
);

wrong!(
    /// Shows a holder that is none as the greatest word.
    NoHolder,
    a_holder_that_is_none,
    |asked, outcome| with_page(asked, outcome, |_, page| {
        for shard in 0..16 {
            if (page[2] & !page[3]) >> shard & 1 == 1 {
                page[8 + shard] = u32::MAX;
            }
        }
    })
);

wrong!(
    /// Takes stale machines for candidates.
    StaleCandidates,
    stale_candidates_of_a_page,
    |asked, outcome| with_page(asked, outcome, |world, page| {
        let Some(view) = &world.state.kept else {
            return;
        };
        let mut reports = world.reports.clone();
        reports.iter_mut().for_each(|report| report.view = view.number);
        let gathered = soundness::gathered(&world.settings, &world.state, &reports);
        for shard in world.settings.shards_of(asked.node) {
            if let Some(holding) = gathered.holding(view, shard) {
                let at = shard as usize;
                page[3] |= 1 << at;
                page[8 + at] = holding.holder;
                page[24 + 2 * at] = holding.target.view;
                page[25 + 2 * at] = holding.target.k;
            }
        }
    })
);

wrong!(
    /// Says of a subgroup without shards that it has no placement.
    EmptySubgroup,
    a_subgroup_without_shards,
    |asked, outcome| with_page(asked, outcome, |_, page| page[4] &= u32::from(page[2] != 0))
);

wrong!(
    /// Shows no placement where fewer nodes than the least size are held.
    LeastSize,
    the_least_size_of_a_page,
    |asked, outcome| with_page(asked, outcome, |world, page| {
        if mask::count(world.state.held) < world.settings.least_group_size {
            put_masks(asked, world, page, None);
        }
    })
);

wrong!(
    /// Numbers the shards of a subgroup anew.
    Renumbered,
    shards_numbered_anew,
    |asked, outcome| with_page(asked, outcome, |_, page| {
        let shards: Vec<usize> = (0..16).filter(|at| page[2] >> at & 1 == 1).collect();
        for (place, shard) in shards.into_iter().enumerate() {
            page.swap(56 + place, 56 + shard);
        }
    })
);

wrong!(
    /// Shows the next view's number once there is a plan.
    NextView,
    the_next_views_number,
    |asked, outcome| with_page(asked, outcome, |world, page| {
        page[1] = world.state.plan.as_ref().map_or(page[1], |plan| plan.number);
    })
);

/// Lets something show in word 6 of a page; a test that pairs of worlds find it.
macro_rules! leak {
    ($(#[$text:meta])* $name:ident, $test:ident, $leaked:expr) => {
        $(#[$text])*
        struct $name;

        impl Behaviour for $name {
            fn event(asked: &Asked) -> Outcome {
                let leaked: fn(&Asked, &World) -> u32 = $leaked;
                with_page(asked, calls::expected(asked), |world, page| {
                    page[6] = leaked(asked, world);
                })
            }
        }

        #[test]
        fn $test() {
            let planner = mock::planner::<$name>();
            let found = found_by_pairs(&planner);
            println!("{}: {found:?}", std::any::type_name::<$name>());
            assert!(found.is_some_and(|(_, what)| what.ends_with("word 6")), "not found");
        }
    };
}

/// The shards that are not the page's.
fn others(asked: &Asked, world: &World) -> Vec<u32> {
    let own = |&shard: &u32| world.settings.subgroup(shard) != asked.node;
    (0..world.settings.shards).filter(own).collect()
}

/// A number that depends on all words.
fn mixed(words: impl IntoIterator<Item = u32>) -> u32 {
    words
        .into_iter()
        .fold(7, |all, word| all.wrapping_mul(31).wrapping_add(word))
}

/// The same of the records of a kind, of shards that are not the page's.
fn records(asked: &Asked, world: &World, kind: u32) -> u32 {
    let others = others(asked, world);
    let reports = world.reports.iter().flat_map(|report| report.of_kind(kind));
    let all = reports.filter(|record| others.contains(&record.shard()));
    mixed(all.flat_map(|record| [record.word0, record.word1, record.word2]))
}

leak!(LeaksShards, shards_show, |_, world| world.settings.shards);
leak!(LeaksSets, sets_show, |_, world| world.settings.sets);
leak!(LeaksLeast, the_least_size_shows, |_, world| world
    .settings
    .least_group_size);
leak!(LeaksNeeds, needs_show, |asked, world| {
    mixed(
        others(asked, world)
            .into_iter()
            .map(|shard| world.settings.need(shard)),
    )
});
leak!(LeaksCap, caps_by_their_words_show, |_, world| mixed(
    world.words.clone()
));
leak!(LeaksMembers, kept_members_show, |_, world| {
    world.state.kept.as_ref().map_or(0, |view| view.members)
});
leak!(LeaksMasks, masks_show, |asked, world| records(
    asked, world, MEMBERS
));
leak!(LeaksRuns, runs_show, |asked, world| records(
    asked, world, RUN
));
leak!(
    LeaksTerminations,
    terminations_show,
    |asked, world| records(asked, world, TERMINATION)
);
leak!(LeaksPositions, kept_positions_show, |asked, world| {
    let others = others(asked, world).into_iter();
    let kept = world.state.termination.as_ref();
    mixed(others.map(|shard| kept.map_or(0, |all| all[shard as usize].k)))
});
leak!(LeaksFetched, fetched_nodes_show, |_, world| world
    .state
    .fetched);
leak!(LeaksPrepared, prepared_nodes_show, |_, world| world
    .state
    .prepared);
leak!(LeaksMemory, remembered_views_show, |_, world| mixed(
    world.state.remembered
));
leak!(LeaksTotal, the_total_shows, |_, world| {
    world.state.plan.as_ref().map_or(0, |plan| plan.total)
});
leak!(LeaksHolders, holders_show, |_, world| {
    world
        .state
        .plan
        .as_ref()
        .map_or(0, |plan| mixed(plan.holders.clone()))
});
leak!(LeaksWait, waits_show, |_, world| {
    let gathered = soundness::gathered(&world.settings, &world.state, &world.reports);
    gathered.quorum().err().map_or(0, |wait| wait.reason())
});
leak!(LeaksAbsent, slots_of_absent_nodes_show, |asked, world| {
    let desk = words::whole_words(&asked.table.desk);
    let absent =
        (0..DESK_WORDS).filter(|at| !mask::has(world.state.held, (at / SLOT_WORDS) as u32));
    mixed(absent.map(|at| desk[at]))
});
leak!(LeaksOffChain, words_off_the_chain_show, |asked, world| {
    let desk = words::whole_words(&asked.table.desk);
    let held = mask::nodes(world.state.held).into_iter();
    mixed(held.map(|node| desk[(node as usize + 1) * SLOT_WORDS - 1]))
});

/// Every word that is no role is in the list, beside the roles.
#[test]
fn roles_that_calls_are_made_with() {
    for subgroup in 0..SUBGROUPS {
        assert!(ROLES.contains(&(WATCHER + subgroup)));
    }
    let nobody = ROLES.iter().filter(|&&word| Role::of(word) == Role::Nobody);
    assert_eq!(nobody.count(), 8);
}
