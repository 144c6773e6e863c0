//! The comparison of games finds libraries that play another game. Each stand-in
//! below is the reference with one fault in the game of restart-model(7).

use differential::games::{self, Asked, Lends, Tally};
use differential::library::{Answer, GAME, PASSING};
use differential::mock::{self, Behaviour, Faithful};
use reference::game::{Board, Winner, MOST_ROUNDS};
use reference::roles::{Role, PLANNER};
use reference::settings;
use reference::sheet::{self, Ready};
use reference::{mask, words};

const SEED: u64 = 20_261_117;
const COUNT: u64 = 300;

/// The group with the first difference, and what differs.
fn found<B: Behaviour>() -> Option<(u64, String)> {
    let mut lends = Lends::default();
    (0..COUNT).find_map(|index| {
        let game = mock::game::<B>();
        let played = games::play(game, &mut lends, SEED, index, &mut Tally::default());
        played.err().map(|difference| (index, difference.what))
    })
}

fn assert_found<B: Behaviour>() {
    let found = found::<B>();
    println!("{}: {found:?}", std::any::type_name::<B>());
    assert!(found.is_some());
}

#[test]
fn the_reference_agrees_with_itself() {
    let mut tally = Tally::default();
    for index in 0..60 {
        let game = mock::game::<Faithful>();
        let played = games::play(game, &mut Lends::default(), SEED, index, &mut tally);
        assert!(played.is_ok(), "group {index}");
    }
    assert!(tally.calls > 1000);
}

/// Stand-ins that answer otherwise, given the call and what the reference says.
macro_rules! stand_ins {
    ($($(#[$doc:meta])* $name:ident, $test:ident: $answer:expr;)*) => {
        $(
            $(#[$doc])*
            struct $name;

            impl Behaviour for $name {
                fn game(asked: &Asked) -> u32 {
                    let answer: fn(&Asked, u32) -> u32 = $answer;
                    answer(asked, games::expected(asked))
                }
            }

            #[test]
            fn $test() {
                assert_found::<$name>();
            }
        )*
    };
}

fn whole(bytes: &[u8]) -> Vec<u32> {
    words::from_bytes(bytes).unwrap_or_default()
}

fn nodes(asked: &Asked) -> u32 {
    settings::parse(&whole(&asked.table.settings)).map_or(0, |settings| settings.nodes)
}

/// What the game is played on, whatever mask and rounds are asked.
fn ready(asked: &Asked) -> Option<Ready> {
    let [settings, state, desk] =
        [&asked.table.settings, &asked.table.state, &asked.table.desk].map(|bytes| whole(bytes));
    sheet::ready(Role::of(asked.role), &settings, &state, &desk, |_| true).ok()
}

fn board(asked: &Asked) -> Board {
    Board::of(&ready(asked).expect("a game that is played"))
}

fn played(word: u32) -> bool {
    matches!(Answer::of(word), Answer::Crew | Answer::Outage(_))
}

/// The call with another mask or other rounds.
fn other(asked: &Asked, held: u32, rounds: u32) -> u32 {
    games::expected(&Asked {
        held,
        rounds,
        ..asked.clone()
    })
}

/// The winner by other rules: what the crew may bring back, whether it may pass
/// at will, and of which mask decide is asked.
fn by_rules(
    board: &Board,
    held: u32,
    rounds: u32,
    crew: fn(&Board, u32, Option<u32>) -> Vec<Option<u32>>,
    asked: fn(u32, u32) -> u32,
) -> Winner {
    fn lost(
        board: &Board,
        held: u32,
        rounds: u32,
        taken: Option<u32>,
        crew: fn(&Board, u32, Option<u32>) -> Vec<Option<u32>>,
        asked: fn(u32, u32) -> u32,
    ) -> bool {
        let fewer = reference::game::without(held, taken);
        crew(board, fewer, taken).into_iter().all(|back| {
            let after = reference::game::with(fewer, back);
            let next = || {
                rounds > 1
                    && board
                        .outage_turns(after)
                        .into_iter()
                        .any(|taken| lost(board, after, rounds - 1, taken, crew, asked))
            };
            !board.plan(asked(fewer, after)) || next()
        })
    }
    if rounds == 0 {
        return Winner::Crew;
    }
    let turns = board.outage_turns(held).into_iter();
    let mut wins = turns.filter(|&taken| lost(board, held, rounds, taken, crew, asked));
    wins.next().map_or(Winner::Crew, Winner::Outage)
}

stand_ins! {
    /// No rounds go to the outage where there is no plan.
    NoRounds, no_rounds_to_the_outage: |asked, word| match word {
        GAME if asked.rounds == 0 && !board(asked).plan(asked.held) => GAME + 256,
        word => word,
    };
    /// The start has to have a plan.
    Start, the_start_is_asked: |asked, word| match word {
        GAME if asked.rounds > 0 && !board(asked).plan(asked.held) => GAME + 256,
        word => word,
    };
    /// A game of three rounds has two.
    TwoRounds, one_round_less: |asked, word| match played(word) && asked.rounds > 0 {
        true => other(asked, asked.held, asked.rounds - 1),
        false => word,
    };
    /// The highest first node.
    Highest, the_highest_first_node: |asked, word| match Answer::of(word) {
        Answer::Outage(first) if first != PASSING => {
            let wins = |&node: &u32| lost_by(asked, node);
            let last = mask::nodes(asked.held).into_iter().rfind(wins);
            GAME + 256 + last.unwrap_or(first)
        }
        _ => word,
    };
    /// Passing is node 0.
    PassingAsNode, passing_as_node_0: |_, word| match word == GAME + 256 + PASSING {
        true => GAME + 256,
        false => word,
    };
    /// The node just taken may come back.
    TakenBack, the_taken_node_comes_back: |asked, word| match played(word) {
        true => games::word(by_rules(
            &board(asked),
            asked.held,
            asked.rounds,
            |board, held, _| board.crew_turns(held, None),
            |_, after| after,
        )),
        false => word,
    };
    /// No node comes back.
    NoneBack, no_node_comes_back: |asked, word| match played(word) {
        true => games::word(by_rules(
            &board(asked),
            asked.held,
            asked.rounds,
            |_, _, _| vec![None],
            |_, after| after,
        )),
        false => word,
    };
    /// Decide is asked after the outage's turn.
    Early, asked_after_the_outage: |asked, word| match played(word) {
        true => games::word(by_rules(
            &board(asked),
            asked.held,
            asked.rounds,
            Board::crew_turns,
            |fewer, _| fewer,
        )),
        false => word,
    };
    /// The state's own nodes are held.
    OwnNodes, the_states_own_nodes: |asked, word| match played(word) {
        true => other(asked, whole(&asked.table.state)[52], asked.rounds),
        false => word,
    };
    /// Four rounds are played.
    FourRounds, four_rounds: |asked, word| match word == 22 && asked.rounds == MOST_ROUNDS + 1 {
        true => other(asked, asked.held, MOST_ROUNDS),
        false => word,
    };
    /// Any of ten nodes may be held.
    AnyOfTen, any_of_ten_nodes: |asked, word| {
        let inside = asked.held & mask::below(nodes(asked));
        match word == 22 && asked.held < 1024 && inside != asked.held {
            true => other(asked, inside, asked.rounds),
            false => word,
        }
    };
    /// 23 before 22.
    ReadyFirst, number_23_before_22: |asked, word| match word == 22 && nodes(asked) <= 10 && ready(asked).is_none() {
        true => 23,
        false => word,
    };
    /// 22 before 4.
    SizeFirst, number_22_before_4: |asked, word| match word == 4 && asked.rounds > MOST_ROUNDS {
        true => 22,
        false => word,
    };
    /// Only the slots of the nodes that are asked for have to be valid.
    HeldSlots, slots_of_held_nodes_alone: |asked, word| {
        let state = whole(&asked.table.state);
        match word == 23 && state.get(1) != Some(&0) && asked.rounds == 0 {
            true => GAME,
            false => word,
        }
    };
    /// Any role plays.
    AnyRole, any_role_plays: |asked, word| match word {
        15 => games::expected(&Asked {
            role: PLANNER,
            ..asked.clone()
        }),
        word => word,
    };
}

/// Whether the outage wins by taking this node first.
fn lost_by(asked: &Asked, node: u32) -> bool {
    let board = board(asked);
    let fewer = asked.held & !mask::only(node);
    let back = board.crew_turns(fewer, Some(node));
    back.into_iter().all(|back| {
        let after = reference::game::with(fewer, back);
        !board.plan(after) || matches!(board.winner(after, asked.rounds - 1), Winner::Outage(_))
    })
}
