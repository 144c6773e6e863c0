use super::*;
use crate::cases::{
    four_reports, one_shard, printed_report, report, reported, reports, terminated, FOUR, SETTINGS,
    SEVEN,
};
use crate::desk::{self, DESK_WORDS};
use crate::events;
use crate::message::encode;
use crate::program::Reported;
use crate::state;
use Winner::{Crew, Outage};

const PASSING: Winner = Outage(None);

fn taking(node: u32) -> Winner {
    Outage(Some(node))
}

fn asked(world: &Reported, held: u32, rounds: u32) -> Result<Winner, Number> {
    let Reported {
        settings,
        state,
        desk,
    } = world;
    game(Role::Planner, settings, state, desk, held, rounds)
}

fn board_of(world: &Reported) -> Board {
    let Reported {
        settings,
        state,
        desk,
    } = world;
    Board::of(&ready(Role::Planner, settings, state, desk, |_| true).unwrap())
}

/// The answers for a mask in 0 to 3 rounds.
fn answers(world: &Reported, held: u32) -> [Winner; 4] {
    [0, 1, 2, 3].map(|rounds| asked(world, held, rounds).unwrap())
}

/// A small xorshift generator.
struct Random(u64);

impl Random {
    fn bits(&mut self) -> u64 {
        self.0 ^= self.0 << 13;
        self.0 ^= self.0 >> 7;
        self.0 ^= self.0 << 17;
        self.0
    }
}

// The second way: rules of play.

#[derive(Clone, Copy, Debug, PartialEq, Eq)]
enum Side {
    Outage,
    Crew,
}

/// The turns of a game so far: outage, crew, outage, and so on.
type Play = Vec<Option<u32>>;

impl Board {
    /// The held nodes after these turns.
    fn after(&self, held: u32, play: &[Option<u32>]) -> u32 {
        let mut held = held;
        for (turn, &node) in play.iter().enumerate() {
            held = match turn % 2 {
                0 => without(held, node),
                _ => with(held, node),
            };
        }
        held
    }

    /// Whether the crew wins this play: there is a plan after each of its turns.
    fn crew_won(&self, held: u32, play: &Play) -> bool {
        let crew_turns = (2..=play.len()).step_by(2);
        crew_turns
            .map(|turns| self.after(held, &play[..turns]))
            .all(|held| self.plan(held))
    }

    /// Who moves after these turns, and what it may do.
    fn turns(&self, held: u32, play: &Play) -> (Side, Vec<Option<u32>>) {
        let now = self.after(held, play);
        match play.len() % 2 {
            0 => (Side::Outage, self.outage_turns(now)),
            _ => (Side::Crew, self.crew_turns(now, *play.last().unwrap())),
        }
    }

    /// All plays to their end in which `side` keeps to a rule of play and the
    /// other side does anything that it may.
    fn plays(&self, side: Side, rule: &mut Rule, held: u32, rounds: u32) -> Vec<Play> {
        let mut plays = vec![vec![]];
        for _ in 0..2 * rounds {
            let mut longer = Vec::new();
            for play in plays {
                let (mover, turns) = self.turns(held, &play);
                let turns = match mover == side {
                    true => vec![turns[rule.choose(turns.len())]],
                    false => turns,
                };
                longer.extend(
                    turns
                        .iter()
                        .map(|&turn| [play.clone(), vec![turn]].concat()),
                );
            }
            plays = longer;
        }
        plays
    }

    /// The first turns of all rules of play with which `side` wins every play.
    fn winning_rules(&self, side: Side, held: u32, rounds: u32) -> Vec<Option<u32>> {
        let mut rule = Rule::default();
        let mut winning = Vec::new();
        loop {
            let plays = self.plays(side, &mut rule, held, rounds);
            let side_won = |play: &Play| self.crew_won(held, play) == (side == Side::Crew);
            if plays.iter().all(side_won) {
                winning.push(plays[0].first().copied().flatten());
            }
            if !rule.next() {
                return winning;
            }
        }
    }
}

/// A rule of play: for each play so far that can come up under it, one of the
/// turns allowed. It is told by its choices in the order in which they are asked.
#[derive(Default)]
struct Rule {
    /// The turn chosen, and of how many.
    choices: Vec<(usize, usize)>,
    asked: usize,
}

impl Rule {
    fn choose(&mut self, of: usize) -> usize {
        if self.asked == self.choices.len() {
            self.choices.push((0, of));
        }
        let (chosen, known) = self.choices[self.asked];
        assert_eq!(known, of);
        self.asked += 1;
        chosen
    }

    /// The next rule: the last choice that is not the last of its turns is the
    /// next one, and those after it are open again.
    fn next(&mut self) -> bool {
        self.asked = 0;
        while let Some((chosen, of)) = self.choices.pop() {
            if chosen + 1 < of {
                self.choices.push((chosen + 1, of));
                return true;
            }
        }
        false
    }
}

/// A rule of play that wins against every play of the other side exists exactly
/// for the side that is answered, and the node answered is the lowest with which
/// such a rule begins.
fn agree(board: &Board, held: u32, rounds: u32) {
    let answer = board.winner(held, rounds);
    let crew = board.winning_rules(Side::Crew, held, rounds);
    let outage = board.winning_rules(Side::Outage, held, rounds);
    let by_rules = match (crew.is_empty(), outage.iter().min()) {
        (false, None) => Crew,
        (true, Some(&first)) => Outage(first),
        both => panic!("{both:?}"),
    };
    assert_eq!(answer, by_rules, "{board:?}, {held}, {rounds} rounds");
    if let Outage(first) = answer {
        assert_eq!(first.is_none(), held == 0);
    }
}

/// Whether each mask gives a plan, by the bits of a number.
fn board(nodes: u32, plans: u64) -> Board {
    Board {
        nodes,
        plans: (0..1 << nodes)
            .map(|held| (plans >> held) & 1 == 1)
            .collect(),
    }
}

/// All boards of up to three nodes, all masks, up to three rounds.
#[test]
fn rules_of_play_on_small_boards() {
    for nodes in 1..=3 {
        let masks = 1 << nodes;
        for plans in 0..1 << masks {
            let board = board(nodes, plans);
            for held in 0..masks {
                for rounds in 0..=MOST_ROUNDS {
                    agree(&board, held, rounds);
                }
            }
        }
    }
}

/// Four nodes: the world of reports, and boards by chance with many plans.
#[test]
fn rules_of_play_of_four_nodes() {
    let four = board_of(&reported(&FOUR, &four_reports()));
    let mut random = Random(10);
    let mut crews = 0;
    for _ in 0..60 {
        let board = board(4, random.bits() | random.bits());
        for held in 0..16 {
            agree(&board, held, 1);
            agree(&board, held, 2);
            crews += u32::from(board.winner(held, 2) == Crew);
        }
    }
    assert!((200..760).contains(&crews), "{crews}");
    for held in 0..16 {
        for rounds in 0..=MOST_ROUNDS {
            agree(&four, held, rounds);
        }
    }
}

/// Five nodes, two rounds: boards in which most masks of three and more give a
/// plan.
#[test]
fn rules_of_play_of_five_nodes() {
    let mut random = Random(5);
    let mut crews = 0;
    for _ in 0..6 {
        let mut board = board(5, random.bits() | random.bits() | random.bits());
        for (held, plan) in (0u32..).zip(&mut board.plans) {
            *plan &= mask::count(held) > 1;
        }
        for held in 0..32 {
            agree(&board, held, 2);
            crews += u32::from(board.winner(held, 2) == Crew);
        }
    }
    assert!((30..160).contains(&crews), "{crews}");
}

/// A rule of play needs no memory: the outage wins exactly the masks that grow,
/// round by round, from none.
#[test]
fn masks_lost_round_by_round() {
    let mut random = Random(7);
    for nodes in 1..=6 {
        for _ in 0..20 {
            let board = board(nodes, random.bits() | random.bits());
            let mut lost = vec![false; 1 << nodes];
            for rounds in 0..=MOST_ROUNDS {
                for held in 0..1 << nodes {
                    let wins = board.winner(held, rounds) != Crew;
                    assert_eq!(wins, lost[held as usize]);
                }
                lost = lost_before(&board, &lost);
            }
        }
    }
}

/// The masks lost with a round more: for some turn of the outage each of the
/// crew's leads to a mask without a plan or to one that is lost.
fn lost_before(board: &Board, lost: &[bool]) -> Vec<bool> {
    let bits = |mask: u32| {
        (0..board.nodes)
            .map(|n| 1u32 << n)
            .filter(move |b| mask & b != 0)
    };
    let bad = |held: u32| !board.plans[held as usize] || lost[held as usize];
    let full = (1u32 << board.nodes) - 1;
    let answered = |down: u32, taken: u32| match full & !down & !taken {
        0 => bad(down),
        absent => bits(absent).all(|back| bad(down | back)),
    };
    let is_lost = |held: u32| match held {
        0 => answered(0, 0),
        _ => bits(held).any(|taken| answered(held & !taken, taken)),
    };
    (0..=full).map(is_lost).collect()
}

/// How many rules a side has is counted by hand: with two of three nodes held
/// the outage has two turns and the crew one, or the other way round with one.
#[test]
fn all_rules_are_tried() {
    let all = board(3, u64::MAX);
    let none = board(3, 0);
    let count = |board: &Board, side, held, rounds| board.winning_rules(side, held, rounds).len();
    assert_eq!(count(&none, Side::Outage, 3, 1), 2);
    assert_eq!(count(&none, Side::Outage, 3, 2), 4);
    assert_eq!(count(&all, Side::Crew, 3, 2), 1);
    assert_eq!(count(&all, Side::Crew, 1, 1), 2);
    assert_eq!(count(&all, Side::Crew, 1, 2), 4);
    // One turn, then two plays to answer: each with its one node.
    assert_eq!(count(&none, Side::Outage, 1, 2), 1);
    // The crew answers each of two turns by one of two nodes.
    let four = board(4, u64::MAX);
    assert_eq!(count(&four, Side::Crew, 3, 1), 4);
    assert_eq!(count(&four, Side::Crew, 3, 2), 64);
    assert_eq!(count(&all, Side::Outage, 3, 2), 0);
    assert_eq!(count(&none, Side::Crew, 3, 2), 0);
}

#[test]
fn case_a_with_node_6() {
    let world = reported(&SETTINGS, &reports(&SEVEN));
    let of = |first: [u32; 3]| {
        let [one, two, three] = first.map(taking);
        [Crew, one, two, three]
    };
    assert_eq!(answers(&world, 127), of([5, 0, 0]));
    assert_eq!(answers(&world, 126), of([5, 1, 1]));
    assert_eq!(answers(&world, 63), of([5, 0, 0]));
    assert_eq!(answers(&world, 32), of([5, 5, 5]));
    assert_eq!(answers(&world, 64), of([6, 6, 6]));
    assert_eq!(answers(&world, 0), [Crew, PASSING, PASSING, PASSING]);
    // There is no plan at 95, and nobody asks there.
    assert_eq!(answers(&world, 95), [Crew, Crew, taking(0), taking(0)]);
    let board = board_of(&world);
    assert!(!board.plan(95));
    let crews = (0..128).filter(|&held| board.winner(held, 1) == Crew);
    assert_eq!(crews.collect::<Vec<u32>>(), vec![95]);
}

#[test]
fn four_nodes() {
    let world = reported(&FOUR, &four_reports());
    let letters = |rounds: u32| -> String {
        let letter = |held| match asked(&world, held, rounds).unwrap() {
            Crew => "C".to_string(),
            Outage(None) => "P".to_string(),
            Outage(Some(node)) => node.to_string(),
        };
        (0..16).map(letter).collect()
    };
    assert_eq!(letters(0), "CCCCCCCCCCCCCCCC");
    assert_eq!(letters(1), "P01C222C301C2CCC");
    assert_eq!(letters(2), "P010201C301C2CCC");
    assert_eq!(letters(3), "P010201C301C2CCC");
}

/// With one node the crew passes after the outage took it; where nobody is held
/// the outage passes, and the crew may bring the node back.
#[test]
fn one_node() {
    let world = reported(&[1, 1, 1, 1, 0, 1], &[one_shard(0, 1, 1, 1)]);
    assert_eq!(answers(&world, 1), [Crew, taking(0), taking(0), taking(0)]);
    assert_eq!(answers(&world, 0), [Crew, Crew, PASSING, PASSING]);
}

/// Each rule of the game on a board that only it decides.
#[test]
fn rules_of_the_game() {
    // With 0 rounds nobody is asked, and the start is not asked.
    assert_eq!(board(2, 0).winner(3, 0), Crew);
    assert_eq!(board(2, 0b0110).winner(3, 1), Crew);
    // The node just taken may not come back: 1 held, a plan there only.
    assert_eq!(board(2, 0b0010).winner(1, 1), taking(0));
    assert_eq!(board(2, 0b0100).winner(1, 1), Crew);
    // It may in the next round.
    assert_eq!(board(2, 0b0110).winner(1, 3), Crew);
    // The crew must bring a node back though it had a plan without.
    assert_eq!(board(2, 0b0001).winner(1, 1), taking(0));
    // The outage must take a node though it would win by passing.
    assert_eq!(board(2, 0b0110).winner(1, 1), Crew);
    // Node 0 taken, node 2 saves it; node 1 taken, nothing does.
    assert_eq!(board(3, 0b0100_0000).winner(3, 1), taking(1));
    // After a pass of the outage any absent node may come back.
    assert_eq!(board(2, 0b0010).winner(0, 1), Crew);
    assert_eq!(board(2, 0b0100).winner(0, 1), Crew);
    assert_eq!(board(2, 0b0001).winner(0, 1), PASSING);
    // There must be a plan after each turn of the crew, not the last alone.
    assert_eq!(board(2, 0b0010).winner(1, 2), taking(0));
    // The crew passes where all others are held: the plan is asked without the
    // node taken.
    assert_eq!(board(2, 0b0100).winner(3, 1), taking(1));
    assert_eq!(board(2, 0b0010).winner(3, 1), taking(0));
    assert_eq!(board(2, 0b1000).winner(3, 1), taking(0));
}

/// Number 22 for nodes, rounds and masks, before number 23.
#[test]
fn too_large() {
    let world = reported(&SETTINGS, &reports(&SEVEN));
    let fresh = reported(&SETTINGS, &[]);
    for (held, rounds) in [
        (128, 1),
        (1 << 31, 0),
        (u32::MAX, 3),
        (127, 4),
        (0, u32::MAX),
    ] {
        for world in [&world, &fresh] {
            assert_eq!(asked(world, held, rounds), Err(Number(22)));
        }
    }
    for (held, rounds) in [(0, 0), (1, 3), (127, 0), (127, 3)] {
        assert!(asked(&world, held, rounds).is_ok());
        assert_eq!(asked(&fresh, held, rounds), Err(Number(23)));
    }
    let settings = |nodes: usize| [vec![nodes as u32, 1, 1, 1], vec![0; nodes], vec![1]].concat();
    let all = |nodes: u32| -> Vec<Vec<u32>> {
        let members = mask::below(nodes);
        let of = |node| one_shard(node, 1, members, 1);
        (0..nodes).map(of).collect()
    };
    let ten = reported(&settings(10), &all(10));
    assert_eq!(asked(&ten, 1023, 3), Ok(taking(0)));
    assert_eq!(asked(&ten, 1024, 3), Err(Number(22)));
    let eleven = reported(&settings(11), &all(11));
    assert_eq!(asked(&eleven, 0, 0), Err(Number(22)));
}

/// Number 23, of slots held or not.
#[test]
fn not_ready() {
    let mut world = reported(&SETTINGS, &reports(&SEVEN));
    let (settings, state, desk) = (&world.settings, &world.state, &world.desk);
    world.state = events::drop_node(Role::Planner, settings, state, desk, 6).unwrap();
    assert_eq!(asked(&world, 95, 1), Ok(Crew));
    let with_slot = |slot: &[u32]| Reported {
        settings: world.settings.clone(),
        state: world.state.clone(),
        desk: desk::with_message(&world.desk, 6, slot),
    };
    let lost = terminated(&report(6, 7, &[]), [(0, 0); 3]);
    let bad = [
        vec![],
        printed_report(5),
        encode(&report(6, 8, &[])),
        encode(&lost),
    ];
    for slot in bad {
        // Whether or not the game could meet the node.
        for (held, rounds) in [(0, 0), (63, 0), (95, 1)] {
            assert_eq!(asked(&with_slot(&slot), held, rounds), Err(Number(23)));
        }
    }
    assert_eq!(asked(&with_slot(&printed_report(6)), 95, 1), Ok(Crew));
    // The state remembers view 7 of node 6, whose slot says 6: it counts as
    // remembered at 6.
    let old = with_slot(&encode(&report(6, 6, &[])));
    assert_eq!(old.state[122 + 6], 7);
    assert_eq!(asked(&old, 127, 1), Ok(taking(5)));
}

/// Rows 1, 2, 15, 3, 4, 22 and 23, in this order.
#[test]
fn rows() {
    let mut world = Reported {
        settings: vec![],
        state: vec![7],
        desk: vec![],
    };
    let said = |world: &Reported, role: Role| {
        let Reported {
            settings,
            state,
            desk,
        } = world;
        game(role, settings, state, desk, u32::MAX, 4)
            .unwrap_err()
            .0
    };
    assert_eq!(said(&world, Role::Nobody), 1);
    world.desk = vec![0; DESK_WORDS];
    assert_eq!(said(&world, Role::Nobody), 2);
    world.settings = SETTINGS.to_vec();
    for role in [Role::Nobody, Role::Watcher(0), Role::Watcher(3)] {
        assert_eq!(said(&world, role), 15);
    }
    assert_eq!(said(&world, Role::Planner), 3);
    world.state = state::encode(&state::fresh());
    assert_eq!(said(&world, Role::Planner), 22);
    assert_eq!(asked(&world, 127, 3), Err(Number(23)));
    // Ordered: 4 before 22 and 23, for node 6 has not reported.
    let mut ordered = reported(&SETTINGS, &reports(&SEVEN[..6]));
    assert_eq!(asked(&ordered, 63, 1), Err(Number(23)));
    let Reported {
        settings,
        state,
        desk,
    } = &ordered;
    let (_, next) = events::decide(Role::Planner, settings, state, desk).unwrap();
    assert_eq!(said(&ordered, Role::Planner), 22);
    ordered.state = next;
    assert_eq!(said(&ordered, Role::Planner), 4);
    assert_eq!(asked(&ordered, 63, 0), Err(Number(4)));
}
