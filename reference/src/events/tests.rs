use super::*;
use crate::cases::{printed_report, report as report_of, terminated, SETTINGS};
use crate::message::encode;

/// Settings, state and desk between events.
#[derive(Clone)]
struct Table {
    settings: Vec<u32>,
    state: Vec<u32>,
    desk: Vec<u32>,
}

impl Table {
    fn fresh() -> Table {
        Table {
            settings: SETTINGS.to_vec(),
            state: state::encode(&state::fresh()),
            desk: vec![0; DESK_WORDS],
        }
    }

    /// After the printed run's reports.
    fn gathered() -> Table {
        let mut table = Table::fresh();
        for node in 0..6 {
            assert_eq!(table.report(&printed_report(node)), 0);
        }
        table
    }

    /// After the printed run's decision.
    fn ordered() -> Table {
        let mut table = Table::gathered();
        assert_eq!(table.decide(), Ok(Decision::Plan));
        table
    }

    fn state(&self) -> State {
        let settings = settings::parse(&self.settings).unwrap();
        state::decode(&settings, &self.state).unwrap()
    }

    /// Takes the next state, or gives the number.
    fn take(&mut self, next: Result<Vec<u32>, Number>) -> u32 {
        match next {
            Ok(state) => {
                self.state = state;
                0
            }
            Err(Number(number)) => number,
        }
    }

    fn check(&self) -> u32 {
        let checked = check(Role::Planner, &self.settings, &self.state, &self.desk);
        checked.err().map_or(0, |number| number.0)
    }

    fn report(&mut self, message: &[u32]) -> u32 {
        match report(
            Role::Planner,
            &self.settings,
            &self.state,
            &self.desk,
            message,
        ) {
            Ok((state, desk)) => {
                self.desk = desk;
                self.take(Ok(state))
            }
            Err(refusal) => refusal.word(),
        }
    }

    fn drop_node(&mut self, node: u32) -> u32 {
        let next = drop_node(Role::Planner, &self.settings, &self.state, &self.desk, node);
        self.take(next)
    }

    fn fetched(&mut self, node: u32) -> u32 {
        let next = fetched(Role::Planner, &self.settings, &self.state, &self.desk, node);
        self.take(next)
    }

    fn prepared(&mut self, node: u32) -> u32 {
        let next = prepared(Role::Planner, &self.settings, &self.state, &self.desk, node);
        self.take(next)
    }

    fn decide(&mut self) -> Result<Decision, Number> {
        let (decision, state) = decide(Role::Planner, &self.settings, &self.state, &self.desk)?;
        self.state = state;
        Ok(decision)
    }

    fn order(&self, node: u32) -> Result<Vec<u32>, Number> {
        let order = order(
            Role::Planner,
            &self.settings,
            &self.state,
            &self.desk,
            node,
            512,
        );
        order.map_err(|refusal| refusal.number)
    }

    /// The number of a state with one word changed.
    fn with_word(&self, index: usize, word: u32) -> u32 {
        let mut table = self.clone();
        table.state[index] = word;
        table.decide().err().map_or(0, |number| number.0)
    }
}

#[test]
fn row_1_desk_and_buffer() {
    let mut table = Table::ordered();
    let full = order(
        Role::Planner,
        &table.settings,
        &table.state,
        &table.desk,
        0,
        511,
    );
    assert_eq!(full, Err(Number(1).into()));
    table.desk.pop();
    table.settings[0] = 0;
    assert_eq!(table.check(), 1);
    assert_eq!(table.report(&[]), 1);
    assert_eq!(table.drop_node(0), 1);
    assert_eq!(table.decide(), Err(Number(1)));
    assert_eq!(table.order(0), Err(Number(1)));
    assert_eq!(table.fetched(0), 1);
    assert_eq!(table.prepared(0), 1);
}

#[test]
fn row_2_settings() {
    let mut table = Table::fresh();
    table.settings[0] = 0;
    table.state[0] = 9;
    assert_eq!(table.check(), 2);
    assert_eq!(table.report(&[]), 2);
    assert_eq!(table.decide(), Err(Number(2)));
}

/// Number 15: operations are the planner's, after row 2 and before row 3.
#[test]
fn row_15_roles() {
    let roles = (0..4).map(Role::Watcher).chain([Role::Nobody]);
    for role in roles {
        let all = |table: &Table| {
            let Table {
                settings,
                state,
                desk,
            } = table;
            let number = |next: Result<Vec<u32>, Number>| next.unwrap_err().0;
            let report = report(role, settings, state, desk, &printed_report(6));
            let order = order(role, settings, state, desk, 0, 512);
            [
                check(role, settings, state, desk).unwrap_err().0,
                report.unwrap_err().word(),
                number(drop_node(role, settings, state, desk, 0)),
                decide(role, settings, state, desk).unwrap_err().0,
                order.unwrap_err().word(),
                number(fetched(role, settings, state, desk, 0)),
                number(prepared(role, settings, state, desk, 0)),
            ]
        };
        let mut table = Table::ordered();
        assert_eq!(all(&Table::gathered()), [15; 7]);
        assert_eq!(all(&table), [15; 7]);
        table.state[0] = 9;
        assert_eq!(all(&table), [15; 7], "an unsound state");
        table.state.clear();
        assert_eq!(all(&table), [15; 7], "no state");
        table.settings[0] = 0;
        assert_eq!(all(&table), [2; 7]);
        table.desk.pop();
        assert_eq!(all(&table), [1; 7]);
        for words in [0, 159, 160, 161] {
            assert_eq!(fresh(role, words), Err(Number(15)));
        }
    }
    assert_eq!(fresh(Role::Planner, 160), Ok(vec![0; 160]));
    assert_eq!(fresh(Role::Planner, 159), Err(Number(3)));
    assert_eq!(fresh(Role::Planner, 0), Err(Number(3)));
}

/// Every part of soundness, one word at a time.
#[test]
fn row_3_soundness() {
    let gathered = Table::gathered();
    assert_eq!(gathered.with_word(52, 63), 0);
    assert_eq!(gathered.with_word(52, 63 | 1 << 9), 3);
    assert_eq!(gathered.with_word(52, 127), 3, "node 6's slot is empty");
    assert_eq!(
        gathered.with_word(52, 31),
        0,
        "node 5's slot is not looked at"
    );
    assert_eq!(gathered.with_word(53, 1), 3, "no marks in gathering");
    assert_eq!(gathered.with_word(1, 6), 3, "reports above the kept view");
    assert_eq!(gathered.with_word(1, 8), 0, "reports below the kept view");
    assert_eq!(
        gathered.with_word(1, u32::MAX),
        3,
        "the kept number's limit"
    );
    assert_eq!(gathered.with_word(2, 255), 3, "a member from N up");
    assert_eq!(gathered.with_word(4, 13), 3, "other masks than reported");
    assert_eq!(gathered.with_word(55, 1), 3, "no plan in gathering");

    let fresh = Table::fresh();
    assert_eq!(fresh.with_word(3, 1), 3, "a termination without a view");
    assert_eq!(fresh.with_word(52, 1), 3, "held without a view");

    let mut kept = Table::gathered();
    for node in 0..6 {
        assert_eq!(kept.drop_node(node), 0);
    }
    assert_eq!(kept.with_word(4, 13), 0, "nobody is held");
    assert_eq!(kept.with_word(4, 0), 3, "an empty shard");
    assert_eq!(kept.with_word(4, 7), 3, "a shared node");
    assert_eq!(kept.with_word(3, 1), 0, "a termination");
    kept.state[3] = 1;
    assert_eq!(kept.with_word(21, 3), 3, "position (0, 3)");
    kept.state[20] = 8;
    assert_eq!(kept.with_word(21, 3), 3, "past the kept view");
    kept.state[20] = 7;
    assert_eq!(kept.with_word(21, 3), 0);
}

#[test]
fn row_3_outside_gathering() {
    let ordered = Table::ordered();
    let number = |index: usize, word: u32| ordered.with_word(index, word);
    assert_eq!(number(0, 1), 4, "sound, but not gathering");
    assert_eq!(number(0, 0), 3, "a plan in gathering");
    assert_eq!(number(0, 2), 3, "preparing with unfetched nodes");
    assert_eq!(number(0, 3), 3, "committed with unfetched nodes");
    assert_eq!(number(53, 63), 3, "ordered with all fetched");
    assert_eq!(number(54, 1), 3, "ordered with one prepared");
    assert_eq!(number(53, 64), 3, "a mark outside held");
    assert_eq!(number(55, 9), 3, "the plan's number");
    assert_eq!(number(56, 127), 3, "the plan's members");
    assert_eq!(number(57, 3), 3, "the total");
    assert_eq!(number(58, 1), 3, "a shard with too few");
    assert_eq!(number(74, 2), 3, "a holder");
    assert_eq!(number(93, 4), 3, "a target");
    assert_eq!(number(52, 31), 3, "a wait applies");
}

/// A valid placement of more moves is sound: least moves are not checked.
#[test]
fn least_moves_are_not_checked_again() {
    let mut table = Table::ordered();
    table.state[58..61].copy_from_slice(&[6, 41, 16]);
    assert_eq!(table.with_word(57, 5), 4);
    assert_eq!(table.with_word(57, 4), 3);
}

/// Six nodes of three sets, and one shard that needs two and had nodes 0 to 3;
/// all have reported.
fn four_members(cap: u32) -> Table {
    let mut table = Table::fresh();
    table.settings = vec![6, 3, 1, 1, 0, 1, 2, 0, 1, 2, cap * 65536 + 2];
    for node in 0..6 {
        let message = encode(&Contents {
            node,
            view: 7,
            members: 63,
            records: vec![Triple::new(MEMBERS, 0, 15, 0)],
        });
        assert_eq!(table.report(&message), 0);
    }
    table
}

#[test]
fn caps_keep_members() {
    for (cap, members) in [(0, 3), (2, 3), (3, 7), (4, 15), (5, 15), (16, 15)] {
        let mut table = four_members(cap);
        assert_eq!(table.decide(), Ok(Decision::Plan));
        let plan = table.state().plan.unwrap();
        assert_eq!((plan.masks, plan.total), (vec![members], 0), "cap {cap}");
        assert_eq!(table.check(), 0);
        for node in 0..6 {
            let order = table.order(node).unwrap();
            let order = message::read(Form::Order, &table.settings, &order).unwrap();
            assert_eq!(order.shard_mask(0), members);
            let carried = order.of_kind(CUT).len();
            assert_eq!(carried == 1, mask::has(members, node));
        }
        for node in 0..6 {
            assert_eq!(table.fetched(node), 0);
        }
        for node in 0..6 {
            assert_eq!(table.prepared(node), 0);
        }
        assert_eq!(table.state().phase, Phase::Committed);
    }
}

#[test]
fn row_2_caps() {
    for cap in [1, 17, 65535] {
        let mut table = four_members(2);
        table.settings[10] = cap * 65536 + 2;
        assert_eq!(table.check(), 2, "cap {cap}");
        assert_eq!(table.report(&[]), 2);
        assert_eq!(table.drop_node(0), 2);
        assert_eq!(table.decide(), Err(Number(2)));
        assert_eq!(table.order(0), Err(Number(2)));
        assert_eq!(table.fetched(0), 2);
        assert_eq!(table.prepared(0), 2);
    }
}

/// The plan is valid by the caps. Least moves, stays and order are not asked.
#[test]
fn row_3_plans_with_caps() {
    let number = |cap: u32, members: u32| {
        let mut table = four_members(cap);
        assert_eq!(table.decide(), Ok(Decision::Plan));
        table.state[57] = mask::count(members & !15);
        table.with_word(58, members)
    };
    for (members, text) in [
        (0b00_1111, "the plan"),
        (0b00_0011, "fewer stay"),
        (0b00_0110, "a later list"),
        (0b00_1101, "a set twice"),
        (0b10_1010, "a move"),
        (0b11_0001, "two moves"),
        (0b11_0000, "nobody stays"),
    ] {
        assert_eq!(number(4, members), 4, "{text}");
    }
    for (members, text) in [
        (0b00_1001, "two nodes of one set"),
        (0b00_0001, "one node"),
        (0b00_0000, "none"),
        (0b01_1111, "five nodes"),
        (0b11_1111, "six nodes"),
        (0b100_0111, "node 6 of 6"),
    ] {
        assert_eq!(number(4, members), 3, "{text}");
    }
    assert_eq!(number(6, 0b11_1111), 4);
    assert_eq!(number(3, 0b00_1111), 3);
    assert_eq!(number(3, 0b00_1101), 4);
    assert_eq!(number(0, 0b00_1101), 3);
    assert_eq!(number(0, 0b00_1100), 4);
    // The total is that of the plan's own moves.
    let mut table = four_members(4);
    assert_eq!(table.decide(), Ok(Decision::Plan));
    table.state[58] = 0b11_0001;
    for (total, number) in [(0, 3), (1, 3), (2, 4), (3, 3)] {
        assert_eq!(table.with_word(57, total), number);
    }
}

#[test]
fn a_changed_slot_makes_the_state_unsound() {
    let mut table = Table::ordered();
    let run_count = 512 + 4 * 4 + 2;
    assert_eq!(table.desk[run_count], 5);
    table.desk[run_count] = 6;
    assert_eq!(table.fetched(0), 3, "another target");
    table.desk[run_count] = 5;
    table.desk[4 * 512 + 4 * 4 + 2] = 3;
    assert_eq!(table.fetched(0), 0, "only a cut's input");
    table.desk[6 * 512] = 99;
    assert_eq!(table.fetched(1), 0, "a slot that is not held");
    assert_eq!(table.check(), 0);
    table.desk[2 * 512] = 3;
    assert_eq!(table.check(), 3);
    assert_eq!(table.fetched(2), 3, "another node's report");
}

#[test]
fn row_4_phases() {
    let mut table = Table::gathered();
    assert_eq!(table.order(0), Err(Number(4)));
    assert_eq!(table.fetched(99), 4);
    assert_eq!(table.prepared(0), 4);
    table = Table::ordered();
    assert_eq!(table.report(&[]), 4);
    assert_eq!(table.decide(), Err(Number(4)));
    assert_eq!(table.prepared(0), 4);
    for node in 0..6 {
        assert_eq!(table.fetched(node), 0);
    }
    assert_eq!(table.state().phase, Phase::Preparing);
    assert_eq!(table.order(0), Err(Number(4)));
    assert_eq!(table.fetched(0), 4);
    for node in (0..6).rev() {
        assert_eq!(table.prepared(node), 0);
    }
    assert_eq!(table.state().phase, Phase::Committed);
    assert_eq!(table.check(), 0);
    assert_eq!(table.report(&printed_report(0)), 4);
    assert_eq!(table.drop_node(99), 4);
    assert_eq!(table.decide(), Err(Number(4)));
    assert_eq!(table.order(0), Err(Number(4)));
    assert_eq!(table.fetched(0), 4);
    assert_eq!(table.prepared(0), 4);
}

#[test]
fn rows_5_to_11_of_a_report() {
    let mut table = Table::gathered();
    assert_eq!(table.report(&printed_report(0)[..6]), 5);
    assert_eq!(table.report(&encode(&report_of(7, 7, &[]))), 6);
    assert_eq!(table.report(&encode(&report_of(0, 0, &[]))), 7);
    let mut message = printed_report(0);
    message[11] = 2;
    assert_eq!(table.report(&message), 8 + 256 * 2);
    message = printed_report(0);
    message[4] = 9 * 256;
    assert_eq!(table.report(&message), 9 + 256);
    message = printed_report(0);
    message[12] = 256 + 3;
    assert_eq!(table.report(&message), 16 + 256 * 3);
    message = printed_report(0);
    message[11] = 0;
    assert_eq!(table.report(&message), 17 + 256 * 2);
    message[3] = 0;
    assert_eq!(table.report(&message), 17);
    message = printed_report(0);
    message[5] = 0;
    assert_eq!(table.report(&message), 10);
    assert_eq!(table.report(&encode(&report_of(0, 7, &[(7, 0)]))), 11);
}

#[test]
fn rows_6_and_14_of_a_node() {
    let mut table = Table::ordered();
    assert_eq!(table.drop_node(7), 6);
    assert_eq!(table.drop_node(6), 14);
    assert_eq!(table.order(u32::MAX), Err(Number(6)));
    assert_eq!(table.order(6), Err(Number(14)));
    assert_eq!(table.fetched(32), 6);
    assert_eq!(table.fetched(3), 0);
    assert_eq!(table.fetched(3), 14);
    assert_eq!(table.fetched(6), 14);
    for node in [0, 1, 2, 4, 5] {
        assert_eq!(table.fetched(node), 0);
    }
    assert_eq!(table.prepared(7), 6);
    assert_eq!(table.prepared(6), 14);
    assert_eq!(table.prepared(2), 0);
    assert_eq!(table.prepared(2), 14);
}

#[test]
fn row_12_other_masks() {
    let mut table = Table::gathered();
    let mut other = report_of(6, 7, &[]);
    other.records[0].word1 = 13;
    assert_eq!(table.report(&encode(&other)), 12);
    other.records[0].word1 = 5;
    other.members = 127 & !8;
    assert_eq!(table.report(&encode(&other)), 12);
    // An older view is compared with nothing.
    other.view = 6;
    assert_eq!(table.report(&encode(&other)), 0);
}

#[test]
fn row_13_another_termination() {
    let mut table = Table::gathered();
    let with = |view, k| terminated(&report_of(6, 7, &[]), [(0, 0), (view, k), (0, 0)]);
    assert_eq!(table.report(&encode(&with(7, 5))), 0);
    assert_eq!(table.report(&encode(&with(7, 4))), 13);
    assert_eq!(table.report(&encode(&with(7, 5))), 0);
    let mut table = Table::fresh();
    assert_eq!(table.report(&encode(&with(7, 5))), 0);
    let older = terminated(&report_of(0, 6, &[]), [(0, 0), (1, 1), (0, 0)]);
    assert_eq!(table.report(&encode(&older)), 0);
}

#[test]
fn a_greater_view_replaces_view_and_termination() {
    let mut table = Table::fresh();
    let at = |node, view| report_of(node, view, &[]);
    let with = |node, view| terminated(&at(node, view), [(0, 0), (view, 1), (0, 0)]);
    table.report(&encode(&with(0, 5)));
    assert!(table.state().termination.is_some());
    // Greater, without a termination: the old one goes.
    table.report(&encode(&at(1, 6)));
    assert_eq!(table.state().kept.unwrap().number, 6);
    assert_eq!(table.state().termination, None);
    // Equal: adds its termination.
    table.report(&encode(&with(2, 6)));
    let kept = table.state().termination.unwrap();
    assert_eq!(kept[1], Position::new(6, 1));
    // Smaller: changes neither.
    table.report(&encode(&with(3, 5)));
    assert_eq!(table.state().termination, Some(kept));
    assert_eq!(table.state().held, 15);
}

#[test]
fn a_report_is_copied_as_it_came_then_zeros() {
    let mut table = Table::fresh();
    let mut message = printed_report(1);
    message.extend([7, 7, 7, 7]);
    table.desk.fill(9);
    assert_eq!(table.report(&message), 0);
    assert_eq!(table.desk[512..512 + message.len()], message);
    assert!(table.desk[512 + message.len()..1024]
        .iter()
        .all(|&w| w == 0));
    assert!(table.desk[..512].iter().all(|&word| word == 9));
    assert!(table.desk[1024..].iter().all(|&word| word == 9));
}

#[test]
fn drops() {
    let mut table = Table::gathered();
    assert_eq!(table.drop_node(3), 0);
    assert_eq!(table.state().held, 63 - 8);
    assert_eq!(table.drop_node(3), 14);
    table = Table::ordered();
    table.fetched(0);
    assert_eq!(table.drop_node(5), 0);
    let state = table.state();
    assert_eq!(state.kept.as_ref().unwrap().number, 7);
    let emptied = State {
        kept: state.kept.clone(),
        remembered: state.remembered,
        ..state::fresh()
    };
    assert_eq!(state, emptied);
    assert_eq!(table.decide(), Ok(Decision::Wait(Wait::NoMajority)));
}

/// Number 18, and what is remembered.
#[test]
fn row_18_a_smaller_view() {
    let at = |node, view| encode(&report_of(node, view, &[]));
    let mut table = Table::fresh();
    assert_eq!(table.report(&at(0, 6)), 0);
    assert_eq!(table.report(&at(0, 7)), 0);
    assert_eq!(table.state().remembered[0], 7);
    assert_eq!(table.report(&at(0, 7)), 0, "an equal view");
    assert_eq!(table.report(&at(0, 6)), 18);
    assert_eq!(table.report(&at(1, 6)), 0, "another node's");
    assert_eq!(table.state().remembered[..3], [7, 6, 0]);
    // A refused report is not remembered.
    let mut other = report_of(1, 9, &[]);
    other.records[0].word1 = 0;
    assert_eq!(table.report(&encode(&other)), 10);
    assert_eq!(table.report(&at(1, 7)), 0);
    // 11 comes before 18, and 18 before 12 and 13.
    assert_eq!(table.report(&encode(&report_of(0, 6, &[(6, 0)]))), 11);
    table.state[1] = 6;
    table.state[122] = 6;
    table.state[123] = 6;
    table.desk[1] = 6;
    table.desk[513] = 6;
    assert_eq!(table.check(), 0);
    table.state[124] = 7;
    let mut other = report_of(2, 6, &[]);
    other.records[0].word1 = 1;
    assert_eq!(table.report(&encode(&other)), 18);
    table.state[124] = 6;
    assert_eq!(table.report(&encode(&other)), 12);
}

#[test]
fn drops_do_not_forget() {
    let at = |node, view| encode(&report_of(node, view, &[]));
    let mut table = Table::gathered();
    assert_eq!(table.drop_node(3), 0);
    assert_eq!(table.report(&at(3, 6)), 18);
    assert_eq!(table.report(&at(3, 7)), 0);
    let mut table = Table::ordered();
    assert_eq!(table.drop_node(3), 0);
    for node in 0..6 {
        assert_eq!(table.report(&at(node, 6)), 18);
    }
    assert_eq!(table.report(&at(6, 6)), 0);
    let fresh = Table::fresh();
    table.state.clone_from(&fresh.state);
    assert_eq!(table.report(&at(0, 6)), 0);
}

/// From a held node's report up to the kept view; of others nothing is asked.
#[test]
fn row_3_remembered_views() {
    let mut table = Table::gathered();
    assert_eq!(table.report(&encode(&report_of(6, 4, &[]))), 0);
    for (word, number) in [(3, 3), (4, 0), (6, 0), (7, 0), (8, 3), (0, 3)] {
        assert_eq!(table.with_word(128, word), number, "node 6 at {word}");
    }
    assert_eq!(table.with_word(122, 6), 3);
    assert_eq!(table.with_word(129, 1), 3, "node 7 of 7");
    assert_eq!(table.with_word(154, 1), 3);
    assert_eq!(table.drop_node(6), 0);
    for word in [0, 1, 4, 7, 8, u32::MAX] {
        assert_eq!(table.with_word(128, word), 0, "node 6 at {word}, not held");
    }
    table.state[128] = u32::MAX;
    let at = |view| encode(&report_of(6, view, &[]));
    assert_eq!(table.report(&at(u32::MAX - 1)), 18);
    // A state of before, with nothing remembered.
    let mut old = Table::gathered();
    old.state[122..].fill(0);
    assert_eq!(old.check(), 3);
    let fresh = Table::fresh();
    assert_eq!(fresh.with_word(122, 7), 0, "nothing held, no view kept");
}

/// No other event touches what is remembered.
#[test]
fn memory_through_a_restart() {
    let mut table = Table::gathered();
    let remembered = table.state().remembered;
    assert_eq!(remembered[..7], [7, 7, 7, 7, 7, 7, 0]);
    assert_eq!(table.decide(), Ok(Decision::Plan));
    for node in 0..6 {
        assert_eq!(table.fetched(node), 0);
    }
    for node in 0..6 {
        assert_eq!(table.prepared(node), 0);
    }
    assert_eq!(table.state().remembered, remembered);
    assert_eq!(table.check(), 0);
}

/// Node 4's order in the printed run.
#[test]
fn an_order() {
    let table = Table::ordered();
    let order = table.order(4).unwrap();
    let contents = message::read(Form::Order, &SETTINGS, &order).unwrap();
    assert_eq!((contents.node, contents.view, contents.members), (4, 8, 63));
    assert_eq!(contents.shard_mask(1), 50);
    let target = contents.find(TERMINATION, 1).unwrap();
    assert_eq!((target.word1, target.word2), (7, 5));
    assert_eq!(contents.of_kind(HOLDER), vec![Triple::new(HOLDER, 1, 1, 0)]);
    assert_eq!(contents.of_kind(CUT), vec![Triple::new(CUT, 1, 7, 4)]);
}

/// With a kept termination a holder must have its update, not just a later end.
#[test]
fn a_kept_termination_is_the_target() {
    let mut table = Table::fresh();
    for node in [0, 2, 3, 5] {
        table.report(&printed_report(node));
    }
    let first = report_of(1, 7, &[(5, 3)]);
    table.report(&encode(&terminated(&first, [(0, 0), (5, 3), (0, 0)])));
    table.report(&encode(&report_of(4, 7, &[(6, 1)])));
    assert_eq!(table.decide(), Ok(Decision::Plan));
    let plan = table.state().plan.unwrap();
    assert_eq!(plan.holders[1], 1);
    assert_eq!(plan.targets[1], Position::new(5, 3));
}

/// A stale member of the kept view counts for the majority.
#[test]
fn stale_members_count_for_the_majority() {
    let mut table = Table::fresh();
    for node in [0, 1, 5] {
        table.report(&printed_report(node));
    }
    table.report(&encode(&report_of(2, 3, &[])));
    let decision = table.decide().unwrap();
    assert_ne!(decision, Decision::Wait(Wait::NoMajority));
}
