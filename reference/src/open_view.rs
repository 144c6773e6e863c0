//! What a leader finds of an open view: one that a machine has on disk and does
//! not know to be committed.
//!
//! The rule is asked machine by machine, from 0 to 31, in its own words.

use crate::mask;

/// What is said of an open view.
#[derive(Clone, Copy, Debug, PartialEq, Eq)]
pub enum Finding {
    /// It is sure.
    Sure,
    /// It has never been served.
    Never,
    /// Neither is said of it.
    Undecided,
    /// Both are said of it.
    Contradicted,
}

/// The finding on a view with these `members`. The masks are of machines:
/// - `known`: they have it as committed, or sent a view in whose list of earlier
///   views it stands
/// - `have`: they have it on disk as open
/// - `lack`: they have sent their views, and it is neither among them nor in
///   their lists
/// - `passed`: they sent a committed view of its number or a greater one, which
///   is another view and does not have it in its list
pub fn judge(members: u32, known: u32, have: u32, lack: u32, passed: u32) -> Finding {
    let sure = is_sure(members, known, have);
    let never = is_never_served(members, lack, passed);
    match (sure, never) {
        (true, false) => Finding::Sure,
        (false, true) => Finding::Never,
        (true, true) => Finding::Contradicted,
        (false, false) => Finding::Undecided,
    }
}

/// Some machine knows it, or it has a member and every member has it.
fn is_sure(members: u32, known: u32, have: u32) -> bool {
    let mut some_known = false;
    let mut some_member = false;
    let mut every_member_has = true;
    for machine in 0..32 {
        if mask::has(known, machine) {
            some_known = true;
        }
        if mask::has(members, machine) {
            some_member = true;
            if !mask::has(have, machine) {
                every_member_has = false;
            }
        }
    }
    some_known || (some_member && every_member_has)
}

/// Some member lacks it, or some machine has passed it.
fn is_never_served(members: u32, lack: u32, passed: u32) -> bool {
    for machine in 0..32 {
        if mask::has(members, machine) && mask::has(lack, machine) {
            return true;
        }
        if mask::has(passed, machine) {
            return true;
        }
    }
    false
}

#[cfg(test)]
mod tests {
    use super::*;
    use Finding::{Contradicted, Never, Sure, Undecided};

    /// Machines 0, 2 and 31, the members of most views here.
    const MEMBERS: u32 = 1 + 4 + (1 << 31);

    #[test]
    fn nothing_sent() {
        assert_eq!(judge(0, 0, 0, 0, 0), Undecided);
        assert_eq!(judge(MEMBERS, 0, 0, 0, 0), Undecided);
        assert_eq!(judge(u32::MAX, 0, 0, 0, 0), Undecided);
    }

    /// One machine that knows it is enough, a member or not.
    #[test]
    fn sure_by_one_that_knows_it() {
        for machine in 0..32 {
            let known = 1 << machine;
            assert_eq!(judge(MEMBERS, known, 0, 0, 0), Sure);
            assert_eq!(judge(0, known, 0, 0, 0), Sure);
        }
    }

    #[test]
    fn sure_by_all_members() {
        assert_eq!(judge(MEMBERS, 0, MEMBERS, 0, 0), Sure);
        assert_eq!(judge(MEMBERS, 0, u32::MAX, 0, 0), Sure);
        assert_eq!(judge(u32::MAX, 0, u32::MAX, 0, 0), Sure);
        for machine in mask::nodes(MEMBERS) {
            let others = MEMBERS - (1 << machine);
            assert_eq!(judge(MEMBERS, 0, others, 0, 0), Undecided);
            // One that is no member does not stand in for it.
            assert_eq!(judge(MEMBERS, 0, others + 2, 0, 0), Undecided);
            assert_eq!(judge(1 << machine, 0, 1 << machine, 0, 0), Sure);
        }
    }

    /// Without members nobody is left to have it, and it is not sure by that.
    #[test]
    fn a_view_without_members() {
        assert_eq!(judge(0, 0, u32::MAX, 0, 0), Undecided);
        assert_eq!(judge(0, 0, u32::MAX, u32::MAX, 0), Undecided);
        assert_eq!(judge(0, 0, u32::MAX, 0, 1), Never);
    }

    /// A member's lack counts, another machine's does not.
    #[test]
    fn never_by_a_member_that_lacks_it() {
        for machine in 0..32 {
            let lack = 1 << machine;
            let is_member = mask::has(MEMBERS, machine);
            let expected = if is_member { Never } else { Undecided };
            assert_eq!(judge(MEMBERS, 0, 0, lack, 0), expected);
            assert_eq!(judge(MEMBERS, 0, MEMBERS - 1, lack, 0), expected);
        }
    }

    /// One machine that has passed it is enough, a member or not.
    #[test]
    fn never_by_one_that_passed() {
        for machine in 0..32 {
            assert_eq!(judge(MEMBERS, 0, 0, 0, 1 << machine), Never);
            assert_eq!(judge(0, 0, 0, 0, 1 << machine), Never);
        }
    }

    #[test]
    fn contradicted_by_any_two() {
        assert_eq!(judge(MEMBERS, 2, 0, 4, 0), Contradicted);
        assert_eq!(judge(MEMBERS, 2, 0, 0, 8), Contradicted);
        assert_eq!(judge(MEMBERS, 0, MEMBERS, 4, 0), Contradicted);
        assert_eq!(judge(MEMBERS, 0, MEMBERS, 0, 8), Contradicted);
        assert_eq!(judge(0, 2, 0, 0, 8), Contradicted);
        // The lack of one that is no member contradicts nothing.
        assert_eq!(judge(MEMBERS, 2, 0, 2, 0), Sure);
        assert_eq!(judge(MEMBERS, 0, MEMBERS, 2, 0), Sure);
    }

    /// Three machines at three places, in every combination of the five masks:
    /// the rule by sets of machines.
    #[test]
    fn every_combination_of_three_machines() {
        let places = [0, 15, 31];
        let spread = |bits: u32| -> u32 {
            let machine = |place: usize| (bits >> place & 1) << places[place];
            machine(0) + machine(1) + machine(2)
        };
        let mut seen = [0; 4];
        for code in 0..1u32 << 15 {
            let field = |at: u32| spread(code >> (3 * at) & 7);
            let (members, known, have) = (field(0), field(1), field(2));
            let (lack, passed) = (field(3), field(4));
            let of = mask::nodes(members);
            let all_have = of.iter().all(|&machine| mask::has(have, machine));
            let one_lacks = of.iter().any(|&machine| mask::has(lack, machine));
            let sure = known != 0 || (!of.is_empty() && all_have);
            let never = one_lacks || passed != 0;
            let finding = judge(members, known, have, lack, passed);
            assert_eq!(matches!(finding, Sure | Contradicted), sure);
            assert_eq!(matches!(finding, Never | Contradicted), never);
            seen[finding as usize] += 1;
        }
        assert!(seen.iter().all(|&count| count > 0));
        assert_eq!(seen.iter().sum::<u32>(), 1 << 15);
    }
}
