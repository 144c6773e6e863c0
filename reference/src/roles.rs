//! Roles (restart(3), Roles): who calls, and what that allows.

use crate::settings::SUBGROUPS;

/// The word of the planner.
pub const PLANNER: u32 = 256;
/// The word of the watcher of subgroup 0; the others follow.
pub const WATCHER: u32 = 512;

/// Who calls.
#[derive(Clone, Copy, Debug, PartialEq, Eq)]
pub enum Role {
    /// May do every operation and read every page.
    Planner,
    /// May only read the page of one subgroup.
    Watcher(u32),
    /// May do nothing.
    Nobody,
}

impl Role {
    /// The role that a C caller's word says. A word that is none is nobody's.
    pub fn of(word: u32) -> Role {
        match word {
            PLANNER => Role::Planner,
            _ => (0..SUBGROUPS)
                .find(|subgroup| word == WATCHER + subgroup)
                .map_or(Role::Nobody, Role::Watcher),
        }
    }

    /// Whether the operations are allowed.
    pub fn may_plan(self) -> bool {
        self == Role::Planner
    }

    /// Whether the page of a subgroup is allowed. There is none above 3.
    pub fn may_read(self, subgroup: u32) -> bool {
        subgroup < SUBGROUPS && (self == Role::Planner || self == Role::Watcher(subgroup))
    }
}

#[cfg(test)]
mod tests {
    use super::*;

    #[test]
    fn words_of_roles() {
        assert_eq!(Role::of(256), Role::Planner);
        for subgroup in 0..4 {
            assert_eq!(Role::of(512 + subgroup), Role::Watcher(subgroup));
        }
        for word in [0, 1, 2, 255, 257, 260, 511, 516, 767, 768, 1024, u32::MAX] {
            assert_eq!(Role::of(word), Role::Nobody, "{word}");
        }
    }

    #[test]
    fn what_roles_may() {
        assert!(Role::Planner.may_plan());
        assert!(!Role::Watcher(0).may_plan() && !Role::Nobody.may_plan());
        for subgroup in [0, 1, 2, 3, 4, 5, 256, u32::MAX] {
            assert_eq!(Role::Planner.may_read(subgroup), subgroup < 4);
            assert!(!Role::Nobody.may_read(subgroup));
            for own in [0, 1, 2, 3, 4, 256, u32::MAX] {
                let watcher = Role::Watcher(own);
                assert_eq!(watcher.may_read(subgroup), own == subgroup && own < 4);
            }
        }
    }
}
