//! The comparison finds libraries that are wrong about open views. Each stand-in
//! is the reference with one fault.

use differential::library::VIEW;
use differential::mock::{self, Behaviour, Faithful};
use differential::open_views::{self, Question};

const SEED: u64 = 20_261_117;
const COUNT: u64 = 20_000;

/// Whether the small questions and whether the random ones show a difference.
fn found<B: Behaviour>() -> (bool, bool) {
    let library = mock::library::<B>();
    let small = open_views::compare_small(&library).err();
    let random = open_views::compare_random(&library, SEED, 0, COUNT).err();
    println!("{}: {small:?}, {random:?}", std::any::type_name::<B>());
    (small.is_some(), random.is_some())
}

#[test]
fn the_reference_agrees_with_itself() {
    assert_eq!(found::<Faithful>(), (false, false));
}

/// Random questions come to every situation often enough.
#[test]
fn random_questions_are_good() {
    let library = mock::library::<Faithful>();
    let situations = open_views::compare_random(&library, SEED, 0, COUNT).expect("the same");
    assert_eq!(open_views::rare(&situations, COUNT), [""; 0]);
}

/// A stand-in that asks the reference another question, or answers otherwise.
macro_rules! wrong {
    ($(#[doc = $what:literal])* $name:ident, $test:ident, |$q:ident| $body:expr) => {
        $(#[doc = $what])*
        struct $name;

        impl Behaviour for $name {
            fn open_view($q: &Question) -> u32 {
                $body
            }
        }

        #[test]
        fn $test() {
            assert_eq!(found::<$name>(), (true, true));
        }
    };
}

wrong!(
    /// Most of the members are enough.
    MostMembers,
    most_members,
    |q| {
        let most = (q.have & q.members).count_ones() * 2 > q.members.count_ones();
        let have = if most { q.have | q.members } else { q.have };
        open_views::expected(&Question { have, ..*q })
    }
);

wrong!(
    /// As many machines as it has members are enough, whichever they are.
    AsManyMachines,
    as_many_machines,
    |q| {
        let many = q.members != 0 && q.have.count_ones() >= q.members.count_ones();
        let have = if many { q.have | q.members } else { q.have };
        open_views::expected(&Question { have, ..*q })
    }
);

wrong!(
    /// A machine that is no member says by its lack that it was never served.
    StrangersLack,
    strangers_lack,
    |q| open_views::expected(&Question { passed: q.passed | q.lack, ..*q })
);

wrong!(
    /// Only a member can know it.
    MembersKnow,
    members_know,
    |q| open_views::expected(&Question { known: q.known & q.members, ..*q })
);

wrong!(
    /// A member that has it is not passed by.
    PassedWithoutIt,
    passed_without_it,
    |q| open_views::expected(&Question { passed: q.passed & !(q.have & q.members), ..*q })
);

wrong!(
    /// All of no members have it.
    NoMembers,
    no_members,
    |q| {
        let known = if q.members == 0 { q.known | 1 } else { q.known };
        open_views::expected(&Question { known, ..*q })
    }
);

wrong!(
    /// What is contradicted counts.
    SureBeforeNever,
    sure_before_never,
    |q| {
        let answer = open_views::expected(q);
        if answer == VIEW + 4 { VIEW + 1 } else { answer }
    }
);

wrong!(
    /// Machine 31 is not looked at.
    Machine31,
    machine_31,
    |q| {
        let seen = u32::MAX >> 1;
        let Question { members, known, have, lack, passed } = *q;
        open_views::expected(&Question {
            members: members & seen,
            known: known & seen,
            have: have & seen,
            lack: lack & seen,
            passed: passed & seen,
        })
    }
);
