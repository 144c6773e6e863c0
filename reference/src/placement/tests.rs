use super::*;
use crate::cases::Random;
use crate::{order, settings};
use std::collections::BTreeSet;

fn run_settings() -> Settings {
    settings::parse(&[7, 3, 4, 3, 0, 0, 1, 1, 1, 2, 2, 2, 3, 1]).unwrap()
}

/// Case A's placement.
#[test]
fn case_a() {
    let settings = run_settings();
    let subgroup = Subgroup {
        settings: &settings,
        number: 0,
        held: 63,
        old: &[5, 82, 32],
    };
    let placement = vec![5, 50, 8];
    assert!(subgroup.valid(&placement));
    assert_eq!(subgroup.moves(&placement), 2);
    assert_eq!(subgroup.least_moves(), Some(2));
    assert_eq!(subgroup.first_best(), Some(placement));
}

/// A subgroup without shards has one placement, the empty one.
#[test]
fn an_empty_subgroup() {
    let settings = run_settings();
    let subgroup = Subgroup {
        settings: &settings,
        number: 2,
        held: 0,
        old: &[5, 82, 32],
    };
    assert_eq!(subgroup.all(), vec![vec![0, 0, 0]]);
    assert_eq!(subgroup.first_best(), Some(vec![0, 0, 0]));
}

/// Moves are counted by node, not by failure set.
#[test]
fn moves_are_counted_by_node() {
    let settings = settings::parse(&[3, 2, 1, 1, 0, 0, 1, 2]).unwrap();
    let subgroup = Subgroup {
        settings: &settings,
        number: 0,
        held: 0b110,
        old: &[0b101],
    };
    assert_eq!(subgroup.least_moves(), Some(1));
    assert_eq!(subgroup.first_best(), Some(vec![0b110]));
    let sheet = sheet(&settings, 0b110, &[0b101]);
    assert_eq!(sheet[0][..3], [1, 0, 2]);
    assert_eq!(sheet[1][0], 2);
}

#[test]
fn what_is_not_valid() {
    let settings = run_settings();
    let subgroup = Subgroup {
        settings: &settings,
        number: 0,
        held: 63,
        old: &[5, 82, 32],
    };
    // Node 6 is not held; one set twice; a node twice; too few and too many.
    assert!(!subgroup.valid(&[5, 82, 8]));
    assert!(!subgroup.valid(&[3, 52, 8]));
    assert!(!subgroup.valid(&[5, 50, 2]));
    assert!(!subgroup.valid(&[1, 50, 8]));
    assert!(!subgroup.valid(&[37, 26, 0]));
}

/// With caps: a set any number of times, up to cap nodes, from m sets.
#[test]
fn what_is_valid_with_caps() {
    let words = [7, 3, 4, 2, 0, 0, 1, 1, 1, 2, 2];
    let shards = [4 * 65536 + 2, 2 * 65536 + 1];
    let settings = settings::parse(&[&words[..], &shards].concat()).unwrap();
    let subgroup = Subgroup {
        settings: &settings,
        number: 0,
        held: 63,
        old: &[5, 32],
    };
    assert!(subgroup.valid(&[0b00_1110, 0b01_0000]), "1 2 3, sets 0 1 1");
    assert!(subgroup.valid(&[0b00_1111, 0b01_0000]), "sets 0 0 1 1");
    assert!(
        !subgroup.valid(&[0b01_1100, 0b00_0001]),
        "2 3 4, all of set 1"
    );
    assert!(
        !subgroup.valid(&[0b00_0011, 0b01_0000]),
        "0 1, both of set 0"
    );
    assert!(
        !subgroup.valid(&[0b01_1111, 0b10_0000]),
        "five nodes, cap 4"
    );
    assert!(
        !subgroup.valid(&[0b00_1111, 0b11_1000]),
        "three nodes, cap 2"
    );
    assert!(!subgroup.valid(&[0b00_1111, 0b01_1000]), "3 twice");
    assert!(!subgroup.valid(&[0b00_1111, 0b00_0000]), "shard 1 empty");
    assert!(!subgroup.valid(&[0b100_0111, 0b00_1000]), "6 is not held");
    assert_eq!(subgroup.moves(&[0b00_1111, 0b01_0000]), 3);
    assert_eq!(subgroup.stays(&[0b00_1111, 0b01_0000]), 2);
    assert_eq!(subgroup.stays(&[0b00_0110, 0b10_0000]), 2);
}

/// A shard that needs two members and had four keeps four if its cap is 4, and
/// the lowest of them that are of two sets if it has no cap.
#[test]
fn good_replicas_are_kept() {
    let kept = |cap: u32, held: u32| {
        let words = [8, 4, 1, 1, 0, 0, 1, 1, 2, 2, 3, 3, cap * 65536 + 2];
        let settings = settings::parse(&words).unwrap();
        let subgroup = Subgroup {
            settings: &settings,
            number: 0,
            held,
            old: &[0b1001_0101],
        };
        let best = subgroup.first_best();
        assert_eq!(order::exhaustive(&subgroup), best);
        best.map(|masks| masks[0])
    };
    assert_eq!(kept(0, 255), Some(0b0000_0101));
    assert_eq!(kept(2, 255), Some(0b0000_0101));
    assert_eq!(kept(3, 255), Some(0b0001_0101));
    assert_eq!(kept(4, 255), Some(0b1001_0101));
    assert_eq!(kept(16, 255), Some(0b1001_0101), "only those that stay");
    assert_eq!(kept(4, 0b1000_0101), Some(0b1000_0101), "one is absent");
    assert_eq!(kept(4, 0b0001_0010), Some(0b0001_0010), "one move");
    assert_eq!(kept(4, 0b0000_0011), None, "one set");
}

/// Of equal moves the most stays, which come before the order: shard 1 takes
/// node 2, which was in no shard, and not node 1, though that list is smaller.
#[test]
fn stays_come_before_the_order() {
    let best = |cap: u32| {
        let words = [4, 1, 1, 2, 0, 0, 0, 0, cap * 65536 + 1, 1];
        let settings = settings::parse(&words).unwrap();
        let subgroup = Subgroup {
            settings: &settings,
            number: 0,
            held: 0b0111,
            old: &[0b0011, 0b1000],
        };
        let best = subgroup.first_best();
        assert_eq!(order::exhaustive(&subgroup), best);
        assert_eq!(subgroup.least_moves(), Some(1));
        best.unwrap()
    };
    assert_eq!(best(1), vec![0b0001, 0b0010]);
    assert_eq!(best(2), vec![0b0011, 0b0100]);
    assert_eq!(best(3), vec![0b0011, 0b0100]);
}

/// A need is met before a member is kept: shard 1 takes a member of shard 0 in
/// its only other set.
#[test]
fn needs_come_before_stays() {
    let words = [4, 2, 1, 2, 0, 1, 1, 1, 4 * 65536 + 1, 3 * 65536 + 2];
    let settings = settings::parse(&words).unwrap();
    let subgroup = Subgroup {
        settings: &settings,
        number: 0,
        held: 0b1111,
        old: &[0b0111, 0b1000],
    };
    let best = vec![0b0110, 0b1001];
    assert_eq!(subgroup.first_best(), Some(best.clone()));
    assert_eq!(order::exhaustive(&subgroup), Some(best.clone()));
    assert_eq!((subgroup.moves(&best), subgroup.stays(&best)), (1, 3));
}

/// A list comes before one that goes on after it, where as many stay: shard 1
/// needs a node, and shard 0 or shard 2 loses one of two.
#[test]
fn a_prefix_comes_first() {
    let wide = 2 * 65536 + 1;
    let settings = settings::parse(&[4, 1, 1, 3, 0, 0, 0, 0, wide, 1, wide]).unwrap();
    let subgroup = Subgroup {
        settings: &settings,
        number: 0,
        held: 0b1111,
        old: &[0b0011, 0, 0b1100],
    };
    let best = vec![0b0001, 0b0010, 0b1100];
    let as_good = vec![0b0011, 0b0100, 0b1000];
    assert_eq!(subgroup.moves(&best), subgroup.moves(&as_good));
    assert_eq!(subgroup.stays(&best), subgroup.stays(&as_good));
    assert_eq!(subgroup.first_best(), Some(best.clone()));
    assert_eq!(order::exhaustive(&subgroup), Some(best));
    // The first of all is that of the shortest lists.
    assert_eq!(subgroup.first(), Some(vec![0b0001, 0b0010, 0b0100]));
}

/// A shard's word, mostly with a cap above m or m itself.
fn shard_word(random: &mut Random, subgroup: u32, need: u32) -> u32 {
    let cap = match random.below(4) {
        0 => 0,
        1 => need,
        2 => need + random.below(3),
        _ => need + random.below(17 - need),
    };
    cap * 65536 + subgroup * 256 + need
}

/// Small settings with subgroups 0 and 1, and old masks that are disjoint in
/// each subgroup.
fn small_case(random: &mut Random) -> (Settings, u32, Vec<u32>) {
    let nodes = 1 + random.below(7);
    let sets = 1 + random.below(4);
    let shards = 1 + random.below(4);
    let mut words = vec![nodes, sets, 1, shards];
    words.extend((0..nodes).map(|_| random.below(sets)));
    for _ in 0..shards {
        let (subgroup, need) = (random.below(2), 1 + random.below(sets.min(3)));
        words.push(shard_word(random, subgroup, need));
    }
    let settings = settings::parse(&words).unwrap();
    let mut old = vec![0; shards as usize];
    for subgroup in 0..2 {
        let own = settings.shards_of(subgroup);
        for node in 0..nodes {
            if !own.is_empty() && random.below(4) > 0 {
                let shard = own[random.below(own.len() as u32) as usize];
                old[shard as usize] |= mask::only(node);
            }
        }
    }
    let held = random.below(1 << nodes) | random.below(1 << nodes);
    (settings, held, old)
}

/// Flow and exhaustive search agree on feasibility, least moves and the first
/// placements in the order.
#[test]
fn flow_against_exhaustive_search() {
    let mut random = Random(0x1234_5678_9ABC_DEF1);
    let (mut feasible, mut costly, mut late, mut stay) = (0, 0, 0, 0);
    for _ in 0..6000 {
        let (settings, held, old) = small_case(&mut random);
        for number in 0..2 {
            let subgroup = Subgroup {
                settings: &settings,
                number,
                held,
                old: &old,
            };
            let all = subgroup.all();
            if all.len() > 20_000 {
                continue;
            }
            assert!(all.iter().all(|masks| subgroup.valid(masks)));
            let least = all.iter().map(|masks| subgroup.moves(masks)).min();
            assert_eq!(subgroup.least_moves(), least);
            let first = |most: u32| {
                let within = |masks: &&Placement| subgroup.moves(masks) <= most;
                order::first_of(all.iter().filter(within).cloned().collect())
            };
            assert_eq!(subgroup.first(), first(u32::MAX));
            let Some(least) = least else {
                assert_eq!(subgroup.first_best(), None);
                continue;
            };
            let best = order::exhaustive(&subgroup).unwrap();
            assert_eq!(subgroup.first_best(), Some(best.clone()));
            assert_eq!(subgroup.moves(&best), least);
            let more = least + random.below(3);
            assert_eq!(subgroup.first_within(more), first(more));
            if least > 0 {
                assert_eq!(subgroup.first_within(least - 1), None);
            }
            let any = subgroup.any_best().unwrap();
            assert!(subgroup.valid(&any) && subgroup.moves(&any) == least);
            assert_eq!(subgroup.stays(&any), subgroup.stays(&best));
            feasible += 1;
            costly += u32::from(least > 0);
            late += u32::from(first(least) != first(u32::MAX));
            stay += u32::from(first(least) != Some(best));
        }
    }
    println!(
        "{feasible} feasible, {costly} with moves, {late} where the first valid one has more, \
         {stay} where the first of least moves keeps fewer members"
    );
    assert!(feasible > 3000 && costly > 1000 && late > 500 && stay > 500);
}

/// Caps change neither whether there is a valid placement nor its least moves,
/// and never fewer members stay. Caps at m, said or not, change nothing.
#[test]
fn caps_change_neither_waits_nor_totals() {
    let mut random = Random(0x5EED_CAFE);
    let (mut placed, mut none, mut kept) = (0, 0, 0);
    for _ in 0..6000 {
        let (wide, held, old) = small_case(&mut random);
        let narrow = Settings {
            cap_of: wide.need_of.clone(),
            ..wide.clone()
        };
        for number in 0..2 {
            let in_settings = |settings| Subgroup {
                settings,
                number,
                held,
                old: &old,
            };
            let (wide, narrow) = (in_settings(&wide), in_settings(&narrow));
            assert_eq!(wide.least_moves(), narrow.least_moves());
            let best = narrow.first_best();
            let least = order::all_best(&narrow);
            // With m nodes in each shard, least moves are most stays, and the
            // order alone decides.
            let stays: BTreeSet<u32> = least.iter().map(|masks| narrow.stays(masks)).collect();
            assert!(stays.len() <= 1);
            let moves = |masks: &&Placement| Some(narrow.moves(masks)) == narrow.least_moves();
            let all = narrow.all();
            let as_before = order::first_of(all.iter().filter(moves).cloned().collect());
            assert_eq!(best, as_before);
            for masks in &all {
                assert!(wide.valid(masks));
                let exact =
                    |shard: u32| mask::count(masks[shard as usize]) == wide.settings.need(shard);
                assert!(narrow.shards().into_iter().all(exact));
            }
            match (best, wide.first_best()) {
                (Some(best), Some(more)) => {
                    assert!(wide.stays(&more) >= narrow.stays(&best));
                    kept += u32::from(wide.stays(&more) > narrow.stays(&best));
                    placed += 1;
                }
                (None, None) => none += 1,
                both => panic!("{both:?}"),
            }
        }
    }
    println!("{placed} placed, {none} not, {kept} where caps keep more members");
    assert!(placed > 3000 && none > 1000 && kept > 1000);
}

/// All valid placements by trying all masks, without any search order.
#[test]
fn exhaustive_search_against_all_masks() {
    let mut random = Random(77);
    for _ in 0..300 {
        let nodes = 1 + random.below(4);
        let sets = 1 + random.below(3);
        let mut words = vec![nodes, sets, 1, 2];
        words.extend((0..nodes).map(|_| random.below(sets)));
        for _ in 0..2 {
            let need = 1 + random.below(sets);
            words.push(shard_word(&mut random, 0, need));
        }
        let settings = settings::parse(&words).unwrap();
        let subgroup = Subgroup {
            settings: &settings,
            number: 0,
            held: random.below(1 << nodes),
            old: &[0, 0],
        };
        let pairs = (0..1 << nodes).flat_map(|a| (0..1 << nodes).map(move |b| vec![a, b]));
        let valid: Vec<Placement> = pairs.filter(|masks| subgroup.valid(masks)).collect();
        let mut all = subgroup.all();
        all.sort_unstable();
        assert_eq!(all, valid);
    }
}

/// The least moves are those of the sheet, whatever the caps: choices of m sets
/// for each shard, each set at most as often as it has held nodes.
#[test]
fn the_sheet_is_enough() {
    let mut random = Random(4242);
    for _ in 0..2000 {
        let (settings, held, old) = small_case(&mut random);
        let subgroup = Subgroup {
            settings: &settings,
            number: 0,
            held,
            old: &old,
        };
        let sheet = sheet(&settings, held, &old);
        let mut room = vec![0; settings.sets as usize];
        for node in mask::nodes(held) {
            room[settings.set(node) as usize] += 1;
        }
        let least = least_of_sheet(&settings, &sheet, &settings.shards_of(0), room);
        assert_eq!(subgroup.least_moves(), least);
    }
}

fn least_of_sheet(
    settings: &Settings,
    sheet: &[[u32; 16]; 16],
    left: &[u32],
    room: Vec<usize>,
) -> Option<u32> {
    let Some((&shard, others)) = left.split_first() else {
        return Some(0);
    };
    let row = sheet[shard as usize];
    let open = |&set: &u32| row[set as usize] < 2 && room[set as usize] > 0;
    let sets: u32 = (0..settings.sets).filter(open).map(mask::only).sum();
    let need = settings.need(shard);
    let choices = parts(sets, need).into_iter();
    choices
        .filter(|&chosen| mask::count(chosen) == need)
        .filter_map(|chosen| {
            let chosen = mask::nodes(chosen).into_iter().map(|set| set as usize);
            let mut room = room.clone();
            chosen.clone().for_each(|set| room[set] -= 1);
            let own: u32 = chosen.map(|set| row[set]).sum();
            least_of_sheet(settings, sheet, others, room).map(|rest| own + rest)
        })
        .min()
}

/// The largest case ends quickly enough to be compared with.
#[test]
fn a_large_case() {
    let mut words = vec![32, 16, 1, 16];
    words.extend((0..32).map(|node| node % 16));
    words.extend([2; 16]);
    let settings = settings::parse(&words).unwrap();
    let old: Vec<u32> = (0..16).map(|shard| 3 << (2 * (15 - shard))).collect();
    let subgroup = Subgroup {
        settings: &settings,
        number: 0,
        held: u32::MAX,
        old: &old,
    };
    assert_eq!(subgroup.least_moves(), Some(0));
    assert_eq!(subgroup.first_best(), Some(old.clone()));
    let first: Vec<u32> = (0..16).map(|shard| 3 << (2 * shard)).collect();
    assert_eq!(subgroup.first(), Some(first));
}
