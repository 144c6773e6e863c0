use super::*;
use crate::cases::{random_layout, Random};
use crate::settings;
use std::collections::BTreeSet;

/// Lists, not numbers: 0 3 comes before 1 2, though its mask is greater. The
/// first shard that differs decides, and the beginning of a list is smaller.
#[test]
fn which_comes_first() {
    assert_eq!(compare(&[0b1001], &[0b0110]), Ordering::Less);
    assert_eq!(compare(&[0b0110], &[0b1001]), Ordering::Greater);
    assert_eq!(compare(&[0b11, 0b100], &[0b11, 0b1000]), Ordering::Less);
    assert_eq!(compare(&[0b100, 0b01], &[0b010, 0b10]), Ordering::Greater);
    assert_eq!(compare(&[0b01], &[0b11]), Ordering::Less);
    assert_eq!(compare(&[7, 8], &[7, 8]), Ordering::Equal);
    assert_eq!(first_of(vec![vec![6], vec![9], vec![10]]), Some(vec![9]));
    assert_eq!(first_of(Vec::new()), None);
}

/// Shards 0 and 2 of subgroup 1 around shard 1 of subgroup 0; nothing stays.
#[test]
fn an_interleaved_layout() {
    let settings = settings::parse(&[4, 2, 1, 3, 0, 1, 0, 1, 258, 1, 257]).unwrap();
    let layout = Layout {
        settings: &settings,
        held: 0b1111,
        old: &[0, 0, 0],
    };
    let first = vec![0b0011, 0b0001, 0b0100];
    assert!(layout.valid(&first));
    assert_eq!(layout.moves(&first), 4);
    assert_eq!(layout.first_best(), Some(first.clone()));
    assert_eq!(layout.each(exhaustive), Ok(first));
}

/// A random layout of up to `most` nodes.
fn case(random: &mut Random, most: u32) -> (Settings, u32, Vec<u32>) {
    let (words, held, old) = random_layout(random, most);
    (settings::parse(&words).unwrap(), held, old)
}

/// The greedy method over the flow finds what the definition says, with up to
/// nine nodes.
#[test]
fn the_greedy_method_finds_the_first() {
    let mut random = Random(0x0DDB_1A5E_5BAD_5EED);
    let (mut found, mut equal) = (0, 0);
    for _ in 0..4000 {
        let (settings, held, old) = case(&mut random, 9);
        let layout = Layout {
            settings: &settings,
            held,
            old: &old,
        };
        for subgroup in layout.subgroups() {
            if many(&subgroup) {
                continue;
            }
            let best = all_best(&subgroup);
            let first = first_of(best.clone());
            assert_eq!(exhaustive(&subgroup), first);
            assert_eq!(greedy(&subgroup), first);
            // Where all lists are of one length, the least masks as numbers are
            // the same ones.
            if settings.cap_of == settings.need_of {
                assert_eq!(first, best.iter().min().cloned());
            }
            let Some(first) = first else { continue };
            assert!(subgroup.valid(&first));
            assert!(best
                .iter()
                .all(|other| compare(&first, other) != Ordering::Greater));
            if !settings.shards_of(subgroup.number).is_empty() {
                found += 1;
                equal += u32::from(best.len() > 1);
            }
        }
    }
    println!("{found} placed, {equal} with another as good");
    assert!(found > 3000 && equal > 1500);
}

/// Lists are no numbers: 0 1 comes before 1, though its mask is greater. Shard 1
/// needs a node of set 1, node 0 of shard 0 or node 3 or 4 of shard 2.
#[test]
fn lists_of_two_lengths_are_no_numbers() {
    let wide = 2 * 65536 + 1;
    let settings = settings::parse(&[5, 2, 1, 3, 1, 0, 0, 1, 1, wide, 2, wide]).unwrap();
    let layout = Layout {
        settings: &settings,
        held: 0b11111,
        old: &[0b00011, 0b00100, 0b11000],
    };
    let subgroup = layout.subgroup(0);
    let first = vec![0b00011, 0b01100, 0b10000];
    assert_eq!(greedy(&subgroup), Some(first.clone()));
    assert_eq!(exhaustive(&subgroup), Some(first));
    let least = vec![0b00010, 0b00101, 0b11000];
    assert_eq!(all_best(&subgroup).into_iter().min(), Some(least));
}

/// One shard has lost its members, and every other node is a member of another
/// shard. Which of them loses one makes its list shorter.
#[test]
fn lists_of_other_lengths() {
    let mut random = Random(0xCA95);
    let mut longer = 0;
    for _ in 0..1000 {
        let (nodes, sets) = (5 + random.below(3), 1 + random.below(2));
        let mut words = vec![nodes, sets, 1, 3];
        words.extend((0..nodes).map(|_| random.below(sets)));
        words.extend((0..3).map(|_| (2 + random.below(3)) * 65536 + 1));
        let settings = settings::parse(&words).unwrap();
        let lost = random.below(3);
        let mut old = vec![0; 3];
        for node in 0..nodes {
            old[random.below(3) as usize] |= mask::only(node);
        }
        let layout = Layout {
            settings: &settings,
            held: mask::below(nodes) & !old[lost as usize],
            old: &old,
        };
        let subgroup = layout.subgroup(0);
        let best = all_best(&subgroup);
        assert_eq!(greedy(&subgroup), first_of(best.clone()));
        let lengths = |masks: &Placement| masks.iter().copied().map(mask::count).collect();
        let lengths: BTreeSet<Vec<u32>> = best.iter().map(lengths).collect();
        longer += u32::from(lengths.len() > 1);
    }
    println!("{longer} where lists of several lengths are as good");
    assert!(longer > 100);
}

/// Whether there may be too many placements to go through.
fn many(subgroup: &Subgroup) -> bool {
    let wide = |&shard: &u32| subgroup.settings.cap(shard) > subgroup.settings.need(shard);
    let shards = subgroup.settings.shards_of(subgroup.number);
    let ways = 1 + shards.iter().filter(|shard| wide(shard)).count() as u64;
    ways.pow(mask::count(subgroup.held)) > 70_000
}

/// First in every subgroup is first over all shards, and least in every
/// subgroup is least in all.
#[test]
fn the_whole_plan_is_first_in_each_subgroup() {
    let mut random = Random(31_415_926_535);
    let (mut found, mut several, mut equal) = (0, 0, 0);
    for _ in 0..6000 {
        let (settings, held, old) = case(&mut random, 6);
        let layout = Layout {
            settings: &settings,
            held,
            old: &old,
        };
        if layout.subgroups().any(|one| many(&one)) {
            continue;
        }
        let each: usize = layout.subgroups().map(|one| one.all().len()).product();
        if each > 3000 {
            continue;
        }
        let all = layout.all();
        assert_eq!(all.len(), each);
        assert!(all.iter().all(|masks| layout.valid(masks)));
        let first = layout.first_best();
        assert_eq!(layout.each(exhaustive).ok(), first);
        assert_eq!(layout.each(greedy).ok(), first);
        let Some(first) = first else { continue };
        let least = all.iter().map(|masks| layout.moves(masks)).min();
        assert_eq!(Some(layout.moves(&first)), least);
        let each_best = layout.subgroups().map(|one| one.any_best().unwrap());
        let stays: u32 = (0..SUBGROUPS)
            .zip(each_best)
            .map(|(number, masks)| layout.subgroup(number).stays(&masks))
            .sum();
        assert_eq!(layout.stays(&first), stays);
        let each_least = layout
            .subgroups()
            .map(|one| one.least_moves().unwrap())
            .sum();
        assert_eq!(least, Some(each_least));
        found += 1;
        several += u32::from(
            settings
                .subgroup_of
                .iter()
                .any(|&g| g != settings.subgroup_of[0]),
        );
        let as_good = all
            .iter()
            .filter(|masks| Some(layout.moves(masks)) == least);
        equal += u32::from(as_good.count() > 1);
    }
    println!("{found} placed, {several} of several subgroups, {equal} with another of equal moves");
    assert!(found > 1500 && several > 800 && equal > 700);
}

/// The lowest subgroup without a placement is named.
#[test]
fn a_subgroup_without_a_placement() {
    let settings = settings::parse(&[2, 2, 1, 3, 0, 0, 1, 514, 258]).unwrap();
    let layout = Layout {
        settings: &settings,
        held: 0b11,
        old: &[1, 1, 1],
    };
    assert_eq!(layout.each(exhaustive), Err(1));
    assert_eq!(layout.each(greedy), Err(1));
    assert_eq!(layout.first_best(), None);
}

/// All placements of a layout are all masks that are valid.
#[test]
fn all_placements_are_all_valid_masks() {
    let mut random = Random(271_828);
    for _ in 0..300 {
        let (settings, held, old) = case(&mut random, 3);
        if settings.shards > 3 {
            continue;
        }
        let layout = Layout {
            settings: &settings,
            held,
            old: &old,
        };
        let mut every: Vec<Placement> = vec![Vec::new()];
        for _ in 0..settings.shards {
            let longer = |masks: &Placement| -> Vec<Placement> {
                let with = |own| [&masks[..], &[own]].concat();
                (0..1 << settings.nodes).map(with).collect()
            };
            every = every.iter().flat_map(longer).collect();
        }
        every.retain(|masks| layout.valid(masks));
        let mut all = layout.all();
        all.sort_unstable();
        assert_eq!(all, every);
    }
}
