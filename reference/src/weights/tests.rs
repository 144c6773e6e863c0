use super::*;
use crate::cases::Random;
use crate::order;
use std::collections::BTreeSet;

/// All valid placements with their weights: each node in each shard or nowhere.
fn all(weights: &Weights) -> Vec<(Placement, u32)> {
    let shards = weights.need_of.len();
    let mut found = vec![(vec![0; shards], 0)];
    for node in 0..weights.set_of.len() {
        let mut longer = Vec::new();
        for (masks, weight) in found {
            for shard in 0..shards {
                if let Some(own) = weights.pairs[shard][node] {
                    let mut with = masks.clone();
                    with[shard] |= mask::only(node as u32);
                    longer.push((with, weight + own));
                }
            }
            longer.push((masks, weight + weights.nowhere));
        }
        found = longer;
    }
    found.retain(|(masks, _)| {
        (0..shards).all(|shard| {
            let nodes = mask::nodes(masks[shard]).into_iter();
            let sets: BTreeSet<u32> = nodes
                .filter_map(|node| weights.set_of[node as usize])
                .collect();
            sets.len() >= weights.need_of[shard] as usize
                && mask::count(masks[shard]) <= weights.cap_of[shard]
        })
    });
    found
}

fn first_within(all: &[(Placement, u32)], most: u32) -> Option<Placement> {
    let within = all.iter().filter(|&&(_, weight)| weight <= most);
    order::first_of(within.map(|(masks, _)| masks.clone()).collect())
}

/// Any weights, needs and caps: needs of 0, caps below needs, nodes without a
/// set, nodes that weigh less in a shard than nowhere.
fn case(random: &mut Random) -> Weights {
    let (nodes, shards) = (1 + random.below(6), 1 + random.below(3));
    let sets = 1 + random.below(4);
    let greatest = [1, 2, 5, 40][random.below(4) as usize];
    let allowed = 1 + random.below(10);
    let mut pair = || (random.below(10) < allowed).then(|| random.below(greatest + 1));
    let pairs = (0..shards)
        .map(|_| (0..nodes).map(|_| pair()).collect())
        .collect();
    let need_of: Vec<u32> = (0..shards).map(|_| random.below(sets.min(3) + 1)).collect();
    let cap_of = need_of
        .iter()
        .map(|&need| match random.below(12) {
            0 => need.saturating_sub(1),
            1..=4 => need,
            _ => need + random.below(4),
        })
        .collect();
    Weights {
        set_of: (0..nodes)
            .map(|_| Some(random.below(sets)).filter(|_| random.below(12) > 0))
            .collect(),
        need_of,
        cap_of,
        pairs,
        nowhere: random.below(greatest + 1),
    }
}

#[test]
fn the_flow_against_all_placements() {
    let mut random = Random(0xFEED_0DD5);
    let (mut placed, mut none, mut later) = (0, 0, 0);
    for _ in 0..6000 {
        let weights = case(&mut random);
        let all = all(&weights);
        let least = all.iter().map(|&(_, weight)| weight).min();
        assert_eq!(weights.least(), least, "{weights:?}");
        assert_eq!(
            weights.first_within(u32::MAX),
            first_within(&all, u32::MAX),
            "{weights:?}"
        );
        let Some(least) = least else {
            assert_eq!(weights.any_least(), None);
            assert_eq!(weights.first_least(), None);
            none += 1;
            continue;
        };
        let any = weights.any_least().unwrap();
        assert!(all.contains(&(any, least)));
        assert_eq!(weights.first_least(), first_within(&all, least));
        if least > 0 {
            assert_eq!(weights.first_within(least - 1), None);
        }
        let more = least + 1 + random.below(6);
        let first = first_within(&all, more);
        assert_eq!(weights.first_within(more), first, "{weights:?} {more}");
        placed += 1;
        later += u32::from(first != first_within(&all, least));
    }
    println!("{placed} placed, {none} not, {later} with another first one of a greater weight");
    assert!(placed > 2000 && none > 1000 && later > 500);
}
