//! The settings (restart(7), Settings).

use crate::mask;
use crate::number::{self, Number};

pub const MOST_NODES: u32 = 32;
pub const MOST_SETS: u32 = 16;
pub const MOST_SHARDS: u32 = 16;
/// Subgroups are numbered 0 to 3.
pub const SUBGROUPS: u32 = 4;
/// The greatest cap of a shard.
pub const MOST_CAP: u32 = 16;
/// The longest settings: four words, a word for each node and each shard.
pub const MOST_WORDS: usize = 4 + MOST_NODES as usize + MOST_SHARDS as usize;

/// Settings that are right (row 2).
#[derive(Clone, Debug, PartialEq, Eq)]
pub struct Settings {
    /// N.
    pub nodes: u32,
    /// F.
    pub sets: u32,
    pub least_group_size: u32,
    /// S.
    pub shards: u32,
    /// For each node its failure set.
    pub set_of: Vec<u32>,
    /// For each shard its subgroup.
    pub subgroup_of: Vec<u32>,
    /// For each shard m, the number of different sets its members are from, at
    /// least.
    pub need_of: Vec<u32>,
    /// For each shard its cap, the most members it has: m where the settings say
    /// 0.
    pub cap_of: Vec<u32>,
}

impl Settings {
    /// The failure set of a node below N.
    pub fn set(&self, node: u32) -> u32 {
        self.set_of[node as usize]
    }

    /// The subgroup of a shard below S.
    pub fn subgroup(&self, shard: u32) -> u32 {
        self.subgroup_of[shard as usize]
    }

    /// The need of a shard below S.
    pub fn need(&self, shard: u32) -> u32 {
        self.need_of[shard as usize]
    }

    /// The cap of a shard below S.
    pub fn cap(&self, shard: u32) -> u32 {
        self.cap_of[shard as usize]
    }

    /// The shards of a subgroup, ascending.
    pub fn shards_of(&self, subgroup: u32) -> Vec<u32> {
        (0..self.shards)
            .filter(|&shard| self.subgroup(shard) == subgroup)
            .collect()
    }

    /// Whether a mask has a bit from N up.
    pub fn too_wide(&self, members: u32) -> bool {
        !mask::within(members, mask::below(self.nodes))
    }
}

/// Parses settings, or refuses with number 2.
pub fn parse(words: &[u32]) -> Result<Settings, Number> {
    parts(words).ok_or(number::SETTINGS)
}

/// The settings that `words` say, if they say any.
fn parts(words: &[u32]) -> Option<Settings> {
    if words.len() < 4 {
        return None;
    }
    let (nodes, sets, least_group_size, shards) = (words[0], words[1], words[2], words[3]);
    let counts_ok = (1..=MOST_NODES).contains(&nodes)
        && (1..=MOST_SETS).contains(&sets)
        && (1..=nodes).contains(&least_group_size)
        && (1..=MOST_SHARDS).contains(&shards);
    if !counts_ok || words.len() != 4 + nodes as usize + shards as usize {
        return None;
    }
    let (set_words, shard_words) = words[4..].split_at(nodes as usize);
    let sets_ok = set_words.iter().all(|&set| set < sets);
    let words: Vec<ShardWord> = shard_words.iter().copied().map(ShardWord::of).collect();
    if !sets_ok || !words.iter().all(|word| word.good(sets)) {
        return None;
    }
    Some(Settings {
        nodes,
        sets,
        least_group_size,
        shards,
        set_of: set_words.to_vec(),
        subgroup_of: words.iter().map(|word| word.subgroup).collect(),
        need_of: words.iter().map(|word| word.need).collect(),
        cap_of: words.iter().map(|word| word.cap).collect(),
    })
}

/// What a shard's word says: cap × 65536 + subgroup × 256 + m, where cap 0 means
/// m.
struct ShardWord {
    subgroup: u32,
    need: u32,
    cap: u32,
}

impl ShardWord {
    fn of(word: u32) -> ShardWord {
        let need = word % 256;
        ShardWord {
            subgroup: word / 256 % 256,
            need,
            cap: match word / 65536 {
                0 => need,
                cap => cap,
            },
        }
    }

    /// The subgroup is 0 to 3, m from 1 to F, and the cap from m to 16.
    fn good(&self, sets: u32) -> bool {
        self.subgroup < SUBGROUPS
            && (1..=sets).contains(&self.need)
            && (self.need..=MOST_CAP).contains(&self.cap)
    }
}

#[cfg(test)]
mod tests {
    use super::*;

    /// The settings of case A.
    const RUN: [u32; 14] = [7, 3, 4, 3, 0, 0, 1, 1, 1, 2, 2, 2, 3, 1];

    fn refused(words: &[u32]) -> bool {
        parse(words) == Err(Number(2))
    }

    fn refused_with(index: usize, word: u32) -> bool {
        let mut words = RUN;
        words[index] = word;
        refused(&words)
    }

    #[test]
    fn the_printed_run() {
        let settings = parse(&RUN).unwrap();
        assert_eq!(settings.nodes, 7);
        assert_eq!(settings.set_of, vec![0, 0, 1, 1, 1, 2, 2]);
        assert_eq!(settings.subgroup_of, vec![0, 0, 0]);
        assert_eq!(settings.need_of, vec![2, 3, 1]);
        assert_eq!(settings.cap_of, vec![2, 3, 1]);
    }

    #[test]
    fn row_2_counts() {
        assert!(refused_with(0, 0));
        assert!(refused_with(0, 33));
        assert!(refused_with(0, u32::MAX));
        assert!(refused_with(1, 0));
        assert!(refused_with(1, 17));
        assert!(refused_with(2, 0));
        assert!(refused_with(2, 8));
        assert!(!refused_with(2, 7));
        assert!(refused_with(3, 0));
        assert!(refused_with(3, 17));
    }

    #[test]
    fn row_2_length() {
        assert!(refused(&[]));
        assert!(refused(&RUN[..3]));
        assert!(refused(&RUN[..13]));
        let mut longer = RUN.to_vec();
        longer.push(1);
        assert!(refused(&longer));
    }

    #[test]
    fn row_2_sets_and_shards() {
        assert!(refused_with(4, 3));
        assert!(refused_with(11, 0));
        assert!(refused_with(11, 4));
        assert!(!refused_with(11, 3 * 256 + 3));
        assert!(refused_with(11, 4 * 256 + 3));
        assert!(refused_with(11, 255 * 256 + 3));
    }

    /// Caps from m to 16, and 0 for m, whatever N and F are.
    #[test]
    fn row_2_caps() {
        let with = |cap: u32, need: u32| refused_with(11, cap * 65536 + 2 * 256 + need);
        for need in 1..=3 {
            for cap in 0..=20 {
                let good = cap == 0 || (need..=16).contains(&cap);
                assert_eq!(with(cap, need), !good, "cap {cap}, m {need}");
            }
            for cap in [32, 255, 256, 257, 32768, 65535] {
                assert!(with(cap, need), "cap {cap}, m {need}");
            }
        }
        // A good cap is no cure for the rest, and no rest for a cap.
        assert!(refused_with(11, 4 * 65536));
        assert!(refused_with(11, 4 * 65536 + 4));
        assert!(refused_with(11, 4 * 65536 + 4 * 256 + 2));
        assert!(refused_with(11, 17 * 65536 + 2));
        assert!(refused_with(11, u32::MAX));
        assert!(refused_with(13, 17 * 65536 + 1));
    }

    #[test]
    fn what_a_cap_says() {
        let mut words = RUN;
        words[11] = 4 * 65536 + 256 + 2;
        words[12] = 3 * 65536 + 3;
        words[13] = 16 * 65536 + 3 * 256 + 1;
        let settings = parse(&words).unwrap();
        assert_eq!(settings.cap_of, vec![4, 3, 16]);
        assert_eq!(settings.need_of, vec![2, 3, 1]);
        assert_eq!(settings.subgroup_of, vec![1, 0, 3]);
        words[12] = 3;
        assert_eq!(parse(&words), Ok(settings));
    }

    #[test]
    fn the_largest_settings() {
        let mut words = vec![32, 16, 32, 16];
        words.extend((0..32).map(|node| node % 16));
        words.extend((0..16).map(|shard| (shard % 4) * 256 + 16));
        assert_eq!(words.len(), MOST_WORDS);
        let settings = parse(&words).unwrap();
        assert!(!settings.too_wide(u32::MAX));
        assert_eq!(settings.shards_of(1), vec![1, 5, 9, 13]);
    }
}
