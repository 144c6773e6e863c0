//! Masks: a word with bit n for node n.

/// Whether `node` is in `mask`. No mask holds a node from 32 up.
pub fn has(mask: u32, node: u32) -> bool {
    node < 32 && (mask >> node) & 1 == 1
}

/// The mask of one node below 32.
pub fn only(node: u32) -> u32 {
    1 << node
}

/// Whether every node of `inner` is in `outer`.
pub fn within(inner: u32, outer: u32) -> bool {
    inner & !outer == 0
}

/// The nodes of `mask`, ascending.
pub fn nodes(mask: u32) -> Vec<u32> {
    (0..32).filter(|&node| has(mask, node)).collect()
}

/// The number of nodes in `mask`.
pub fn count(mask: u32) -> u32 {
    mask.count_ones()
}

/// The mask of all nodes below `limit`, which is at most 32.
pub fn below(limit: u32) -> u32 {
    ((1u64 << limit) - 1) as u32
}

#[cfg(test)]
mod tests {
    use super::*;

    #[test]
    fn masks_at_their_ends() {
        assert!(has(1 << 31, 31));
        assert!(!has(u32::MAX, 32));
        assert_eq!(below(0), 0);
        assert_eq!(below(32), u32::MAX);
        assert_eq!(nodes(0b1001), vec![0, 3]);
        assert!(within(0b0101, 0b1101));
        assert!(!within(0b0010, 0b1101));
    }
}
