//! Previews beside decide, for kinds of layouts of 32 nodes.

use crate::calls::{Call, Ready};
use crate::times::{library_time, Times};
use peer::kinds::{input, names, needed, NODES};

/// A call on input `index` of a kind; a preview is of that node.
pub fn ready(call: Call, kind: usize, index: u64) -> Ready {
    Ready::new(call, &input(kind, index), (index % u64::from(NODES)) as u32)
}

/// Prints a table of medians with a row for each kind, and the greatest ratio of a
/// preview to the decide without the node, and of the mask to decide.
pub fn print(count: u64) {
    println!(
        "| layout | decide | preview | to decide without the node | preview_all | to decide |"
    );
    println!("|---|---|---|---|---|---|");
    for (kind, name) in names().iter().enumerate() {
        let [mut decide, mut one, mut all] = [(); 3].map(|()| Times::default());
        let [mut ones, mut alls] = [(); 2].map(|()| Times::default());
        for index in 0..count {
            let input = input(kind, index);
            let ready = |call, node| Ready::new(call, &input, node);
            let own = library_time(&mut ready(Call::Decide, 0));
            decide.add(own);
            for node in [0, NODES / 3, NODES / 2, NODES - 1] {
                let taken = library_time(&mut ready(Call::Preview, node));
                let without = library_time(&mut ready(Call::Decide, node).without_node());
                one.add(taken);
                ones.add(taken / without);
            }
            let mut every = ready(Call::PreviewAll, 0);
            let taken = library_time(&mut every);
            all.add(taken);
            alls.add(taken / own);
            check(kind, &every);
        }
        println!(
            "| {name} | {:.1} | {:.1} | {:.2} | {:.1} | {:.2} |",
            decide.median(),
            one.median(),
            ones.worst(),
            all.median(),
            alls.worst()
        );
    }
}

/// The mask is as large as the kind says, or larger where a log is one node's
/// alone.
fn check(kind: usize, ready: &Ready) {
    let lost = ready.first_word().count_ones();
    let needed = needed(kind);
    assert!(lost >= needed, "{lost} of {needed} nodes are needed");
}
