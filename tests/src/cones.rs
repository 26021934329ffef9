//! Every cone of a node, by trying every set of nodes: document 01's cones and cuts, as written.
use crate::reader::Sheet;
use std::collections::BTreeSet;

/// The members of a set that have a path to v inside it.
fn joined(sheet: &Sheet, v: usize, set: u32) -> u32 {
    let mut reached = 1u32 << v;
    loop {
        let mut more = reached;
        for m in (0..=v).filter(|m| reached >> m & 1 == 1) {
            for &u in &sheet.nodes[m].operands {
                more |= 1 << u & set;
            }
        }
        if more == reached {
            return reached;
        }
        reached = more;
    }
}

/// The operands of members that are no members, ascending.
fn cut(sheet: &Sheet, set: u32) -> Vec<u32> {
    let mut leaves = BTreeSet::new();
    for m in (0..sheet.nodes.len()).filter(|m| set >> m & 1 == 1) {
        leaves.extend(sheet.nodes[m].operands.iter().filter(|&&u| set >> u & 1 == 0));
    }
    leaves.into_iter().collect()
}

/// The cuts of all cones of the logic node v. The sheet has at most 24 nodes.
pub fn cuts(sheet: &Sheet, v: usize) -> Vec<Vec<u32>> {
    let others: Vec<usize> = (0..v).filter(|&u| sheet.nodes[u].kind == 1).collect();
    let mut all = Vec::new();
    for choice in 0..1u32 << others.len() {
        let mut set = 1u32 << v;
        for (i, u) in others.iter().enumerate() {
            set |= (choice >> i & 1) << u;
        }
        if joined(sheet, v, set) == set {
            all.push(cut(sheet, set));
        }
    }
    all
}

/// Fewest leaves, then the smaller id at the first difference.
pub fn chosen(cuts: impl Iterator<Item = Vec<u32>>) -> Option<Vec<u32>> {
    cuts.min_by(|a, b| a.len().cmp(&b.len()).then(a.cmp(b)))
}
