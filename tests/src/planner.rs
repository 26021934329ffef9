//! A planner by brute force, for sheets of at most about 13 nodes: the rules of documents 01 and 02 as written, over all cones.
use crate::cones;
use crate::labels::{self, Label};
use crate::made::put;
use crate::reader::{self, Refusal, Sheet};

/// The chosen cut of each logic node under its label, nothing for the other nodes.
fn chosen_cuts(sheet: &Sheet, cuts: &[Vec<Vec<u32>>], labels: &[Label]) -> Vec<Vec<u32>> {
    let carrying = |v: usize| cuts[v].iter().filter(move |c| labels::arrival(sheet, labels, v, c) <= labels[v]).cloned();
    (0..sheet.nodes.len())
        .map(|v| match sheet.nodes[v].kind {
            1 => cones::chosen(carrying(v)).expect("a legal label is carried"),
            _ => Vec::new(),
        })
        .collect()
}

/// The used nodes: the least set closed under document 01's rule.
fn used(sheet: &Sheet, chosen: &[Vec<u32>]) -> Vec<bool> {
    let mut used = vec![false; sheet.nodes.len()];
    loop {
        let mut next = used.clone();
        for (v, node) in sheet.nodes.iter().enumerate() {
            next[v] |= node.output || node.kind == 2;
            if node.kind == 2 {
                node.operands.iter().for_each(|&u| next[u as usize] = true);
            }
            if node.kind == 1 && used[v] {
                chosen[v].iter().for_each(|&u| next[u as usize] = true);
            }
        }
        if next == used {
            return used;
        }
        used = next;
    }
}

/// The bytes of the plan with these labels, this latency and these chosen cuts.
pub fn plan(sheet: &Sheet, labels: &[Label], latency: u32, chosen: &[Vec<u32>]) -> Vec<u8> {
    let used = used(sheet, chosen);
    let mut bytes = Vec::new();
    put(&mut bytes, latency);
    for (v, node) in sheet.nodes.iter().enumerate() {
        let leaves: &[u32] = if used[v] && node.kind == 1 { &chosen[v] } else { &[] };
        for value in [labels[v].0, labels[v].1, u32::from(used[v]), leaves.len() as u32] {
            put(&mut bytes, value);
        }
        leaves.iter().for_each(|&u| put(&mut bytes, u));
    }
    bytes
}

/// The plan of these bytes, or the refusal by one of grounds 1 to 7 and 12.
pub fn planned(bytes: &[u8]) -> Result<Vec<u8>, Refusal> {
    let sheet = reader::read(bytes)?;
    let cuts = labels::fitting_cuts(&sheet);
    let labels = labels::least_over(&sheet, &cuts)?;
    let chosen = chosen_cuts(&sheet, &cuts, &labels);
    Ok(plan(&sheet, &labels, labels::latency(&sheet, &labels), &chosen))
}

/// What planning into a buffer of `room` bytes gives, of that plan or refusal: number, place and, where the number is 0, the plan.
pub fn outcome(planned: &Result<Vec<u8>, Refusal>, room: usize) -> (u64, u64, Option<&[u8]>) {
    match planned {
        Err((number, place)) => (*number, *place, None),
        Ok(plan) if plan.len() > room => (8, plan.len() as u64, None),
        Ok(plan) => (0, plan.len() as u64, Some(plan)),
    }
}
