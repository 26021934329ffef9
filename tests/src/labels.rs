//! Legal and least labellings by brute force: the conditions of document 01 as written, with document 02's ready label (U5) and windows (U8), over all
//! fitting cuts; whether there is a legal labelling under any horizon (U6); and the latency, which is that of outputs (U7).
use crate::cones;
use crate::reader::{Node, Sheet};

/// (s, l): compared by step, then by level.
pub type Label = (u32, u32);

/// A label plus a delay in levels, T being `top`.
pub fn plus(label: Label, delay: u32, top: u32) -> Label {
    if label.1 + delay <= top {
        (label.0, label.1 + delay)
    } else {
        (label.0 + 1, delay)
    }
}

/// The ready label of a node: of one with a latency, level q of the step so many steps on (document 02, U5).
pub fn ready(node: &Node, label: Label) -> Label {
    if node.latency == 0 {
        label
    } else {
        (label.0 + node.latency, node.clock_to_q)
    }
}

/// Whether node v may start in a step: the remainder of the step by P lies in its window, if it has one (document 02, U8).
pub fn open(sheet: &Sheet, v: usize, step: u32) -> bool {
    let remainder = step % sheet.period;
    sheet.windows.iter().filter(|window| window.id as usize == v).all(|window| window.from <= remainder && remainder < window.to)
}

/// The fitting cuts of each node; none for inputs and boxes.
pub fn fitting_cuts(sheet: &Sheet) -> Vec<Vec<Vec<u32>>> {
    (0..sheet.nodes.len())
        .map(|v| match sheet.nodes[v].kind {
            1 => {
                let mut fitting: Vec<Vec<u32>> = cones::cuts(sheet, v).into_iter().filter(|c| c.len() <= sheet.leaves as usize).collect();
                fitting.sort();
                fitting.dedup();
                fitting
            }
            _ => Vec::new(),
        })
        .collect()
}

/// The label from which `leaves` carry node v on.
pub fn arrival(sheet: &Sheet, labels: &[Label], v: usize, leaves: &[u32]) -> Label {
    let carried = leaves.iter().map(|&u| plus(ready(&sheet.nodes[u as usize], labels[u as usize]), sheet.nodes[v].delay, sheet.top));
    carried.max().unwrap_or((0, 0))
}

/// Whether a labelling is legal within a horizon.
pub fn legal(sheet: &Sheet, cuts: &[Vec<Vec<u32>>], labels: &[Label], horizon: u32) -> bool {
    let nodes = sheet.nodes.iter().enumerate().all(|(v, node)| {
        let (s, l) = labels[v];
        node.delay <= l
            && l <= sheet.top
            && s + node.latency <= horizon
            && open(sheet, v, s)
            && node.operands.iter().all(|&u| s >= ready(&sheet.nodes[u as usize], labels[u as usize]).0)
            && match node.kind {
                0 => true,
                1 => cuts[v].iter().any(|c| arrival(sheet, labels, v, c) <= labels[v]),
                _ => arrival(sheet, labels, v, &node.operands) <= labels[v],
            }
    });
    nodes && sheet.differences.iter().all(|d| labels[d.to as usize].0 as i64 >= labels[d.from as usize].0 as i64 + d.weight as i64)
}

/// The label that the bounds on v ask. Where its step is closed, every step after it is tried, and the first open one begins at level d.
fn asked(sheet: &Sheet, cuts: &[Vec<Vec<u32>>], labels: &[Label], v: usize) -> Label {
    let node = &sheet.nodes[v];
    let mut least = labels[v];
    for &u in &node.operands {
        least = least.max((ready(&sheet.nodes[u as usize], labels[u as usize]).0, 0));
    }
    for d in sheet.differences.iter().filter(|d| d.to as usize == v) {
        least = least.max(((labels[d.from as usize].0 as i64 + d.weight as i64).max(0) as u32, 0));
    }
    least = match node.kind {
        0 => least,
        1 => least.max(cuts[v].iter().map(|c| arrival(sheet, labels, v, c)).min().expect("a fitting cut")),
        _ => least.max(arrival(sheet, labels, v, &node.operands)),
    };
    while !open(sheet, v, least.0) {
        least = (least.0 + 1, 0);
    }
    (least.0, least.1.max(node.delay))
}

/// What a condition on a node looks at in another one.
#[derive(Clone, Copy)]
enum Look {
    /// The ready step of an operand.
    Operand,
    /// The arrival from an operand of a box.
    Box,
    /// The arrival from a leaf of the cut that carries a table.
    Leaf,
    /// The step, to which w is added.
    Difference(i32),
}

/// A raise of a node's label by a condition that looks at node `from`; `cause` is the raise that gave that node its label, if one did.
struct Raise {
    node: usize,
    from: u32,
    look: Look,
    cause: Option<usize>,
}

/// Least labels where each table is carried by the cut given for it, or need not be where that is empty; or a ring of conditions that rises, as the
/// tables that it passes through, each with the leaf by which it comes.
///
/// A condition asks for a bound that moves with the other node's label, a step for a step, and a difference looks at steps alone. So where the causes
/// of a raise by a difference lead back to an earlier raise of the same node by a difference, the conditions between them ask of its step that it be
/// later than itself. Without such a ring no line of causes has more differences than there are nodes, and the raises come to an end.
pub fn carried(sheet: &Sheet, chosen: &[&[u32]]) -> Result<Vec<Label>, Vec<(usize, u32)>> {
    let mut conditions: Vec<Vec<(u32, Look)>> = vec![Vec::new(); sheet.nodes.len()];
    for (v, node) in sheet.nodes.iter().enumerate() {
        conditions[v].extend(node.operands.iter().map(|&u| (u, if node.kind == 2 { Look::Box } else { Look::Operand })));
        conditions[v].extend(chosen[v].iter().map(|&u| (u, Look::Leaf)));
    }
    sheet.differences.iter().for_each(|d| conditions[d.to as usize].push((d.from, Look::Difference(d.weight))));
    let mut labels: Vec<Label> = sheet.nodes.iter().map(|node| (0, node.delay)).collect();
    let (mut raises, mut last): (Vec<Raise>, Vec<Option<usize>>) = (Vec::new(), vec![None; labels.len()]);
    loop {
        let before = raises.len();
        for (v, node) in sheet.nodes.iter().enumerate() {
            for &(from, look) in &conditions[v] {
                let other = labels[from as usize];
                let ready = ready(&sheet.nodes[from as usize], other);
                let bound = match look {
                    Look::Operand => (ready.0, node.delay),
                    Look::Box | Look::Leaf => plus(ready, node.delay, sheet.top),
                    Look::Difference(w) => ((other.0 as i64 + w as i64).max(0) as u32, node.delay),
                };
                if bound > labels[v] {
                    labels[v] = bound;
                    raises.push(Raise { node: v, from, look, cause: last[from as usize] });
                    last[v] = Some(raises.len() - 1);
                    if let Some(ring) = ring(&raises) {
                        return Err(ring);
                    }
                }
            }
        }
        if raises.len() == before {
            return Ok(labels);
        }
    }
}

/// Where the last raise is by a difference and its causes lead back to one of the same node by a difference: the tables between, with their leaves.
fn ring(raises: &[Raise]) -> Option<Vec<(usize, u32)>> {
    let (Raise { node, look: Look::Difference(_), cause, .. }, mut through) = (raises.last()?, Vec::new()) else {
        return None;
    };
    let mut at = *cause;
    while let Some(raise) = at.map(|i| &raises[i]) {
        match raise.look {
            Look::Difference(_) if raise.node == *node => return Some(through),
            Look::Leaf if !through.contains(&(raise.node, raise.from)) => through.push((raise.node, raise.from)),
            _ => {}
        }
        at = raise.cause;
    }
    None
}

/// A legal labelling under some horizon of a sheet without windows, if there is one under any.
///
/// In a legal labelling each table is carried by some cut. Choose one cut for each table: if no ring of conditions rises, there is a legal labelling.
/// If one does, then in every legal labelling some table of the ring is carried by a cut without the leaf by which the ring comes to it. So what is
/// left is to look for a legal labelling without the cuts of that table that have that leaf, for each table of the ring in turn.
pub fn legal_ever(sheet: &Sheet, cuts: &[Vec<Vec<u32>>]) -> Option<Vec<Label>> {
    let tables = || (0..cuts.len()).filter(|&v| sheet.nodes[v].kind == 1);
    if tables().any(|v| cuts[v].is_empty()) {
        return None;
    }
    // Any choice will do. Good ones are those that are best after some rounds.
    let mut labels = vec![(0, 0); cuts.len()];
    for _ in 0..if tables().next().is_some() { cuts.len() } else { 0 } {
        labels = (0..cuts.len()).map(|v| asked(sheet, cuts, &labels, v)).collect();
    }
    let mut chosen: Vec<&[u32]> = vec![&[]; cuts.len()];
    for v in tables() {
        chosen[v] = cuts[v].iter().min_by_key(|leaves| arrival(sheet, &labels, v, leaves)).expect("a cut");
    }
    match carried(sheet, &chosen) {
        Ok(labels) => Some(labels),
        Err(ring) => ring.iter().find_map(|&(v, leaf)| {
            let mut fewer = cuts.to_vec();
            fewer[v].retain(|leaves| !leaves.contains(&leaf));
            legal_ever(sheet, &fewer)
        }),
    }
}

/// Number and place of grounds 6, 12 and 7, in that order, or the least labels. With windows, whatever they close, 7 stands for 12 as well (U8).
pub fn least(sheet: &Sheet) -> Result<Vec<Label>, (u64, u64)> {
    least_over(sheet, &fitting_cuts(sheet))
}

/// The same, given the fitting cuts.
pub fn least_over(sheet: &Sheet, cuts: &[Vec<Vec<u32>>]) -> Result<Vec<Label>, (u64, u64)> {
    if sheet.windows.is_empty() {
        let labels = least_ever(sheet, cuts)?;
        return if ends(sheet, &labels) > sheet.horizon { Err((7, 0)) } else { Ok(labels) };
    }
    all_cut(sheet, cuts)?;
    raised(sheet, cuts, |labels| ends(sheet, labels) <= sheet.horizon).ok_or((7, 0))
}

/// Number and place of grounds 6 and 12, or the labels that are least under any horizon, of a sheet without windows.
pub fn least_ever(sheet: &Sheet, cuts: &[Vec<Vec<u32>>]) -> Result<Vec<Label>, (u64, u64)> {
    assert!(sheet.windows.is_empty(), "only H bounds labels with windows");
    all_cut(sheet, cuts)?;
    let some = legal_ever(sheet, cuts).ok_or((12, 0))?;
    let labels = raised(sheet, cuts, |labels| labels.iter().zip(&some).all(|(label, some)| label <= some));
    Ok(labels.unwrap_or_else(|| panic!("least labels past legal ones: {sheet:?}")))
}

/// Number and place of ground 6 where a table has no fitting cut.
fn all_cut(sheet: &Sheet, cuts: &[Vec<Vec<u32>>]) -> Result<(), (u64, u64)> {
    let without = (0..sheet.nodes.len()).find(|&v| sheet.nodes[v].kind == 1 && cuts[v].is_empty());
    without.map_or(Ok(()), |v| Err((6, v as u64)))
}

/// The earliest labels, raised to what is asked of them until all is settled; none where they leave `within` first. On the way they never come after
/// those of a legal labelling: where they leave a horizon, there is none within it.
fn raised(sheet: &Sheet, cuts: &[Vec<Vec<u32>>], within: impl Fn(&[Label]) -> bool) -> Option<Vec<Label>> {
    let mut labels = vec![(0, 0); sheet.nodes.len()];
    loop {
        let next: Vec<Label> = (0..labels.len()).map(|v| asked(sheet, cuts, &labels, v)).collect();
        if !within(&next) {
            return None;
        }
        if next == labels {
            return Some(labels);
        }
        labels = next;
    }
}

/// The greatest step among the ready labels of all nodes. Labels that are legal under some horizon are so within this one and within none below it.
pub fn ends(sheet: &Sheet, labels: &[Label]) -> u32 {
    sheet.nodes.iter().zip(labels).map(|(node, &label)| ready(node, label).0).max().unwrap_or(0)
}

/// The greatest step among the ready labels of nodes with the output mark, and 0 if none has it (document 02, U7).
pub fn latency(sheet: &Sheet, labels: &[Label]) -> u32 {
    let outputs = sheet.nodes.iter().zip(labels).filter(|(node, _)| node.output);
    outputs.map(|(node, &label)| ready(node, label).0).max().unwrap_or(0)
}
