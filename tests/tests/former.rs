//! Sheets of former forms, which end after their differences: document 01's, whose nodes have no q, and the one after it, whose nodes have one. Each
//! is read here in its form and planned by brute force without windows and with the latency of outputs (document 02, U7), against the planning call
//! on the same sheet rewritten: q = 0 in every node that has none (U5), and at the end P = 1 and no windows (U8).
#![cfg(planner)]
use maps_tests::buffer::{after, lent};
use maps_tests::compare::Met;
use maps_tests::cones::{chosen, cuts};
use maps_tests::labels::{legal_ever, plus, Label};
use maps_tests::library::{plan, Answer};
use maps_tests::limits::{clock_to_q, fields, Range, CODE, H, K, KIND, M, MARK, N, T};
use maps_tests::made::{code, input, long, memories, ring, small, spelled, stairs, table, weight, Size};
use maps_tests::plan::Plan;
use maps_tests::planner::{self, outcome};
use maps_tests::random::Random;
use maps_tests::reader::{self, Difference, Node, Refusal, Sheet};

const SEED: u64 = 20260111;

/// A former form of the sheet.
#[derive(Clone, Copy, PartialEq)]
enum Form {
    /// Document 01's: nodes have no q.
    WithoutQ,
    /// Nodes have a q after their lat.
    WithQ,
}

/// The numbers of a sheet in a former form.
fn former(form: Form, sheet: &Sheet) -> Vec<u32> {
    let mut all = vec![sheet.leaves, sheet.top, sheet.horizon, sheet.nodes.len() as u32, sheet.differences.len() as u32];
    for node in &sheet.nodes {
        all.extend([node.kind, u32::from(node.output), node.delay, node.latency]);
        all.extend((form == Form::WithQ).then_some(node.clock_to_q));
        all.push(node.operands.len() as u32);
        all.extend(&node.operands);
    }
    all.extend(sheet.differences.iter().flat_map(|d| [d.from, d.to, code(d.weight)]));
    all
}

/// The numbers that bytes spell.
fn numbers_of(bytes: &[u8]) -> Vec<u32> {
    let (mut all, mut value, mut unit) = (Vec::new(), 0, 1);
    for &byte in bytes {
        value += u32::from(byte % 128) * unit;
        unit *= 128;
        if byte < 128 {
            all.push(value);
            (value, unit) = (0, 1);
        }
    }
    all
}

/// Reads a sheet of a former form that has each number in its range, and gives it with its numbers rewritten: 0 after each lat where there is no q,
/// and 1 and 0 at the end.
fn read(form: Form, bytes: &[u8]) -> (Sheet, Vec<u32>) {
    let (mut rest, mut rewritten) = (numbers_of(bytes).into_iter(), Vec::new());
    let mut next = |rewritten: &mut Vec<u32>, (low, high): Range| {
        let value = rest.next().expect("a number");
        assert!((low..=high).contains(&value), "{value} in {bytes:?}");
        rewritten.push(value);
        value
    };
    let [leaves, top, horizon, n, m] = [K, T, H, N, M].map(|range| next(&mut rewritten, range));
    let mut nodes = Vec::new();
    for own in 0..n {
        let (kind, output) = (next(&mut rewritten, KIND), next(&mut rewritten, MARK) == 1);
        let fields = fields(kind, top);
        let (delay, latency) = (next(&mut rewritten, fields.delay), next(&mut rewritten, fields.latency));
        let clock_to_q = match form {
            Form::WithQ => next(&mut rewritten, clock_to_q(kind, latency, top)),
            Form::WithoutQ => {
                rewritten.push(0);
                0
            }
        };
        let count = next(&mut rewritten, fields.operands);
        let operands = (0..count).map(|_| next(&mut rewritten, (0, own - 1))).collect();
        nodes.push(Node { kind, output, delay, latency, clock_to_q, operands });
    }
    let mut differences = Vec::new();
    for _ in 0..m {
        let [from, to, code] = [(0, n - 1), (0, n - 1), CODE].map(|range| next(&mut rewritten, range));
        differences.push(Difference { from, to, weight: weight(code) });
    }
    assert_eq!(rest.next(), None, "numbers after the last of {bytes:?}");
    rewritten.extend([1, 0]);
    (Sheet { leaves, top, horizon, nodes, differences, ..Sheet::default() }, rewritten)
}

/// "The ready label of u is its own label if lat is 0, otherwise (s + lat, 0)." With a q "the ready label of such a box becomes (s + lat, q)"; a node
/// that is read without one has 0.
fn ready(node: &Node, (s, l): Label) -> Label {
    match node.latency {
        0 => (s, l),
        latency => (s + latency, node.clock_to_q),
    }
}

/// The least label at which these leaves carry v.
fn arrival(sheet: &Sheet, labels: &[Label], v: usize, leaves: &[u32]) -> Label {
    let at = |u: u32| ready(&sheet.nodes[u as usize], labels[u as usize]);
    leaves.iter().map(|&u| plus(at(u), sheet.nodes[v].delay, sheet.top)).max().unwrap_or((0, 0))
}

/// The label that the conditions on v ask where the other nodes have these.
fn asked(sheet: &Sheet, fitting: &[Vec<u32>], labels: &[Label], v: usize) -> Label {
    let node = &sheet.nodes[v];
    let operands = node.operands.iter().map(|&u| i64::from(ready(&sheet.nodes[u as usize], labels[u as usize]).0));
    let differences = sheet.differences.iter().filter(|d| d.to as usize == v).map(|d| i64::from(labels[d.from as usize].0) + i64::from(d.weight));
    let step = operands.chain(differences).max().unwrap_or(0).max(0) as u32;
    let carried = match node.kind {
        0 => (0, 0),
        1 => fitting.iter().map(|leaves| arrival(sheet, labels, v, leaves)).min().expect("a fitting cut"),
        _ => arrival(sheet, labels, v, &node.operands),
    };
    let (s, l) = labels[v].max((step, 0)).max(carried);
    (s, l.max(node.delay))
}

/// The plan of a sheet of a former form, or the refusal by 6, 12 or 7.
fn planned(sheet: &Sheet) -> Result<Vec<u8>, Refusal> {
    let logic = |v: usize| sheet.nodes[v].kind == 1;
    let ids = 0..sheet.nodes.len();
    let fitting_of = |v: usize| cuts(sheet, v).into_iter().filter(|cut| cut.len() <= sheet.leaves as usize).collect();
    let fitting: Vec<Vec<Vec<u32>>> = ids.clone().map(|v| if logic(v) { fitting_of(v) } else { Vec::new() }).collect();
    if let Some(v) = ids.clone().find(|&v| logic(v) && fitting[v].is_empty()) {
        return Err((6, v as u64));
    }
    if legal_ever(sheet, &fitting).is_none() {
        return Err((12, 0));
    }
    let (mut labels, mut before) = (vec![(0, 0); ids.len()], Vec::new());
    while labels != before {
        before = labels;
        labels = ids.clone().map(|v| asked(sheet, &fitting[v], &before, v)).collect();
        if ids.clone().any(|v| labels[v].0 + sheet.nodes[v].latency > sheet.horizon) {
            return Err((7, 0));
        }
    }
    // Nothing for nodes that have no cut.
    let chosen_of = |v: usize| chosen(fitting[v].iter().filter(|cut| arrival(sheet, &labels, v, cut) <= labels[v]).cloned()).unwrap_or_default();
    let chosen: Vec<Vec<u32>> = ids.clone().map(chosen_of).collect();
    // "Latency becomes the greatest ready step among nodes with the output mark, and 0 if none has it."
    let latency = ids.filter(|&v| sheet.nodes[v].output).map(|v| ready(&sheet.nodes[v], labels[v]).0).max().unwrap_or(0);
    Ok(planner::plan(sheet, &labels, latency, &chosen))
}

/// Holds the planning call on the rewritten sheet to the plan in a former form, in several rooms; gives what came of it.
fn keeps(form: Form, old: &[u8], met: &mut Met) -> Result<Vec<u8>, Refusal> {
    let (sheet, numbers) = read(form, old);
    let bytes = spelled(&numbers);
    match form {
        Form::WithQ => assert_eq!(bytes, [old, &[1, 0]].concat()),
        Form::WithoutQ => assert_eq!(bytes.len(), old.len() + sheet.nodes.len() + 2),
    }
    assert_eq!(reader::read(&bytes), Ok(sheet.clone()), "{old:?}");
    let former = planned(&sheet);
    let length = former.as_ref().map_or(0, Vec::len);
    for room in [5000, length + 1, length, length.saturating_sub(1), 0] {
        let (number, place, plan_bytes) = outcome(&former, room);
        let (answer, buffer) = lent(room, |buffer| plan(&bytes, buffer));
        assert_eq!(answer, Answer { number, place }, "{old:?} in {room}");
        assert!(buffer == after(plan_bytes.unwrap_or_default(), room), "buffer of {old:?} in {room}: {buffer:?}");
        met[number as usize] += 1;
    }
    former
}

/// Made-up sheets in a former form keep their plans.
fn made_up_sheets_keep_their_plans(form: Form, seed: u64) {
    println!("seed {seed}");
    let mut random = Random::new(seed);
    let mut met = Met::default();
    // Plans with a node that reads a box with a latency, where q would enter; and plans with a node in a step after their latency.
    let (mut read_late, mut below) = (0, 0);
    for round in 0..24000 {
        let sheet = match round % 8 {
            0 => stairs(&mut random),
            1 => ring(&mut random, 10, true),
            2 => long(&mut random),
            3 => small(&mut random, &Size { nodes: 10, top: 64, horizon: H.1, latency: 255, wide: false }),
            4 => small(&mut random, &Size { nodes: 9, top: 3, horizon: 9, latency: 3, wide: true }),
            5 => small(&mut random, &Size { nodes: 11, top: 2, horizon: 20, latency: 2, wide: false }),
            _ => memories(&mut random, 11, 6, 24),
        };
        let found = keeps(form, &spelled(&former(form, &sheet)), &mut met);
        let late = |u: &u32| sheet.nodes[*u as usize].latency > 0;
        read_late += u32::from(found.is_ok() && sheet.nodes.iter().any(|node| node.operands.iter().any(late)));
        let plan = found.map(|bytes| Plan::decoded(sheet.nodes.len(), &bytes));
        below += u32::from(plan.is_ok_and(|plan| plan.labels.iter().any(|label| label.0 > plan.latency)));
    }
    println!("calls by number: {met:?}, plans with a reader of a box with a latency: {read_late}, with a node after the latency: {below}");
    assert!([0, 6, 7, 8, 12].iter().all(|&number| met[number] > 2000) && read_late > 2000 && below > 1000, "{met:?}, {read_late}, {below}");
}

#[test]
fn made_up_sheets_without_q() {
    made_up_sheets_keep_their_plans(Form::WithoutQ, SEED);
}

#[test]
fn made_up_sheets_with_q() {
    made_up_sheets_keep_their_plans(Form::WithQ, SEED + 1);
}

#[test]
fn the_sheets_of_document_01_keep_their_plans() {
    let kept = |old: &[u8]| keeps(Form::WithoutQ, old, &mut Met::default());
    let bytes = |text: &str| -> Vec<u8> { text.split_whitespace().map(|byte| u8::from_str_radix(byte, 16).expect("a byte")).collect() };
    // The hall sheet and its plan, as they stand there.
    let zeros = "00 00 00 00 00";
    let hall = format!("03 02 04 06 01 {zeros} {zeros} {zeros} 01 00 01 00 02 00 01 01 00 01 00 02 03 02 01 01 01 00 02 04 03 00 05 02");
    let plan = "01 00 00 01 00 00 00 01 00 00 00 01 00 00 01 01 02 00 01 00 01 00 00 01 01 01 02 02 03";
    let (hall, plan) = (bytes(&hall), bytes(plan));
    assert_eq!((hall.len(), plan.len()), (44, 29));
    assert_eq!(kept(&hall), Ok(plan.clone()));
    let with = |index: usize, value: u8| {
        let mut hall = hall.clone();
        hall[index] = value;
        hall
    };
    assert_eq!(kept(&with(2, 1)), Ok(plan.clone()));
    assert_eq!(kept(&with(2, 0)), Err((7, 0)));
    for (difference, expected) in [([5, 0, 1], Ok(plan.clone())), ([5, 0, 0], Err((12, 0))), ([2, 2, 0], Ok(plan)), ([2, 2, 2], Err((12, 0)))] {
        assert_eq!(kept(&[&with(4, 2)[..], &difference].concat()), expected);
    }
    let bare = with(4, 0)[..41].to_vec();
    for (leaves, top, rows) in [(3, 2, "01 00 00 00 01 00 00 00 01 01 03 00 01 02"), (2, 2, "01 01 02 00 01 00 02 00 00 00 02 01 02 02 03")] {
        let sheet = [&[leaves, top], &bare[2..]].concat();
        assert_eq!(kept(&sheet), Ok([vec![0], [0, 0, 1, 0].repeat(3), vec![0], bytes(rows)].concat()));
    }
    let late = bytes("01 00 00 01 00 00 00 01 00 00 00 01 00 00 01 01 02 00 01 01 01 00 00 01 01 01 02 02 03");
    assert_eq!(kept(&[&[2, 1], &bare[2..]].concat()), Ok(late));
    // Three operands and one leaf; no fitting cut; the box with d = 2 and lat = 3 within H = 3 and H = 2, and with lat = 0 below a table.
    let sheet = |leaves, top, horizon, nodes: Vec<Node>| spelled(&former(Form::WithoutQ, &Sheet { leaves, top, horizon, nodes, ..Sheet::default() }));
    let one = || table(false, &[0]);
    let reconvergent = kept(&sheet(2, 1, 0, vec![input(), one(), one(), one(), table(true, &[1, 2, 3])])).expect("a plan");
    assert!(reconvergent.ends_with(&[0, 1, 1, 1, 0]), "{reconvergent:?}");
    assert_eq!(kept(&sheet(2, 1, 0, vec![input(), input(), input(), table(true, &[0, 1, 2])])), Err((6, 3)));
    let slow = |latency| Node { kind: 2, output: true, delay: 2, latency, operands: vec![0], ..input() };
    assert_eq!(kept(&sheet(2, 2, 3, vec![input(), slow(3)])), Ok(vec![3, 0, 0, 1, 0, 0, 2, 1, 0]));
    assert_eq!(kept(&sheet(2, 2, 2, vec![input(), slow(3)])), Err((7, 0)));
    assert_eq!(kept(&sheet(2, 2, 1, vec![input(), slow(0), table(true, &[1])])), Ok(vec![1, 0, 0, 1, 0, 0, 2, 1, 0, 1, 1, 1, 1, 1]));
}

#[test]
fn memories_keep_their_plans() {
    // The memory with lat = 2 and q is ready at (2, q): a table with d = 1 on it is at level q + 1, or in the next step.
    for (q, step, level) in [(0, 2, 1), (3, 2, 4), (4, 3, 1)] {
        let sheet = [2, 4, 9, 3, 0, 0, 0, 0, 0, 0, 0, 2, 0, 0, 2, q, 1, 0, 1, 1, 1, 0, 0, 1, 1];
        assert_eq!(keeps(Form::WithQ, &sheet, &mut Met::default()), Ok(vec![step, 0, 0, 1, 0, 0, 0, 1, 0, step, level, 1, 1, 1]));
    }
    // The stored sheets end with what was added to their form.
    for (name, number) in [("zigzag", 12), ("costly-cuts", 12), ("rises", 0)] {
        let path = format!("{}/sheets/{name}.sheet", env!("CARGO_MANIFEST_DIR"));
        let bytes = std::fs::read(path).expect("the sheet");
        let (old, added) = bytes.split_at(bytes.len() - 2);
        assert_eq!((spelled(&read(Form::WithQ, old).1), added), (bytes.clone(), &[1, 0][..]), "{name}");
        assert_eq!(plan(&bytes, &mut vec![0; 5000]).number, number, "{name}");
    }
}
