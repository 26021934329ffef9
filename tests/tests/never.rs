//! Sheets that are late within their H, and sheets with no legal labelling under any horizon (document 02, U6): the independent account of never
//! against plain enumeration on tiny sheets, and the planning call on sheets close to never, at horizons round their least one and far from it, and on
//! sheets whose labels are past every H.
#![cfg(planner)]
use maps_tests::buffer::after;
use maps_tests::compare::{compare, compare_all, planned, Met};
use maps_tests::labels::{ends, fitting_cuts, least, least_ever, legal, Label};
use maps_tests::library::Answer;
use maps_tests::limits::{fields, H, M, N, W};
use maps_tests::made::{boxed, differences, input, long, memories, numbers, orders, respelled, ring, small, spelled, stairs, table, Size};
use maps_tests::random::Random;
use maps_tests::reader::{Difference, Node, Sheet};

const SEED: u64 = 20260116;

/// The bytes of a sheet with another H.
fn within(sheet: &Sheet, horizon: u32) -> Vec<u8> {
    spelled(&numbers(&Sheet { horizon, ..sheet.clone() }))
}

/// Whether labels from `choice` for the nodes that have none yet make a legal labelling. The sheets have one node, two nodes and so on, and the
/// differences among them: what is not legal there is not legal in the last.
fn some_legal(sheets: &[Sheet], cuts: &[Vec<Vec<u32>>], choice: &[Label], labels: &mut Vec<Label>) -> bool {
    let Some(sheet) = sheets.get(labels.len()) else {
        return true;
    };
    choice.iter().any(|&label| {
        labels.push(label);
        let found = legal(sheet, cuts, labels, u32::MAX) && some_legal(sheets, cuts, choice, labels);
        labels.pop();
        found
    })
}

/// Whether a tiny sheet has a legal labelling under some horizon, by trying all labellings up to a step.
///
/// Let g be the greatest of all w and all lat + 1. If in a legal labelling two steps with nodes and none between are more than g apart, all nodes
/// above can come down together until they are g apart: a node above stays at least g steps after each node below, where no difference and no ready
/// label plus d asks for more, and nodes below ask nothing of those above. So some legal labelling begins at step 0 and ends by step (n - 1) g.
fn legal_somewhere(sheet: &Sheet, cuts: &[Vec<Vec<u32>>]) -> bool {
    let apart = sheet.differences.iter().map(|d| d.weight).chain(sheet.nodes.iter().map(|node| node.latency as i32 + 1)).max().expect("a node");
    let last = (sheet.nodes.len() as u32 - 1) * apart as u32;
    let choice: Vec<Label> = (0..=last).flat_map(|s| (0..=sheet.top).map(move |l| (s, l))).collect();
    let among = |n: usize| sheet.differences.iter().filter(|d| d.from.max(d.to) < n as u32).cloned().collect();
    let first = |n: usize| Sheet { nodes: sheet.nodes[..n].to_vec(), differences: among(n), ..sheet.clone() };
    let sheets: Vec<Sheet> = (1..=sheet.nodes.len()).map(first).collect();
    some_legal(&sheets, cuts, &choice, &mut Vec::new())
}

/// A sheet of two to four nodes with T = 1 or 2, lat of 0 or 1 and differences from -2 to 2.
fn tiny(random: &mut Random, round: u32) -> Sheet {
    let mut sheet = match round % 3 {
        0 => memories(random, 4, 2, 4),
        _ => small(random, &Size { nodes: 4, top: 2, horizon: 4, latency: 1, wide: round % 12 == 1 }),
    };
    sheet.nodes.iter_mut().for_each(|node| node.latency = node.latency.min(1));
    let n = sheet.nodes.len() as u32;
    let m = random.within(1, 4);
    let weight = |random: &mut Random| random.within(0, 4) as i32 - 2;
    sheet.differences = (0..m).map(|_| Difference { from: random.within(0, n - 1), to: random.within(0, n - 1), weight: weight(random) }).collect();
    sheet
}

#[test]
fn never_is_never_by_enumeration() {
    println!("seed {SEED}");
    let mut random = Random::new(SEED);
    let mut met = Met::default();
    // Sheets with no legal labelling that have one with every d and q as small as it can be: for levels alone.
    let mut by_levels = 0;
    for round in 0..20000 {
        let sheet = tiny(&mut random, round);
        let cuts = fitting_cuts(&sheet);
        let found = least_ever(&sheet, &cuts);
        let number = found.as_ref().map_or_else(|&(number, _)| number, |_| 0);
        assert_eq!(number == 0, legal_somewhere(&sheet, &cuts), "{sheet:?}: {found:?}");
        assert!(found.iter().all(|labels| legal(&sheet, &cuts, labels, u32::MAX)), "{sheet:?}: {found:?}");
        let mut flat = Sheet { top: 64, ..sheet.clone() };
        flat.nodes.iter_mut().for_each(|node| (node.delay, node.clock_to_q) = (fields(node.kind, 64).delay.0, 0));
        by_levels += u32::from(number == 12 && least(&Sheet { horizon: u32::MAX, ..flat }).is_ok());
        met[number as usize] += 1;
        let _ = compare(&spelled(&numbers(&sheet)), &mut met);
    }
    println!("sheets and calls by number: {met:?}, never for levels alone: {by_levels}");
    assert!(met[0] > 10000 && met[12] > 10000 && met[7] > 1000 && met[6] > 200 && by_levels > 150, "{met:?}, {by_levels}");
}

/// The least horizon within which a sheet has a legal labelling, if it has one under any.
fn least_horizon(sheet: &Sheet) -> Option<u32> {
    least_ever(sheet, &fitting_cuts(sheet)).ok().map(|labels| ends(sheet, &labels))
}

/// A sheet with a difference or two more, where it has least labels: each holds two nodes as many steps apart as they are there, or one more. H is
/// about the step by which these labels end.
fn tight(random: &mut Random, mut sheet: Sheet) -> Sheet {
    let n = sheet.nodes.len() as u32;
    if let Ok(labels) = least_ever(&sheet, &fitting_cuts(&sheet)) {
        for _ in 0..random.within(1, 2) {
            let (from, to) = (random.within(0, n - 1), random.within(0, n - 1));
            let weight = labels[to as usize].0 as i32 - labels[from as usize].0 as i32 + random.within(0, 3) as i32 / 2;
            sheet.differences.push(Difference { from, to, weight: weight.clamp(-(W as i32), W as i32) });
        }
        sheet.horizon = (ends(&sheet, &labels) + random.within(0, 4)).saturating_sub(2).min(H.1);
    }
    sheet
}

/// A small sheet with a ring of differences of any size through some of its nodes that rises by a step in all, falls by one, or comes out even.
fn wheel(random: &mut Random) -> Sheet {
    let mut sheet = small(random, &Size { nodes: 8, top: 2, horizon: 9, latency: 2, wide: false });
    let far = W as i32;
    let mut weights = vec![far; 2];
    while weights.iter().sum::<i32>().abs() >= far {
        weights = (0..random.within(1, 5)).map(|_| random.within(0, 2 * W) as i32 - far).collect();
    }
    weights.push(random.within(0, 2) as i32 - 1 - weights.iter().sum::<i32>());
    let ring: Vec<u32> = weights.iter().map(|_| random.within(0, sheet.nodes.len() as u32 - 1)).collect();
    let next = |i: usize| ring[(i + 1) % ring.len()];
    sheet.differences = weights.iter().enumerate().map(|(i, &weight)| Difference { from: ring[i], to: next(i), weight }).collect();
    sheet.horizon = random.within(0, H.1);
    sheet
}

/// A small sheet with long differences from one node to another up its ids, whose last is about the greatest H or far past it.
fn far(random: &mut Random) -> Sheet {
    let mut sheet = small(random, &Size { nodes: 8, top: 2, horizon: H.1, latency: 2, wide: false });
    sheet.differences.retain(|d| d.from < d.to);
    let (mut from, last) = (0, sheet.nodes.len() as u32 - 1);
    while from < last {
        let to = random.within(from + 1, last);
        sheet.differences.push(Difference { from, to, weight: random.within(W / 3, W) as i32 });
        from = to;
    }
    sheet
}

/// A sheet whose ring is gone round again, as `round_again` has it, with other K and T, one difference changed and one more.
fn shaken(random: &mut Random) -> Sheet {
    let [(_, rising), (_, falling), _] = orders(random.within(0, 3));
    let order = if random.once_in(2) { rising } else { falling };
    let shift = |random: &mut Random| random.within(0, 2) as i32 - 1;
    let mut sheet = round_again(&order, shift(random));
    let (n, m) = (sheet.nodes.len() as u32, sheet.differences.len() as u32);
    sheet.differences[random.within(0, m - 1) as usize].weight += shift(random);
    sheet.differences.push(Difference { from: random.within(0, n - 1), to: random.within(0, n - 1), weight: shift(random) - 1 });
    Sheet { leaves: random.within(2, 4), top: random.within(1, 2), horizon: random.within(0, 4), ..sheet }
}

/// A made-up sheet of one kind or another.
fn made_up(random: &mut Random, round: u32) -> Sheet {
    match round % 10 {
        8 => far(random),
        9 => shaken(random),
        0 => stairs(random),
        1 => ring(random, 10, true),
        2 => long(random),
        3 => wheel(random),
        4 => memories(random, 9, 4, 12),
        5 => small(random, &Size { nodes: 10, top: 64, horizon: 300, latency: 255, wide: false }),
        wide => small(random, &Size { nodes: 9, top: 2, horizon: 9, latency: 2, wide: wide == 7 }),
    }
}

#[test]
fn sheets_close_to_never() {
    let met = compare_all(SEED + 1, 24000, |random, round| {
        let sheet = made_up(random, round);
        spelled(&numbers(&tight(random, sheet)))
    });
    assert!([0, 6, 7, 8, 12].iter().all(|&number| met[number] > 3000), "{met:?}");
}

/// Horizons of every size.
const HORIZONS: [u32; 9] = [0, 1, 2, 9, 127, 4_095, 16_384, H.1 - 1, H.1];

/// Holds the planning call and brute force to a least horizon, or to never, at these horizons and at those next to the least one.
fn at_horizons(name: &str, sheet: &Sheet, least: Option<u32>, horizons: &[u32], met: &mut Met) {
    let near = least.map_or(Vec::new(), |least| vec![least.saturating_sub(1), least, least + 1]);
    for horizon in horizons.iter().copied().chain(near).filter(|&horizon| horizon <= H.1) {
        let found = compare(&within(sheet, horizon), met);
        let expected = match least {
            None => Err((12, 0)),
            Some(least) if least > horizon => Err((7, 0)),
            Some(_) => Ok(()),
        };
        assert_eq!(found.map(|_| ()), expected, "{name} within {horizon}: {sheet:?}");
    }
}

#[test]
fn horizons_round_the_least_one() {
    println!("seed {}", SEED + 2);
    let mut random = Random::new(SEED + 2);
    let mut met = Met::default();
    // Sheets by their least horizon: 0, one within H, one within the greatest H, one past it, never.
    let mut sheets = [0; 5];
    for round in 0..8000 {
        let sheet = made_up(&mut random, round);
        let sheet = if round % 2 == 0 { tight(&mut random, sheet) } else { sheet };
        if let Err((6, _)) = least(&sheet) {
            continue;
        }
        let least = least_horizon(&sheet);
        at_horizons("made up", &sheet, least, &[0, sheet.horizon, H.1], &mut met);
        sheets[match least {
            None => 4,
            Some(0) => 0,
            Some(least) if least <= sheet.horizon => 1,
            Some(least) if least <= H.1 => 2,
            Some(_) => 3,
        }] += 1;
    }
    println!("calls by number: {met:?}, sheets by least horizon: {sheets:?}");
    assert!(sheets.iter().all(|&count| count > 200), "{sheets:?}");
    assert!([0, 7, 8, 12].iter().all(|&number| met[number] > 3000), "{met:?}");
}

/// Holds the planning call to the least horizon of sheets that differ in their differences alone, at horizons of every size.
fn cases(name: &str, leaves: u32, top: u32, nodes: &[Node], rows: &[(&[(u32, u32, i32)], Option<u32>)]) {
    for (triples, least) in rows {
        let sheet = Sheet { leaves, top, horizon: 0, nodes: nodes.to_vec(), differences: differences(triples), ..Sheet::default() };
        at_horizons(&format!("{name} {triples:?}"), &sheet, *least, &HORIZONS, &mut Met::default());
    }
}

#[test]
fn never_by_levels_alone() {
    // A box at level 1 and a table with d = 1 on it: in the next step where T is 1, in the same one where it is 2.
    let pair = [boxed(1, 0, 0, &[]), table(true, &[0])];
    cases("T = 1", 2, 1, &pair, &[(&[], Some(1)), (&[(1, 0, 0)], None), (&[(1, 0, -1)], Some(1)), (&[(0, 1, 0), (1, 0, 0)], None)]);
    cases("T = 2", 2, 2, &pair, &[(&[(1, 0, 0)], Some(0)), (&[(1, 0, 1)], None), (&[(1, 0, 0), (0, 1, 1)], None)]);
    // A box in the table's place, and three in a row under T = 2: only two of them are in one step.
    cases("boxes", 2, 1, &[boxed(1, 0, 0, &[]), boxed(1, 0, 0, &[0])], &[(&[(1, 0, 0)], None), (&[(1, 0, -1)], Some(1))]);
    let three = [boxed(1, 0, 0, &[]), boxed(1, 0, 0, &[0]), boxed(1, 0, 0, &[1])];
    cases("three boxes", 2, 2, &three, &[(&[(2, 0, 0)], None), (&[(2, 0, -1)], Some(1)), (&[(1, 0, 0)], Some(1)), (&[(2, 1, 0)], Some(1))]);
    cases("three boxes", 2, 2, &three, &[(&[(1, 0, 0), (2, 1, 0)], None), (&[(1, 0, 0), (2, 1, -1)], Some(1))]);
    // A table that hides another one is beside it in one step, and one that cannot is not: with K = 2 node 4 has node 3 as a leaf.
    cases("hidden", 2, 1, &[input(), table(false, &[0]), table(true, &[1])], &[(&[(2, 0, 0)], Some(0)), (&[(2, 0, 1)], None)]);
    let wide = [input(), input(), input(), table(false, &[0, 1]), table(true, &[3, 2])];
    cases("K = 3", 3, 1, &wide, &[(&[(4, 0, 0)], Some(0)), (&[(4, 3, 0)], Some(0)), (&[(4, 2, 0)], Some(0))]);
    cases("K = 2", 2, 1, &wide, &[(&[(4, 0, 0)], None), (&[(4, 3, 0)], None), (&[(4, 3, -1)], Some(1)), (&[(4, 2, 0)], Some(1))]);
}

#[test]
fn never_by_rings() {
    let inputs = vec![input(); 4];
    let w = W as i32;
    // A node with itself.
    let own: [(&[_], _); 6] = [
        (&[(0, 0, 0)], Some(0)),
        (&[(2, 2, 1)], None),
        (&[(2, 2, -1)], Some(0)),
        (&[(3, 3, w)], None),
        (&[(3, 3, -w)], Some(0)),
        (&[(0, 0, 0), (1, 1, -w), (2, 2, 1)], None),
    ];
    cases("own", 2, 1, &inputs, &own);
    // Rings that rise by one step, or by many, and rings that come out even; their steps may lie past every H.
    let rings: [(&[_], _); 10] = [
        (&[(0, 1, 1), (1, 0, 0)], None),
        (&[(0, 1, 1), (1, 0, -1)], Some(1)),
        (&[(0, 1, 40_000), (1, 0, -39_999)], None),
        (&[(0, 1, 40_000), (1, 0, -40_000)], Some(40_000)),
        (&[(1, 0, w), (0, 1, 1 - w)], None),
        (&[(1, 0, w), (0, 1, -w)], Some(W)),
        (&[(0, 1, w), (1, 2, w), (2, 0, -w)], None),
        (&[(0, 1, w), (1, 2, w), (2, 3, -w), (3, 0, 1 - w)], None),
        (&[(0, 1, w), (1, 2, w), (2, 3, -w), (3, 0, -w)], Some(2 * W)),
        (&[(3, 1, 9_000), (1, 2, 700), (2, 0, -5_000), (0, 3, -4_699), (0, 1, w)], None),
    ];
    cases("rings", 2, 1, &inputs, &rings);
    // Through operands and latencies.
    let slow = [input(), boxed(0, 255, 0, &[0]), boxed(0, 255, 0, &[1])];
    cases("latencies", 2, 1, &slow, &[(&[], Some(510)), (&[(2, 0, -255)], Some(510)), (&[(2, 0, -254)], None), (&[(2, 1, -254)], None)]);
    let read = [input(), boxed(0, 3, 0, &[0]), table(true, &[1])];
    cases("a table on a box", 2, 1, &read, &[(&[(2, 0, -3)], Some(3)), (&[(2, 0, -2)], None), (&[(1, 0, 0)], Some(3)), (&[(1, 0, 1)], None)]);
    // A latency that is past H alone.
    cases("one box", 2, 1, &[boxed(0, 255, 0, &[])], &[(&[], Some(255)), (&[(0, 0, 0)], Some(255)), (&[(0, 0, 1)], None)]);
    cases("input and box", 2, 1, &[boxed(1, 255, 1, &[]), input()], &[(&[(1, 1, 1)], None), (&[(0, 1, w), (1, 0, -w)], Some(W))]);
}

#[test]
fn never_by_q() {
    // U5: the memory is ready at (1, q), and the table on it with d = 1 is there at level q + 1 or in the next step.
    let memory = |q| [input(), boxed(0, 1, q, &[0]), table(true, &[1])];
    for q in 0..4 {
        cases("in the same step", 2, 4, &memory(q), &[(&[(2, 0, -1)], Some(1)), (&[(2, 0, 0)], None), (&[(2, 1, 0)], None)]);
    }
    cases("in the next step", 2, 4, &memory(4), &[(&[(2, 0, -2)], Some(2)), (&[(2, 0, -1)], None), (&[(2, 1, -1)], None)]);
    // A box with d = 0 is there at level q itself.
    let beside = [input(), boxed(0, 1, 4, &[0]), boxed(0, 0, 0, &[1])];
    cases("a box", 2, 4, &beside, &[(&[(2, 0, -1)], Some(1)), (&[(2, 0, 0)], None)]);
}

#[test]
fn never_apart_from_the_rest() {
    let hall = [input(), input(), input(), table(false, &[0, 1]), table(false, &[3, 2]), table(true, &[4, 3])];
    // The hall sheet with two inputs that nobody reads, and with a box and a table after it.
    let more = [&hall[..], &[input(), input()]].concat();
    cases("inputs", 3, 2, &more, &[(&[(0, 5, 1), (6, 7, 1)], Some(1)), (&[(0, 5, 1), (6, 7, 1), (7, 6, 0)], None), (&[(7, 7, 1)], None)]);
    let more = [&hall[..], &[boxed(2, 0, 0, &[]), table(false, &[6])]].concat();
    cases("a table", 3, 2, &more, &[(&[(0, 5, 1)], Some(1)), (&[(0, 5, 1), (7, 6, 0)], None), (&[(7, 6, -1)], Some(1))]);
    // Before the rest, and with nothing used.
    cases("first", 2, 1, &[input(), input(), boxed(0, 9, 0, &[])], &[(&[(0, 1, 1), (1, 0, 0)], None), (&[(0, 1, 1), (1, 0, -1)], Some(9))]);
    cases("idle", 2, 1, &[input(), table(false, &[0]), table(false, &[1])], &[(&[(1, 0, 1)], None), (&[(2, 0, 0)], Some(0))]);
    // The cases of document 02 with the hall sheet.
    let cases_of_hall: [(&[_], _); 6] = [
        (&[(0, 5, 1)], Some(1)),
        (&[(0, 5, 1), (5, 0, -1)], Some(1)),
        (&[(0, 5, 1), (5, 0, 0)], None),
        (&[(0, 5, 1), (2, 2, 0)], Some(1)),
        (&[(0, 5, 1), (2, 2, 1)], None),
        (&[(0, 5, 2), (5, 0, -1)], None),
    ];
    cases("hall", 3, 2, &hall, &cases_of_hall);
}

/// K = 3, T = 1, S = node 4 in step 1 and a ring of differences that leads from the last node B by inputs, in an order, to P = node 5. B reads P
/// and S, and three leaves are too few to hide both, with their two inputs each. While P is before S, B hides S and is in step 1. That sends P there,
/// so B flows over to step 2, where P is hidden: the ring is gone round again, and all is settled. The first difference has this w, the others 0.
fn round_again(order: &[u32], weight: i32) -> Sheet {
    let mut nodes = vec![input(); order.len() + 6];
    (nodes[4], nodes[5]) = (table(false, &[0, 1]), table(false, &[2, 3]));
    nodes.push(table(true, &[4, 5]));
    let mut ring = vec![nodes.len() as u32 - 1];
    ring.extend(order.iter().map(|i| 6 + i).chain([5]));
    let mut all: Vec<(u32, u32, i32)> = ring.windows(2).map(|pair| (pair[0], pair[1], 0)).collect();
    all[0].2 = weight;
    all.push((0, 4, 1));
    Sheet { leaves: 3, top: 1, horizon: 0, nodes, differences: differences(&all), ..Sheet::default() }
}

#[test]
fn rings_that_settle_late() {
    for length in [0, 1, 2, 5, 12, 40, N.1 - 7] {
        for (name, order) in orders(length) {
            for (weight, least) in [(-1, Some(1)), (0, Some(2)), (1, None)] {
                at_horizons(name, &round_again(&order, weight), least, &[0, H.1], &mut Met::default());
            }
        }
    }
}

/// 256 nodes that differences join in an order, 65,535 steps from each to the next: inputs, and a box with lat = 255 as the last in that order. With
/// `back` each difference has one that leads back, as many steps, but for the one at an index, which leads back a step less.
fn farthest(order: &[u32], back: bool, short: Option<usize>) -> Sheet {
    let w = W as i32;
    let mut nodes = vec![input(); N.1 as usize];
    nodes[order[255] as usize] = boxed(0, 255, 0, &[]);
    let mut all = Vec::new();
    for (i, pair) in order.windows(2).enumerate() {
        all.push((pair[0], pair[1], w));
        if back {
            all.push((pair[1], pair[0], if short == Some(i) { 1 - w } else { -w }));
        }
    }
    Sheet { leaves: 2, top: 1, horizon: H.1, nodes, differences: differences(&all), ..Sheet::default() }
}

#[test]
fn labels_past_every_horizon() {
    let most = (N.1 - 1) * W + 255;
    assert_eq!(most, 16_711_680);
    let mut met = Met::default();
    let horizons = [0, 255, H.1];
    // Two to a few nodes, whose last is just within the greatest H, just past it and further.
    for (weights, least) in [(&[1, 65_534][..], H.1), (&[1, 65_535], H.1 + 1), (&[65_535, 65_535], 2 * W), (&[65_535; 9], 9 * W)] {
        let all: Vec<(u32, u32, i32)> = (0..).zip(weights).map(|(i, &w)| (i, i + 1, w)).collect();
        cases("path", 2, 1, &vec![input(); weights.len() + 1], &[(&all, Some(least))]);
    }
    for (name, order) in orders(N.1) {
        for back in [false, true] {
            at_horizons(name, &farthest(&order, back, None), Some(most), &horizons, &mut met);
        }
        for short in [0, 127, 254] {
            at_horizons(name, &farthest(&order, true, Some(short)), None, &horizons, &mut met);
        }
        // Closed by one difference, which leads back no further than 65,535 steps.
        for weight in [W as i32, 1, 0, -(W as i32)] {
            let mut closed = farthest(&order, false, None);
            closed.differences.push(Difference { from: order[255], to: order[0], weight });
            at_horizons(name, &closed, None, &horizons, &mut met);
        }
        // With the most differences, each of them given twice.
        let mut whole = farthest(&order, true, None);
        whole.differences.extend(whole.differences.clone());
        whole.differences.extend(differences(&[(order[0], order[0], 0), (order[0], order[0], -1), (0, 0, 0), (1, 1, 0)]));
        assert_eq!(whole.differences.len() as u32, M.1);
        at_horizons(name, &whole, Some(most), &horizons, &mut met);
        whole.differences[M.1 as usize - 1].weight = 1;
        at_horizons(name, &whole, None, &horizons, &mut met);
    }
    println!("calls by number: {met:?}");
    assert_eq!([0, 8].map(|number| met[number]), [0, 0]);
}

/// The number for a large sheet, in a large room, in a short one and in none; a refusal has the place 0 and writes nothing.
fn number_of(sheet: &Sheet, horizon: u32) -> u64 {
    let bytes = within(sheet, horizon);
    let number = planned(&bytes, 5000).0.number;
    for room in [5000, 100, 4, 0].into_iter().filter(|_| number != 0) {
        assert_eq!(planned(&bytes, room), (Answer { number, place: 0 }, after(&[], room)), "in {room} within {horizon}");
    }
    number
}

#[test]
fn tables_one_above_another() {
    // Each table reads the one below it and an input of its own: with K = 2 and T = 1 it is a step after that one, with K = 3 two of them share one.
    for (leaves, top, last) in [(2, 1, 127), (3, 1, 63), (2, 2, 63), (3, 4, 15), (2, 64, 1)] {
        let nodes: Vec<Node> = (0..256).map(|own| if own < 128 { input() } else { table(own == 255, &[own - 128, (own - 1).max(127)]) }).collect();
        let tower = |weight: i32| Sheet { leaves, top, nodes: nodes.clone(), differences: differences(&[(255, 0, weight)]), ..Sheet::default() };
        let name = format!("K = {leaves}, T = {top}");
        for weight in [-(W as i32), -(last as i32) - 1, -(last as i32)] {
            assert_eq!([0, last - 1, last, H.1].map(|horizon| number_of(&tower(weight), horizon)), [7, 7, 0, 0], "{name}, {weight}");
        }
        for weight in [1 - last as i32, 0, 1, W as i32] {
            assert_eq!(HORIZONS.map(|horizon| number_of(&tower(weight), horizon)), [12; 9], "{name}, {weight}");
        }
    }
}

#[test]
fn the_order_of_grounds() {
    // A ring that rises, over a table with two operands.
    let nodes = vec![input(), input(), table(true, &[0, 1])];
    let never = Sheet { leaves: 2, top: 1, horizon: 0, nodes, differences: differences(&[(2, 0, 1)]), ..Sheet::default() };
    let mut met = Met::default();
    let mut number = |bytes: &[u8]| compare(bytes, &mut met).expect_err("a refusal");
    for horizon in HORIZONS {
        let bytes = within(&never, horizon);
        assert_eq!(number(&bytes), (12, 0));
        // 1 to 5 come first, wherever they are.
        for length in 0..bytes.len() {
            assert_eq!(number(&bytes[..length]), (1, length as u64));
        }
        assert_eq!(number(&[&bytes[..], &[0]].concat()), (5, bytes.len() as u64));
        let all = numbers(&Sheet { horizon, ..never.clone() });
        for index in 0..all.len() {
            let place = spelled(&all[..index]).len() as u64;
            assert_eq!(number(&respelled(&all, index, &[0x80, 0])), (2, place));
            let ground = if [23, 24].contains(&index) { 4 } else { 3 };
            assert_eq!(number(&respelled(&all, index, &[0xff, 0xff, 0x7f])), (ground, place));
        }
        // So does 6, also in a node that has nothing to do with the ring; 8 comes after it, in every room.
        let mut wide = Sheet { horizon, ..never.clone() };
        wide.nodes.extend([input(), table(false, &[0, 1, 3])]);
        assert_eq!(number(&spelled(&numbers(&wide))), (6, 4));
        assert_eq!(number(&spelled(&numbers(&Sheet { leaves: 3, ..wide }))), (12, 0));
        for room in 0..40 {
            assert_eq!(planned(&bytes, room), (Answer { number: 12, place: 0 }, after(&[], room)));
        }
    }
}
