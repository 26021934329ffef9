//! The latency is that of outputs (document 02, U7): the greatest ready step among nodes with the output mark, and 0 if none has it. The horizon binds
//! every node. Each kind of output, and what is none, case by case; and made-up sheets whose marks are taken away, given and changed.
#![cfg(planner)]
use maps_tests::compare::{found, listing, planned, Met};
use maps_tests::library::Answer;
use maps_tests::limits::{width, H};
use maps_tests::made::{self, boxed, differences, input, long, memories, numbers, ring, small, spelled, stairs, table, Size};
use maps_tests::plan::Plan;
use maps_tests::random::Random;
use maps_tests::reader::{Node, Sheet};

const SEED: u64 = 20260117;

/// A node with the output mark, or without it.
fn mark(output: bool, node: Node) -> Node {
    Node { output, ..node }
}

/// A sheet with K = 2 and T = 4.
fn sheet(horizon: u32, nodes: &[Node], triples: &[(u32, u32, i32)]) -> Sheet {
    Sheet { leaves: 2, top: 4, horizon, nodes: nodes.to_vec(), differences: differences(triples), ..Sheet::default() }
}

/// Its listing, or the line of its refusal.
fn listed(horizon: u32, nodes: &[Node], triples: &[(u32, u32, i32)]) -> String {
    listing(&spelled(&numbers(&sheet(horizon, nodes, triples))))
}

/// Holds a sheet to a listing within the horizon `end` and some above it, and to refusal 7 within some below it.
fn ends_at(end: u32, nodes: &[Node], triples: &[(u32, u32, i32)], expected: &str) {
    for horizon in [end, end + 1, 127, 128, 4_095, 16_384, H.1].into_iter().filter(|horizon| (end..=H.1).contains(horizon)) {
        assert_eq!(listed(horizon, nodes, triples), expected, "within {horizon}");
    }
    for horizon in [0, 1, 2, end / 2, end.saturating_sub(1)].into_iter().filter(|&horizon| horizon < end) {
        assert_eq!(listed(horizon, nodes, triples), "refused 7 0\n", "within {horizon}: {expected}");
    }
}

#[test]
fn latency_ends_at_the_last_output() {
    // The output is in step 2. Node 2 ends after it: a box on it with a latency, and in a later step a box, a table and an input.
    for latency in [1, 2, 5, 125, 126, 255] {
        let rows = |first| format!("latency {first}\n0 0 0 used\n1 2 1 used 0\n2 2 1 used\n");
        for (output, first) in [(false, 2), (true, 2 + latency)] {
            let nodes = [input(), table(true, &[0]), mark(output, boxed(0, latency, 0, &[1]))];
            ends_at(2 + latency, &nodes, &[(0, 1, 2)], &rows(first));
        }
    }
    for later in [3, 9, 127, 128, 16_383, 16_384, H.1] {
        let rows = [(boxed(0, 0, 0, &[]), "0 used", "0 used"), (table(false, &[0]), "1 idle", "1 used 0"), (input(), "0 idle", "0 used")];
        for (node, without, with) in rows {
            for (output, first, row) in [(false, 2, without), (true, later, with)] {
                let expected = format!("latency {first}\n0 0 0 used\n1 2 1 used 0\n2 {later} {row}\n");
                ends_at(later, &[input(), table(true, &[0]), mark(output, node.clone())], &[(0, 1, 2), (0, 2, later as i32)], &expected);
            }
        }
    }
}

#[test]
fn no_outputs() {
    // Nothing is used but the box and the input that it reads; with marks, everything.
    for step in [1, 2, 127, 128, 16_383, 16_384, H.1 - 1, H.1] {
        let nodes = |output: bool| [input(), input(), table(false, &[1]), boxed(0, 0, 0, &[1])].map(|node| mark(output, node));
        let triples = [(0, 1, step as i32)];
        let rows = format!("1 {step} 0 used\n2 {step} 1");
        ends_at(step, &nodes(false), &triples, &format!("latency 0\n0 0 0 idle\n{rows} idle\n3 {step} 0 used\n"));
        ends_at(step, &nodes(true), &triples, &format!("latency {step}\n0 0 0 used\n{rows} used 1\n3 {step} 0 used\n"));
        // The latency is a number of one byte, whatever the steps have.
        let plan = spelled(&[0, 0, 0, 0, 0, step, 0, 1, 0, step, 1, 0, 0, step, 0, 1, 0]);
        assert_eq!(plan.len(), 14 + 3 * width(step));
        let found = planned(&spelled(&numbers(&sheet(H.1, &nodes(false), &triples))), plan.len());
        assert_eq!(found, (Answer { number: 0, place: plan.len() as u64 }, plan), "step {step}");
    }
    // A latency and a q alone.
    for (latency, q) in [(1, 0), (1, 4), (127, 2), (255, 4)] {
        ends_at(latency, &[boxed(1, latency, q, &[])], &[], "latency 0\n0 0 1 used\n");
    }
    ends_at(0, &[input()], &[], "latency 0\n0 0 0 idle\n");
}

#[test]
fn inputs_as_outputs() {
    for w in [1, 2, 127, 128, 16_383, 16_384, H.1] {
        for (first, second, latency) in [(false, false, 0), (true, false, 0), (false, true, w), (true, true, w)] {
            let state = |output| if output { "used" } else { "idle" };
            let expected = format!("latency {latency}\n0 0 0 {}\n1 {w} 0 {}\n", state(first), state(second));
            ends_at(w, &[mark(first, input()), mark(second, input())], &[(0, 1, w as i32)], &expected);
            // The other way round, so that the late one comes first.
            let expected = format!("latency {latency}\n0 {w} 0 {}\n1 0 0 {}\n", state(second), state(first));
            ends_at(w, &[mark(second, input()), mark(first, input())], &[(1, 0, w as i32)], &expected);
        }
    }
}

#[test]
fn boxes_as_outputs() {
    // s + lat, whatever d and q are; without lat there is no q.
    let lats_and_qs = [1, 2, 127, 128, 255].into_iter().flat_map(|latency| (0..=4).map(move |q| (latency, q)));
    for (latency, q) in lats_and_qs.chain([(0, 0)]) {
        for (step, delay) in [0, 1, 3].into_iter().flat_map(|step| [0, 1, 4].map(|delay| (step, delay))) {
            for (output, first) in [(false, 0), (true, step + latency)] {
                let nodes = [input(), mark(output, boxed(delay, latency, q, &[0]))];
                let expected = format!("latency {first}\n0 0 0 used\n1 {step} {delay} used\n");
                ends_at(step + latency, &nodes, &[(0, 1, step as i32)], &expected);
            }
        }
    }
}

/// Every order of these numbers.
fn orders(numbers: &[u32]) -> Vec<Vec<u32>> {
    if numbers.is_empty() {
        return vec![Vec::new()];
    }
    let without = |i: usize| [&numbers[..i], &numbers[i + 1..]].concat();
    (0..numbers.len()).flat_map(|i| orders(&without(i)).into_iter().map(move |rest| [vec![numbers[i]], rest].concat())).collect()
}

#[test]
fn the_greatest_of_several_outputs() {
    // Four nodes of every kind after an input, which are ready in these steps, in every order and with every choice of marks.
    let mut met = 0;
    for (turn, steps) in (0..).zip(orders(&[2, 3, 5, 7])) {
        let mut kinds = [input(), table(false, &[0]), boxed(1, 0, 0, &[0]), boxed(0, 2, 4, &[0])];
        kinds.rotate_left(turn % 4);
        for marks in 0..16 {
            let nodes: Vec<Node> = [input()].into_iter().chain((0..).zip(&kinds).map(|(i, node)| mark(marks >> i & 1 == 1, node.clone()))).collect();
            let triples: Vec<(u32, u32, i32)> = (1..).zip(&steps).map(|(v, &step)| (0, v, (step - nodes[v as usize].latency) as i32)).collect();
            let last = (0..4).filter(|i| marks >> i & 1 == 1).map(|i| steps[i]).max().unwrap_or(0);
            let found = listed(7, &nodes, &triples);
            assert!(found.starts_with(&format!("latency {last}\n0 0 0 ")), "{nodes:?} {triples:?}: {found}");
            assert_eq!(listed(6, &nodes, &triples), "refused 7 0\n", "{nodes:?} {triples:?}");
            met += 1;
        }
    }
    assert_eq!(met, 24 * 16);
}

#[test]
fn used_nodes_that_are_no_outputs() {
    // Input 1 is the output, in step 1. In step 4: input 2, a leaf of table 3, which box 4 reads; and the box is ready three steps on.
    let triples = [(0, 1, 1), (0, 2, 4)];
    let rows = "1 1 0 used\n2 4 0 used\n3 4 1 used 2\n4 4 1 used\n";
    for (also, first) in [(1, 1), (2, 4), (3, 4), (4, 7)] {
        let nodes = [input(), input(), input(), table(false, &[2]), boxed(0, 3, 2, &[3])];
        let nodes: Vec<Node> = (0..).zip(nodes).map(|(v, node)| mark(v == 1 || v == also, node)).collect();
        ends_at(7, &nodes, &triples, &format!("latency {first}\n0 0 0 idle\n{rows}"));
    }
    // Without an output the same nodes are used, but for input 1.
    let none = [input(), input(), input(), table(false, &[2]), boxed(0, 3, 2, &[3])];
    ends_at(7, &none, &triples, &format!("latency 0\n0 0 0 idle\n{}", rows.replacen("used", "idle", 1)));
}

#[test]
fn outputs_that_are_hidden() {
    // Table 2 hides table 1, which no cut then has as a leaf. Box 3 reads table 2, two steps after table 1.
    for (first, second, latency) in [(false, false, 0), (true, false, 3), (false, true, 5), (true, true, 5)] {
        let nodes = [input(), table(first, &[0]), table(second, &[1]), boxed(0, 0, 0, &[2])];
        let hidden = if first { "used 0" } else { "idle" };
        let expected = format!("latency {latency}\n0 0 0 used\n1 3 1 {hidden}\n2 5 1 used 0\n3 5 1 used\n");
        ends_at(5, &nodes, &[(0, 1, 3), (1, 2, 2)], &expected);
    }
}

#[test]
fn the_length_follows() {
    // Input 1 is the output, and input 2 is in the last step: its step has three bytes, and the latency one, two or three.
    for step in [0, 1, 126, 127, 128, 129, 16_382, 16_383, 16_384, 16_385, H.1 - 1, H.1] {
        let nodes = [input(), mark(true, input()), input()];
        let bytes = spelled(&numbers(&sheet(H.1, &nodes, &[(0, 1, step as i32), (0, 2, H.1 as i32)])));
        let plan = spelled(&[step, 0, 0, 0, 0, step, 0, 1, 0, H.1, 0, 0, 0]);
        let length = 13 + 2 * width(step);
        assert_eq!(plan.len(), length);
        assert_eq!(planned(&bytes, length), (Answer { number: 0, place: length as u64 }, plan), "step {step}");
        assert_eq!(planned(&bytes, length - 1).0, Answer { number: 8, place: length as u64 }, "step {step}");
        assert!(listing(&bytes).starts_with(&format!("latency {step}\n")));
    }
}

/// A made-up sheet of one kind or another, within H or the greatest horizon.
fn made_up(random: &mut Random, round: u32) -> Sheet {
    let whole = match round % 8 {
        0 => stairs(random),
        1 => ring(random, 12, true),
        2 => long(random),
        3 => memories(random, 12, 4, 20),
        4 => memories(random, 40, 8, 200),
        5 => small(random, &Size { nodes: 30, top: 64, horizon: 2_000, latency: 255, wide: false }),
        6 => small(random, &Size { nodes: 12, top: 2, horizon: 30, latency: 3, wide: true }),
        _ => small(random, &Size { nodes: 20, top: 8, horizon: 60, latency: 9, wide: false }),
    };
    Sheet { horizon: if round % 3 == 0 { H.1 } else { whole.horizon }, ..whole }
}

/// The same sheet with the mark where `output` says so.
fn marked(sheet: &Sheet, output: impl Fn(usize) -> bool) -> Sheet {
    let nodes = sheet.nodes.iter().enumerate().map(|(v, node)| mark(output(v), node.clone())).collect();
    Sheet { nodes, ..sheet.clone() }
}

/// The step in which each node of a plan is ready.
fn ready_steps(sheet: &Sheet, plan: &Plan) -> Vec<u32> {
    sheet.nodes.iter().zip(&plan.labels).map(|(node, label)| label.0 + node.latency).collect()
}

/// Sheets, counted by the latency of their plan, or as refused.
#[derive(Debug, Default)]
struct Counts {
    /// The latency is below the greatest ready step.
    below: u32,
    /// Those of them whose latency is 0: without an output, and with one.
    zero: [u32; 2],
    /// The latency is the greatest ready step: 0, and above it.
    equal: [u32; 2],
    /// Refused, by number.
    refused: Met,
}

/// Holds the plans of a sheet with other marks to that with its own: no mark moves a label or has a say in a refusal, and the latency is that of the
/// marks. Of the marks at one node alone, those at the nodes of `some` are tried.
fn compare_marks(sheet: &Sheet, some: &[usize], counts: &mut Counts) {
    let own = |v: usize| sheet.nodes[v].output;
    let plan = match found(sheet) {
        Ok(plan) => plan,
        Err(refusal) => {
            let others = [marked(sheet, |_| false), marked(sheet, |_| true), marked(sheet, |v| !own(v))];
            assert!(others.iter().all(|other| found(other).is_err_and(|same| same == refusal)), "{refusal:?}: {sheet:?}");
            counts.refused[refusal.0 as usize] += 1;
            return;
        }
    };
    let ready = ready_steps(sheet, &plan);
    let last = *ready.iter().max().expect("a node");
    let latency = |output: &dyn Fn(usize) -> bool| {
        let other = found(&marked(sheet, output)).expect("a plan with any marks");
        assert_eq!(other.labels, plan.labels, "{sheet:?}");
        assert!((0..ready.len()).all(|v| other.used[v] || !output(v)), "every output is used: {sheet:?}");
        other.latency
    };
    assert_eq!(latency(&|_| false), 0, "{sheet:?}");
    assert_eq!(latency(&|_| true), last, "{sheet:?}");
    // Its own marks and those at all other nodes: one of the two has the last node.
    assert_eq!(latency(&|v| !own(v)).max(plan.latency), last, "{sheet:?}");
    for &v in some {
        assert_eq!(latency(&|u| u == v), ready[v], "node {v} alone: {sheet:?}");
        assert_eq!(latency(&|u| u == v || own(u)), plan.latency.max(ready[v]), "node {v} too: {sheet:?}");
        let without = latency(&|u| u != v && own(u));
        assert!(without <= plan.latency && (own(v) || without == plan.latency), "without node {v}: {sheet:?}");
    }
    // The latency is a ready step of an output, and none is above it.
    let steps = || (0..ready.len()).filter(|&v| own(v)).map(|v| ready[v]);
    let outputs = steps().count();
    assert!(steps().all(|step| step <= plan.latency) && if outputs == 0 { plan.latency == 0 } else { steps().any(|step| step == plan.latency) });
    if plan.latency < last {
        counts.below += 1;
        counts.zero[usize::from(outputs > 0)] += u32::from(plan.latency == 0);
    } else {
        counts.equal[usize::from(last > 0)] += 1;
    }
}

#[test]
fn marks_of_made_up_sheets() {
    println!("seed {SEED}");
    let mut random = Random::new(SEED);
    let mut counts = Counts::default();
    for round in 0..18000 {
        let sheet = made_up(&mut random, round);
        let last = sheet.nodes.len() as u32 - 1;
        let some = [0, last, random.within(0, last), random.within(0, last)].map(|v| v as usize);
        compare_marks(&sheet, &some, &mut counts);
    }
    println!("{counts:?}");
    let Counts { below, zero, equal, refused } = counts;
    assert!(below > 3000 && zero.iter().chain(&equal).all(|&count| count > 800));
    assert!([6, 7, 12].iter().all(|&number| refused[number] > 500), "{refused:?}");
}

#[test]
fn marks_of_large_sheets() {
    println!("seed {}", SEED + 1);
    let mut random = Random::new(SEED + 1);
    let mut counts = Counts::default();
    for round in 0..240 {
        // In every third sheet few nodes have the mark.
        let whole = made::large(&mut random, round);
        let few = random.within(0, 4) as usize;
        let sheet = if round % 3 == 0 { marked(&whole, |v| v % 64 < few && v > 192) } else { whole };
        let some = [random.within(0, 255), random.within(0, 255)].map(|v| v as usize);
        compare_marks(&sheet, &some, &mut counts);
    }
    println!("{counts:?}");
    let Counts { below, zero, equal, refused } = counts;
    assert!(below > 100 && zero[0] > 10 && equal[1] > 20 && refused[6] > 10 && refused[12] > 20);
}

#[test]
fn the_horizon_binds_nodes_that_are_no_outputs() {
    println!("seed {}", SEED + 2);
    let mut random = Random::new(SEED + 2);
    // Plans whose labels end after step 0, and those of them whose outputs end before.
    let (mut plans, mut before) = (0, 0);
    for round in 0..12000 {
        let sheet = Sheet { horizon: H.1, ..made_up(&mut random, round) };
        let Ok(plan) = found(&sheet) else { continue };
        let last = *ready_steps(&sheet, &plan).iter().max().expect("a node");
        if last == 0 {
            continue;
        }
        (plans, before) = (plans + 1, before + u32::from(plan.latency < last));
        for sheet in [marked(&sheet, |_| false), sheet] {
            let within = |horizon| found(&Sheet { horizon, ..sheet.clone() });
            assert!(within(last).is_ok_and(|same| same.labels == plan.labels), "within {last}: {sheet:?}");
            for horizon in [plan.latency, last - 1].into_iter().filter(|&horizon| horizon < last) {
                assert!(within(horizon).is_err_and(|refusal| refusal == (7, 0)), "within {horizon}: {sheet:?}");
            }
        }
    }
    println!("plans: {plans}, whose outputs end before their labels: {before}");
    assert!(plans > 4000 && before > 2000);
}
