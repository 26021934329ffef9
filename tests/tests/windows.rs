//! Boxes with bus windows (document 02, U8): open and closed steps, what a box that waits for its window does to its level, its readers and the
//! horizon, each wrong number of the windows, sheets that no horizon satisfies, made-up sheets of every kind with windows against the planner by
//! brute force, and rings that drift through their windows.
#![cfg(planner)]
use maps_tests::buffer::after;
use maps_tests::compare::{compare, compare_all, found, listing, planned, Met};
use maps_tests::labels::{ends, open};
use maps_tests::library::Answer;
use maps_tests::limits::{width, H, N, P};
use maps_tests::made::{self, boxed, differences, drift, greatest_with, input, long, memories, missed, numbers, orders, period_index, ring, sensed};
use maps_tests::made::{slots, small, spelled, stairs, table, windowed, windows, wrong_windows, Size};
use maps_tests::plan::Plan;
use maps_tests::planner;
use maps_tests::random::Random;
use maps_tests::reader::{Node, Refusal, Sheet, Window};

const SEED: u64 = 20260118;

/// A sheet with K = 2, T = 4 and P = 8.
fn sheet(horizon: u32, nodes: &[Node], triples: &[(u32, u32, i32)], entries: &[(u32, u32, u32)]) -> Sheet {
    let (nodes, differences, windows) = (nodes.to_vec(), differences(triples), windows(entries));
    Sheet { leaves: 2, top: 4, horizon, nodes, differences, period: 8, windows }
}

/// Its listing, or the line of its refusal.
fn listed(sheet: &Sheet) -> String {
    listing(&spelled(&numbers(sheet)))
}

/// Holds a sheet to a listing within the horizon `end`, one above it and the greatest, and to refusal 7 within the one below it and 0.
fn ends_at(end: u32, sheet: &Sheet, expected: &str) {
    for horizon in [end, end + 1, H.1] {
        assert_eq!(listed(&Sheet { horizon, ..sheet.clone() }), expected, "within {horizon}");
    }
    for horizon in [0, end.saturating_sub(1)].into_iter().filter(|&horizon| horizon < end) {
        assert_eq!(listed(&Sheet { horizon, ..sheet.clone() }), "refused 7 0\n", "within {horizon}");
    }
}

#[test]
fn open_and_closed_steps() {
    // P = 8, from 2, to 4: box 1 may not start before step `asked`.
    let steps = [2, 3, 10, 11, 18, 19, 26];
    for asked in 0..=26 {
        let step = *steps.iter().find(|&&step| step >= asked).expect("an open step");
        let whole = sheet(0, &[input(), boxed(1, 0, 0, &[0])], &[(0, 1, asked as i32)], &[(1, 2, 4)]);
        ends_at(step, &whole, &format!("latency 0\n0 0 0 used\n1 {step} 1 used\n"));
        assert_eq!(open(&whole, 1, asked), step == asked);
        assert!(open(&whole, 0, asked), "a node without a window");
    }
    for (asked, step) in [(2, 2), (3, 3), (10, 10), (1, 2), (4, 10), (9, 10)] {
        assert_eq!(steps.iter().find(|&&step| step >= asked), Some(&step));
    }
}

#[test]
fn windows_of_every_shape() {
    let nodes = [boxed(0, 0, 0, &[]), boxed(2, 3, 1, &[])];
    for period in [1, 2, 3, 7, 8, 63, 64] {
        let starts = [0, 1, period / 2, period - 2.min(period), period - 1];
        let shapes = starts.into_iter().flat_map(|from| [from + 1, from + 2, (from + period) / 2, period - 1, period].map(|to| (from, to)));
        for (from, to) in shapes.filter(|&(from, to)| from < to && to <= period) {
            for asked in [0, 1, from, to - 1, to, period - 1, period, period + from, period + to, 5 * period + to, 1_000, 65_000] {
                // The remainder of the step that is asked is counted up to the window, and past the end of the period begins again.
                let (mut step, mut remainder) = (asked, asked % period);
                while remainder < from || remainder >= to {
                    (step, remainder) = (step + 1, if remainder + 1 == period { 0 } else { remainder + 1 });
                }
                let whole = sheet(0, &nodes, &[(0, 1, asked as i32)], &[(1, from, to)]);
                let expected = format!("latency 0\n0 0 0 used\n1 {step} 2 used\n");
                ends_at(step + 3, &Sheet { period, ..whole }, &expected);
            }
        }
    }
}

#[test]
fn a_moved_box_begins_at_level_d() {
    // Table 1 is (0, 1), and box 2 with d on it is there at level 1 + d where step 0 is open, or, past T, in step 1 at level d.
    let nodes = |delay: u32| [input(), table(false, &[0]), boxed(delay, 0, 0, &[1])];
    let rows = |step: u32, level: u32| format!("latency 0\n0 0 0 used\n1 0 1 used 0\n2 {step} {level} used\n");
    for delay in 0..=4 {
        let stay = if delay < 4 { (0, 1 + delay) } else { (1, 4) };
        for (from, to, step) in [(0, 8, stay.0), (0, 2, stay.0), (2, 3, 2), (5, 8, 5), (7, 8, 7)] {
            let level = if step == stay.0 { stay.1 } else { delay };
            ends_at(step, &sheet(0, &nodes(delay), &[], &[(2, from, to)]), &rows(step, level));
        }
        // In step 0 or 8 alone.
        let (step, level) = if delay < 4 { stay } else { (8, 4) };
        ends_at(step, &sheet(0, &nodes(delay), &[], &[(2, 0, 1)]), &rows(step, level));
    }
    // A table on the box that waits: in its step, at level d of the box plus its own, or in the next one. The table has no window.
    for (delay, label) in [(0, "5 1"), (3, "5 4"), (4, "6 1")] {
        let nodes = [input(), boxed(delay, 0, 0, &[0]), table(true, &[1])];
        let expected = format!("latency {0}\n0 0 0 used\n1 5 {delay} used\n2 {label} used 1\n", &label[..1]);
        ends_at(label[..1].parse().unwrap(), &sheet(0, &nodes, &[], &[(1, 5, 6)]), &expected);
    }
}

#[test]
fn the_ready_step_may_be_closed() {
    // A box that starts in step 2 or 3 of 8 and is ready after lat steps, at level q, in an open step or a closed one.
    for latency in [1, 2, 3, 6, 7, 8, 255] {
        for (asked, step) in [(0, 2), (2, 2), (3, 3), (4, 10)] {
            let nodes = [input(), Node { output: true, ..boxed(1, latency, 3, &[0]) }, table(true, &[1])];
            let (end, expected) = (step + latency, format!("0 0 0 used\n1 {step} 1 used\n2 {} 4 used 1\n", step + latency));
            ends_at(end, &sheet(0, &nodes, &[(0, 1, asked)], &[(1, 2, 4)]), &format!("latency {end}\n{expected}"));
        }
    }
    // Its ready step is open and its own is not: it waits all the same.
    ends_at(5, &sheet(0, &[boxed(0, 3, 0, &[])], &[], &[(0, 2, 4)]), "latency 0\n0 2 0 used\n");
    ends_at(6, &sheet(0, &[boxed(0, 3, 0, &[]), input()], &[(1, 0, 3)], &[(0, 3, 4)]), "latency 0\n0 3 0 used\n1 0 0 idle\n");
    ends_at(13, &sheet(0, &[boxed(0, 3, 0, &[]), input()], &[(1, 0, 4)], &[(0, 2, 3)]), "latency 0\n0 10 0 used\n1 0 0 idle\n");
}

#[test]
fn boxes_that_wait_for_each_other() {
    // One after another through their windows, by what they read and by differences.
    let chain = [boxed(0, 0, 0, &[]), boxed(0, 1, 0, &[0]), boxed(0, 0, 0, &[1]), table(true, &[2])];
    let whole = sheet(0, &chain, &[], &[(0, 5, 6), (1, 0, 3), (2, 7, 8)]);
    ends_at(15, &whole, "latency 15\n0 5 0 used\n1 8 0 used\n2 15 0 used\n3 15 1 used 2\n");
    let three = [boxed(0, 0, 0, &[]), boxed(0, 0, 0, &[]), boxed(0, 0, 0, &[])];
    let falling = sheet(0, &three, &[(2, 1, 1), (1, 0, 1)], &[(0, 5, 6), (1, 0, 3), (2, 7, 8)]);
    ends_at(13, &falling, "latency 0\n0 13 0 used\n1 8 0 used\n2 7 0 used\n");
    // Box 1 is one or two steps after box 0, which follows it to where both are open.
    let pair = [boxed(0, 0, 0, &[]), boxed(0, 0, 0, &[])];
    let close = |entries: &[(u32, u32, u32)]| sheet(0, &pair, &[(0, 1, 1), (1, 0, -2)], entries);
    for (entries, [first, second]) in [
        (&[(1, 2, 4)][..], [0, 2]),
        (&[(1, 5, 6)], [3, 5]),
        (&[(0, 6, 8), (1, 0, 2)], [6, 8]),
        (&[(0, 0, 3), (1, 4, 5)], [2, 4]),
        (&[(0, 3, 4), (1, 4, 8)], [3, 4]),
    ] {
        ends_at(second, &close(entries), &format!("latency 0\n0 {first} 0 used\n1 {second} 0 used\n"));
    }
    // Three steps apart, and so in no turn.
    let apart = close(&[(0, 0, 1), (1, 3, 4)]);
    HORIZONS.iter().for_each(|&horizon| assert_eq!(listed(&Sheet { horizon, ..apart.clone() }), "refused 7 0\n"));
}

/// Horizons of every size.
const HORIZONS: [u32; 8] = [0, 1, 9, 100, 4_095, 16_384, H.1 - 1, H.1];

/// The hall sheet with a box behind it that nobody reads, these differences and this period and windows.
fn hall(triples: &[(u32, u32, i32)], period: u32, entries: &[(u32, u32, u32)]) -> Sheet {
    let nodes = vec![input(), input(), input(), table(false, &[0, 1]), table(false, &[3, 2]), table(true, &[4, 3]), boxed(0, 0, 0, &[])];
    Sheet { leaves: 3, top: 2, horizon: 4, nodes, differences: differences(triples), period, windows: windows(entries) }
}

#[test]
fn with_windows_7_stands_for_never() {
    // No horizon satisfies these. Without windows that is 12, whatever P is; with one it is 7, also where it closes nothing.
    for triples in [&[(0, 5, 1), (5, 0, 0)][..], &[(0, 5, 1), (2, 2, 1)], &[(6, 6, 1)], &[(6, 0, 1), (0, 6, 0)]] {
        for period in [1, 2, 8, 64] {
            for horizon in HORIZONS {
                assert_eq!(listed(&Sheet { horizon, ..hall(triples, period, &[]) }), "refused 12 0\n");
                for entry in [(6, 0, period), (6, period - 1, period), (6, 0, 1)] {
                    assert_eq!(listed(&Sheet { horizon, ..hall(triples, period, &[entry]) }), "refused 7 0\n");
                }
            }
        }
    }
    // Late within H alone is 7 with and without them.
    let rows = |step| format!("latency 1\n0 0 0 used\n1 0 0 used\n2 0 0 used\n3 0 1 used 0 1\n4 0 1 idle\n5 1 1 used 2 3\n6 {step} 0 used\n");
    for (entries, step) in [(&[][..], 0), (&[(6, 0, 8)], 0), (&[(6, 1, 2)], 1), (&[(6, 5, 6)], 5)] {
        ends_at(step.max(1), &hall(&[(0, 5, 1)], 8, entries), &rows(step));
    }
}

#[test]
fn the_order_of_grounds() {
    // A window that comes too late in a sheet that has more wrong with it.
    let late = Sheet { horizon: 3, ..hall(&[(0, 5, 1)], 8, &[(6, 5, 6)]) };
    let mut met = Met::default();
    let mut number = |bytes: &[u8]| compare(bytes, &mut met).expect_err("a refusal");
    let bytes = spelled(&numbers(&late));
    assert_eq!(number(&bytes), (7, 0));
    for length in 0..bytes.len() {
        assert_eq!(number(&bytes[..length]), (1, length as u64));
    }
    assert_eq!(number(&[&bytes[..], &[0]].concat()), (5, bytes.len() as u64));
    let mut wide = late.clone();
    wide.nodes.extend([input(), table(false, &[0, 1, 2, 7])]);
    assert_eq!(number(&spelled(&numbers(&wide))), (6, 8));
    for room in 0..40 {
        assert_eq!(planned(&bytes, room), (Answer { number: 7, place: 0 }, after(&[], room)));
    }
}

#[test]
fn every_wrong_number_of_the_windows() {
    // Boxes 0, 2 and 3, and input 1, all of one byte a number: P is byte 29, the count byte 30, and the windows begin at byte 31.
    let slow = || boxed(0, 0, 0, &[]);
    let whole = |entries: &[(u32, u32, u32)]| sheet(9, &[slow(), input(), slow(), slow()], &[], entries);
    let line = |period: u32, entries: &[(u32, u32, u32)]| listed(&Sheet { period, ..whole(entries) });
    assert_eq!(period_index(&whole(&[])), 29);
    let rows = |first, third, last| format!("latency 0\n0 {first} 0 used\n1 0 0 idle\n2 {third} 0 used\n3 {last} 0 used\n");
    // Windows that are right, at the ends of their ranges.
    assert_eq!(line(8, &[(0, 0, 1), (2, 7, 8), (3, 2, 4)]), rows(0, 7, 2));
    assert_eq!(line(1, &[(0, 0, 1), (2, 0, 1), (3, 0, 1)]), rows(0, 0, 0));
    assert_eq!(line(64, &[(3, 9, 64)]), rows(0, 0, 9));
    assert_eq!(line(64, &[(3, 63, 64)]), "refused 7 0\n");
    // P, also without windows, and before what comes after it.
    for period in [0, 65, 127, 128, 16_384] {
        for entries in [&[][..], &[(0, 0, 1)], &[(1, 9, 0)]] {
            assert_eq!(line(period, entries), "refused 3 29\n", "P = {period}");
        }
    }
    // The count: as many as nodes are not too many.
    assert_eq!(line(8, &[(0, 0, 1), (2, 0, 1), (3, 0, 1), (4, 0, 1)]), "refused 3 40\n");
    assert_eq!(line(8, &[(0, 0, 1), (2, 0, 1), (3, 0, 1), (3, 0, 1), (3, 0, 1)]), "refused 3 30\n");
    // The id first, whatever from and to are: no box, no node, that of the entry before, a lower one.
    for (from, to) in [(0, 8), (0, 0), (8, 9), (100, 1)] {
        for id in [1, 4, 5, 127, 128, 16_384] {
            assert_eq!(line(8, &[(id, from, to)]), "refused 3 31\n", "id {id}");
        }
        for (first, second) in [(0, 0), (0, 1), (2, 0), (2, 1), (2, 2), (3, 3), (3, 2), (2, 4)] {
            assert_eq!(line(8, &[(first, 2, 4), (second, from, to)]), "refused 3 34\n", "{first} and {second}");
        }
    }
    // Then from, whatever to is; then to.
    for from in [8, 9, 64, 128] {
        for to in [0, 8, 9, 200] {
            assert_eq!(line(8, &[(2, from, to)]), "refused 3 32\n", "from {from}");
        }
    }
    for (from, to) in [(0, 0), (2, 2), (2, 1), (7, 0), (7, 7), (0, 9), (7, 9), (3, 64), (0, 128)] {
        assert_eq!(line(8, &[(2, from, to)]), "refused 3 33\n", "from {from} to {to}");
        assert_eq!(line(8, &[(0, 7, 8), (2, from, to)]), "refused 3 36\n", "from {from} to {to}");
    }
}

#[test]
fn made_up_windows_with_a_wrong_number() {
    println!("seed {SEED}");
    let mut random = Random::new(SEED);
    let mut met = Met::default();
    for _ in 0..300 {
        let whole = slots(&mut random, 6, 9);
        for (index, value) in wrong_windows(&whole) {
            let mut all = numbers(&whole);
            all[index] = value;
            assert_eq!(compare(&spelled(&all), &mut met), Err((3, spelled(&all[..index]).len() as u64)), "number {index} = {value} of {whole:?}");
        }
    }
    assert!(met[3] > 10_000, "{met:?}");
}

/// A made-up sheet of one kind or another, with windows.
fn made_up(random: &mut Random, round: u32) -> Sheet {
    let whole = match round % 8 {
        0 => stairs(random),
        1 => ring(random, 10, true),
        2 => long(random),
        3 => memories(random, 10, 4, 60),
        4 => small(random, &Size { nodes: 10, top: 64, horizon: 300, latency: 255, wide: false }),
        5 => small(random, &Size { nodes: 9, top: 3, horizon: 30, latency: 3, wide: true }),
        6 => return slots(random, 10, 100),
        _ => {
            let (n, horizon) = (random.within(2, 8), random.within(0, 400));
            return drift(random, n, horizon);
        }
    };
    // Brute force goes up to H step by step where windows drift.
    let horizon = if round % 100 < 98 { whole.horizon.min(random.within(0, 400)) } else { whole.horizon };
    let whole = Sheet { horizon, ..if random.once_in(4) { whole } else { sensed(whole) } };
    windowed(random, whole)
}

/// Made-up sheets with windows, counted by what the windows do.
#[derive(Debug, Default)]
struct Counts {
    /// Plans in which a box waits for its window; those of them with a later level or step of another node; those whose latency is later.
    waiting: [u32; 3],
    /// Plans in which windows move nothing.
    still: u32,
    /// Refused 7 for the windows alone: within H there are labels without them.
    closed: u32,
    /// Refused 7 with windows, and 12 without: where they close something, and where they close nothing.
    never: [u32; 2],
    /// Plans with a box that starts in an open step and is ready in a closed one.
    ready_closed: u32,
}

impl Counts {
    /// Compares what brute force gives of a sheet with what it gives of that sheet without its windows.
    fn count(&mut self, sheet: &Sheet, brute: &Result<Vec<u8>, Refusal>) {
        let bare = Sheet { windows: Vec::new(), ..sheet.clone() };
        let whole = sheet.windows.iter().all(|window| window.to - window.from == sheet.period);
        let decoded = |plan: &Vec<u8>| Plan::decoded(sheet.nodes.len(), plan);
        match (brute, planner::planned(&spelled(&numbers(&bare)))) {
            (Ok(plan), Ok(other)) => self.plans(sheet, &decoded(plan), &decoded(&other), whole),
            (Err((7, 0)), Ok(_)) if !whole => self.closed += 1,
            (Err((7, 0)), Err((12, 0))) => self.never[usize::from(whole)] += 1,
            (Err(refusal), Err(same)) => assert_eq!((*refusal, sheet.windows.is_empty() || same.0 != 12), (same, true), "{sheet:?}"),
            (found, other) => panic!("{found:?} with windows and {other:?} without: {sheet:?}"),
        }
    }

    fn plans(&mut self, sheet: &Sheet, plan: &Plan, other: &Plan, whole: bool) {
        plan.check(sheet);
        // Windows make nothing earlier.
        assert!(plan.labels.iter().zip(&other.labels).all(|(label, other)| label >= other) && plan.latency >= other.latency, "{sheet:?}");
        let has = |v: usize| sheet.windows.iter().any(|window| window.id as usize == v);
        let later = |v: usize| plan.labels[v] > other.labels[v];
        let ids = || 0..sheet.nodes.len();
        assert!(ids().all(|v| !later(v)) || !whole, "windows that close nothing: {sheet:?}");
        self.still += u32::from(ids().all(|v| !later(v)) && !sheet.windows.is_empty());
        self.waiting[0] += u32::from(ids().any(|v| later(v) && has(v)));
        self.waiting[1] += u32::from(ids().any(|v| later(v) && !has(v)));
        self.waiting[2] += u32::from(plan.latency > other.latency);
        self.ready_closed += u32::from(ids().any(|v| !open(sheet, v, plan.labels[v].0 + sheet.nodes[v].latency)));
    }
}

#[test]
fn made_up_sheets() {
    println!("seed {}", SEED + 1);
    let mut random = Random::new(SEED + 1);
    let (mut met, mut counts) = (Met::default(), Counts::default());
    for round in 0..24000 {
        let sheet = made_up(&mut random, round);
        counts.count(&sheet, &compare(&spelled(&numbers(&sheet)), &mut met));
    }
    println!("calls by number: {met:?}, {counts:?}");
    assert!([0, 6, 7, 8].iter().all(|&number| met[number] > 3000) && met[12] > 100, "{met:?}");
    let Counts { waiting, still, closed, never, ready_closed } = counts;
    assert!(waiting.iter().chain(&never).chain([&still, &closed, &ready_closed]).all(|&count| count > 300), "each occurs often");
}

#[test]
fn damaged_sheets() {
    let met = compare_all(SEED + 2, 30000, |random, round| {
        let whole = if round % 3 == 0 { slots(random, 7, 30) } else { made_up(random, round) };
        made::damaged(random, &whole)
    });
    assert!([0, 1, 2, 3, 4, 5, 7, 8].iter().all(|&number| met[number] > 1000) && met[6] > 100 && met[12] > 100, "{met:?}");
}

#[test]
fn every_period_without_windows() {
    println!("seed {}", SEED + 3);
    let mut random = Random::new(SEED + 3);
    let mut met = Met::default();
    for round in 0..1200 {
        let whole = Sheet { windows: Vec::new(), period: 1, ..made_up(&mut random, round) };
        let found = compare(&spelled(&numbers(&whole)), &mut met);
        for period in [2, random.within(P.0, P.1), P.1] {
            assert_eq!(compare(&spelled(&numbers(&Sheet { period, ..whole.clone() })), &mut met), found, "P = {period}: {whole:?}");
        }
    }
    println!("calls by number: {met:?}");
    assert!([0, 6, 7, 8, 12].iter().all(|&number| met[number] > 200), "{met:?}");
}

#[test]
fn small_rings_that_drift() {
    let met = compare_all(SEED + 4, 4000, |random, round| {
        let n = random.within(2, 9);
        spelled(&numbers(&drift(random, n, if round % 2 == 0 { 100 } else { 2_000 })))
    });
    assert!([0, 7, 8].iter().all(|&number| met[number] > 1000) && met[12] == 0, "{met:?}");
    let met = compare_all(SEED + 5, 120, |random, _| {
        let n = random.within(2, 6);
        spelled(&numbers(&drift(random, n, H.1)))
    });
    assert!([0, 7, 8].iter().all(|&number| met[number] > 20), "{met:?}");
}

/// The step of each box of an order in the plan of a sheet, or the sheet's refusal.
fn steps(sheet: &Sheet, order: &[u32]) -> Result<Vec<u32>, Refusal> {
    found(sheet).map(|plan| order.iter().map(|&v| plan.labels[v as usize].0).collect())
}

#[test]
fn large_rings_that_drift() {
    for n in [2, 16, N.1] {
        for ((name, order), period) in orders(n).iter().flat_map(|order| [2, 3, 8, 63, 64].map(|period| (order, period))) {
            for horizon in [100, H.1] {
                let ring = missed(order, period, horizon);
                assert_eq!(steps(&ring, order), Err((7, 0)), "{n} boxes, {name}, P = {period}, H = {horizon}");
                // With room for the second box to wait there are labels: the first in step 0, the others in step P.
                let after_first = |step: u32| [vec![0], vec![step; n as usize - 1]].concat();
                let mut roomy = ring.clone();
                roomy.differences.last_mut().unwrap().weight -= period as i32 - 1;
                assert_eq!(steps(&roomy, order), Ok(after_first(period)), "{n} boxes, {name}, P = {period}, H = {horizon}");
                // So there are where the windows close nothing, and none, under any horizon, without windows where the ring rises by a step.
                let mut still = ring.clone();
                still.windows.iter_mut().for_each(|window| (window.from, window.to) = (0, period));
                assert_eq!(steps(&still, order), Ok(after_first(1)));
                still.differences.last_mut().unwrap().weight += 1;
                assert_eq!(steps(&still, order), Err((7, 0)));
                assert_eq!(steps(&Sheet { windows: Vec::new(), ..still }, order), Err((12, 0)));
            }
        }
    }
}

#[test]
fn large_rings_by_levels_that_drift() {
    // T = 1: boxes and tables in turn, each reads the one below and is a step after it, and box 0 is no later than that before the last. Box 2 is two
    // steps after box 0, and both start at the beginning of a period.
    let node = |own: u32| match own {
        0 => boxed(1, 0, 0, &[]),
        _ if own % 2 == 0 => boxed(1, 0, 0, &[own - 1]),
        _ => table(own == 255, &[own - 1]),
    };
    let nodes: Vec<Node> = (0..N.1).map(node).collect();
    for horizon in [400, H.1] {
        let ring = |period: u32, weight: i32| {
            let (nodes, differences, windows) = (nodes.clone(), differences(&[(255, 0, weight)]), windows(&[(0, 0, 1), (2, 0, 1)]));
            Sheet { horizon, nodes, differences, period, windows, ..Sheet::default() }
        };
        for period in [3, 5, 8, 64] {
            assert_eq!(found(&ring(period, -255)).err(), Some((7, 0)), "P = {period}");
            // With room for box 2 to wait for the next period.
            let roomy = found(&ring(period, -253 - period as i32)).expect("a plan");
            assert_eq!([0, 2, 255].map(|v| roomy.labels[v]), [(0, 1), (period, 1), (period + 253, 1)], "P = {period}");
            assert_eq!(found(&ring(period, -252 - period as i32)).err(), Some((7, 0)), "P = {period}");
        }
        // Two steps are a period.
        assert_eq!(found(&ring(2, -255)).map(|plan| plan.labels[255]), Ok((255, 1)));
    }
}

#[test]
fn sheets_at_every_limit() {
    println!("seed {}", SEED + 6);
    let mut random = Random::new(SEED + 6);
    for round in 0..20 {
        // Windows of one step, and of any length; with differences that lead back as far as they can, and as they are.
        let shapes: [fn(&mut Random) -> (u32, u32); 2] = [|_| (63, 64), |random| (random.within(0, 31), random.within(32, 64))];
        for shape in shapes {
            let whole = greatest_with(&mut random, shape);
            assert_eq!(found(&whole).err(), Some((7, 0)), "the greatest");
            let mut roomy = whole.clone();
            for (i, difference) in (0..).zip(&mut roomy.differences) {
                (difference.from, difference.to, difference.weight) = (i % 256, i / 4, -(H.1 as i32));
            }
            roomy.nodes.iter_mut().for_each(|node| (node.latency, node.clock_to_q) = (node.latency.min(round), 0));
            let plan = found(&roomy).expect("a plan");
            let end = ends(&roomy, &plan.labels);
            let within = |horizon| found(&Sheet { horizon, ..roomy.clone() });
            assert!(within(end).is_ok_and(|same| same.labels == plan.labels));
            assert_eq!(within(end - 1).err(), Some((7, 0)));
        }
    }
    // Every node a box with a window, each after the one before it: a period for each.
    let node = |own: u32| if own == 0 { boxed(0, 1, 0, &[]) } else { boxed(0, 1, 0, &[own - 1]) };
    let nodes: Vec<Node> = (0..N.1).map(node).collect();
    let entries: Vec<Window> = (0..N.1).map(|id| Window { id, from: 0, to: 1 }).collect();
    for period in [2, 63, 64] {
        let whole = Sheet { horizon: H.1, nodes: nodes.clone(), period, windows: entries.clone(), ..Sheet::default() };
        assert_eq!(width(numbers(&whole)[period_index(&whole) + 1]), 2);
        let plan = found(&whole).expect("a plan");
        assert!((0..).zip(&plan.labels).all(|(turn, label)| label.0 == turn * period), "P = {period}: {:?}", plan.labels);
    }
}
