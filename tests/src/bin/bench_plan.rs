//! Times the planning call on sheets of 16 to 256 nodes of several kinds, on the same sheets at three horizons and on rings through windows at two, or,
//! where files are named, on the sheets in them. With the feature `before` another version of the library stands beside it, with `sketch` the unproved
//! sketch.
#![cfg_attr(not(planner), allow(dead_code, unused_mut))]
use maps_tests::limits::{H, W};
use maps_tests::made::{drift, missed, numbers, shuffled, spelled, windowed, windows};
use maps_tests::random::Random;
use maps_tests::reader::{read, Difference, Node, Sheet};
use std::time::Instant;

/// How many sheets of a kind and size are timed.
const SHEETS: u64 = 10;

/// The calls that are timed, by name. Each gives number and place.
type Call = (&'static str, fn(&[u8], &mut [u8]) -> (u64, u64));

#[cfg(feature = "sketch")]
extern "C" {
    fn sketch_plan(sheet: *const u8, sheet_len: usize, plan: *mut u8, plan_len: usize) -> u64;
}

#[cfg(feature = "before")]
extern "C" {
    fn before_plan(sheet: *const u8, sheet_len: usize, plan: *mut u8, plan_len: usize) -> maps_tests::library::Answer;
}

/// The library where it is built, and the version before and the sketch where they are wanted.
fn calls() -> Vec<Call> {
    let mut all: Vec<Call> = Vec::new();
    #[cfg(planner)]
    all.push(("library", |sheet, buffer| {
        let answer = maps_tests::library::plan(sheet, buffer);
        (answer.number, answer.place)
    }));
    #[cfg(feature = "before")]
    all.push(("before", |sheet, buffer| {
        let answer = unsafe { before_plan(sheet.as_ptr(), sheet.len(), buffer.as_mut_ptr(), buffer.len()) };
        (answer.number, answer.place)
    }));
    #[cfg(feature = "sketch")]
    all.push(("sketch", |sheet, buffer| {
        let both = unsafe { sketch_plan(sheet.as_ptr(), sheet.len(), buffer.as_mut_ptr(), buffer.len()) };
        (both >> 32, both & 0xffff_ffff)
    }));
    all
}

/// An input that is no output.
fn input() -> Node {
    Node { kind: 0, output: false, delay: 0, latency: 0, clock_to_q: 0, operands: Vec::new() }
}

/// A table that reads `count` of the `reach` nodes below it.
fn table(random: &mut Random, own: u32, count: u32, reach: u32, delay: u32) -> Node {
    let operands = (0..count).map(|_| own - random.within(1, reach.min(own))).collect();
    Node { kind: 1, output: random.once_in(8), delay, latency: 0, clock_to_q: 0, operands }
}

/// A sheet with six inputs below the nodes that `node` makes, K = 6 and H = 4,095.
fn sheet(n: u32, top: u32, mut node: impl FnMut(u32) -> Node) -> Sheet {
    let nodes = (0..n).map(|own| if own < 6 { input() } else { node(own) }).collect();
    Sheet { leaves: 6, top, horizon: 4095, nodes, ..Sheet::default() }
}

/// Wide logic with many paths that meet again.
fn wide(random: &mut Random, n: u32) -> Sheet {
    let reach = [8, 12, 40, 255][random.within(0, 3) as usize];
    sheet(n, 8, |own| table(random, own, 6, reach, 1))
}

/// Quick tables over many inputs, and slow ones, the rules, over those. A rule takes a whole step: to share the step of the quick tables below it,
/// it must have all of them inside its cone, which is large and too wide.
fn rules(random: &mut Random, n: u32) -> Sheet {
    let (inputs, quick) = (6 + n / 8, 3 * n / 8);
    sheet(n, 64, |own| match own {
        _ if own < inputs => input(),
        _ if own < inputs + quick => table(random, own, 6, 40, 1),
        _ => table(random, inputs + quick, 6, quick, 64),
    })
}

/// Tables each on the one below. With six inputs and K = 6 every cone goes down to the inputs.
fn deep(random: &mut Random, n: u32) -> Sheet {
    sheet(n, 4, |own| {
        let delay = random.within(1, 3);
        let mut node = table(random, own, 3, 6, delay);
        node.operands[0] = own - 1;
        node
    })
}

/// Tables with boxes among them that have latency.
fn boxes(random: &mut Random, n: u32) -> Sheet {
    sheet(n, 8, |own| {
        let mut node = table(random, own, 4, 16, 1);
        if random.once_in(4) {
            node.kind = 2;
            node.latency = random.within(0, 20);
        }
        node
    })
}

/// The same where the boxes deliver some levels into their ready step.
fn late_boxes(random: &mut Random, n: u32) -> Sheet {
    let mut sheet = boxes(random, n);
    sheet.nodes.iter_mut().filter(|node| node.latency > 0).for_each(|node| node.clock_to_q = random.within(0, 8));
    sheet
}

/// The same where boxes have windows, some of them or all.
fn slots(random: &mut Random, n: u32) -> Sheet {
    let sheet = late_boxes(random, n);
    windowed(random, sheet)
}

/// Differences that point to higher ids, four for a node.
fn forward(random: &mut Random, n: u32) -> Sheet {
    let mut sheet = boxes(random, n);
    sheet.differences = (0..4 * n)
        .map(|_| {
            let to = random.within(1, n - 1);
            Difference { from: to - random.within(1, to.min(8)), to, weight: random.within(0, 6) as i32 - 2 }
        })
        .collect();
    sheet
}

/// Differences that point to lower ids, four for a node, from one of eight separate parts to the part below it.
fn backward(random: &mut Random, n: u32) -> Sheet {
    let part = n / 8;
    let mut sheet = sheet(n, 8, |own| {
        if own % part < 2 {
            input()
        } else {
            let delay = random.within(1, 4);
            table(random, own, 3, own % part, delay)
        }
    });
    sheet.differences = (0..4 * n)
        .map(|_| {
            let from = random.within(part, n - 1);
            let to = (from / part - 1) * part + random.within(0, part - 1);
            Difference { from, to, weight: random.within(0, 3) as i32 - 1 }
        })
        .collect();
    sheet
}

/// Differences there and back that leave some room; most of these sheets are accepted.
fn holding(random: &mut Random, n: u32) -> Sheet {
    let mut sheet = deep(random, n);
    for _ in 0..2 * n {
        let to = random.within(1, n - 1);
        let from = to - random.within(1, to.min(8));
        let weight = random.within(0, 2) as i32;
        sheet.differences.push(Difference { from, to, weight });
        sheet.differences.push(Difference { from: to, to: from, weight: -weight - 7 });
    }
    sheet
}

/// A ring through all nodes that gains a step a turn, so that nothing is legal. It leads up `steps` steps and back one less.
fn ring(random: &mut Random, n: u32, steps: i32) -> Sheet {
    let mut sheet = wide(random, n);
    let first = 6 + random.within(0, 3);
    sheet.nodes[first as usize].operands = vec![0];
    for own in first + 1..n {
        sheet.nodes[own as usize].operands[0] = own - 1;
    }
    for own in 6..n {
        let back = random.within(1, own.min(6));
        sheet.differences.push(Difference { from: own, to: own - back, weight: -(random.within(8, 40) as i32) });
    }
    sheet.differences.push(Difference { from: 0, to: n - 1, weight: steps });
    sheet.differences.push(Difference { from: n - 1, to: 0, weight: 1 - steps });
    sheet
}

/// A ring of 200 steps.
fn running(random: &mut Random, n: u32) -> Sheet {
    ring(random, n, 200)
}

/// A ring that gains a step a turn by its levels alone: no w is above 0. With T = 1 boxes and tables in turn are each a step after the one below, and
/// a difference leads back one step less.
fn rising(random: &mut Random, n: u32) -> Sheet {
    let mut sheet = sheet(n, 1, |own| {
        let mut node = table(random, own, 3, 6, 1);
        node.operands[0] = own - 1;
        node.kind = 1 + own % 2;
        node
    });
    sheet.differences.push(Difference { from: n - 1, to: 6, weight: 8 - n as i32 });
    sheet
}

/// A ring of boxes in any order that drifts through two windows, which never fit together.
fn missing(random: &mut Random, n: u32) -> Sheet {
    let period = random.within(2, 64);
    missed(&shuffled(random, n), period, 0)
}

/// The same by levels: with T = 1 boxes and tables in turn are each a step after the one below, and a difference leads back as many steps. The first
/// two boxes are two steps apart, and both start at the beginning of a period.
fn missing_by_levels(random: &mut Random, n: u32) -> Sheet {
    let mut sheet = rising(random, n);
    sheet.differences[0].weight -= 1;
    (sheet.period, sheet.windows) = (random.within(3, 64), windows(&[(7, 0, 1), (9, 0, 1)]));
    sheet
}

/// A ring of boxes that all have windows. It drifts, and half of these rings have room for their windows to fit together.
fn drifting(random: &mut Random, n: u32) -> Sheet {
    let mut sheet = drift(random, n, 0);
    if random.once_in(2) {
        sheet.differences.last_mut().expect("the difference back").weight -= (n * sheet.period) as i32;
    }
    sheet
}

/// The sheet with every w so many times as great. What is legal stays legal with every step as many times as late.
fn stretched(mut sheet: Sheet, factor: i32) -> Sheet {
    sheet.differences.iter_mut().for_each(|difference| difference.weight *= factor);
    sheet
}

/// A deep chain with the greatest w from each node to the next: its last step is the latest that a least label has.
fn latest(random: &mut Random, n: u32) -> Sheet {
    let mut sheet = deep(random, n);
    sheet.differences = (1..n).map(|to| Difference { from: to - 1, to, weight: W as i32 }).collect();
    sheet
}

/// What makes a sheet of so many nodes.
type Maker = fn(&mut Random, u32) -> Sheet;

/// The sheets of a kind and size.
fn sheets_of(make: Maker, n: u32) -> Vec<Sheet> {
    (0..SHEETS).map(|seed| make(&mut Random::new(1000 * n as u64 + seed), n)).collect()
}

/// How often each call plans a sheet, at the least.
const RUNS: usize = 12;

/// For each call on its bytes the least time of its runs, in microseconds, and the number given. They take turns, so that all meet the same machine,
/// and each goes first as often, so that none always comes after the same other.
fn times(trials: &[(Call, &[u8])]) -> Vec<(f64, u64)> {
    let (mut buffer, count) = (vec![0; 5000], trials.len());
    let mut best = vec![(f64::INFINITY, 0); count];
    for run in 0..RUNS.next_multiple_of(count) {
        for turn in 0..count {
            let i = if run % 2 == 0 { (run + turn) % count } else { (run + count - turn) % count };
            let (call, bytes) = trials[i];
            let start = Instant::now();
            best[i].1 = call.1(std::hint::black_box(bytes), std::hint::black_box(&mut buffer)).0;
            best[i].0 = best[i].0.min(start.elapsed().as_secs_f64() * 1e6);
        }
    }
    best
}

/// A line for each form of the same sheets, given by its name and the sheets' bytes: how many are accepted and refused 6, 7 and 12, then mean and
/// worst of each call, the ratio of the library's mean to each other call's and, where there are several forms, to its own mean for the last one.
fn rows(forms: &[(String, Vec<Vec<u8>>)]) {
    let calls = calls();
    let trials = |sheet: usize| -> Vec<(Call, &[u8])> {
        forms.iter().flat_map(|(_, sheets)| calls.iter().map(move |&call| (call, &sheets[sheet][..]))).collect()
    };
    let all: Vec<Vec<(f64, u64)>> = (0..forms[0].1.len()).map(|sheet| times(&trials(sheet))).collect();
    let mean = |i: usize| all.iter().map(|t| t[i].0).sum::<f64>() / all.len() as f64;
    for (own, (name, _)) in (0..).step_by(calls.len()).zip(forms) {
        print!("{name:<48}");
        for number in [0, 6, 7, 12] {
            print!("{:>4} ", all.iter().filter(|t| t[own].1 == number).count());
        }
        for (i, call) in (own..).zip(&calls) {
            let worst = all.iter().fold(0.0, |most, t| f64::max(most, t[i].0));
            print!("{:>12} {:>9.1} {worst:>9.1} us", call.0, mean(i));
        }
        let others = own + 1..own + calls.len();
        let last = (forms.len() > 1).then_some((forms.len() - 1) * calls.len());
        others.chain(last).for_each(|i| print!("{:>8.2}", mean(own) / mean(i)));
        println!();
    }
}

/// The lines of sheets at several horizons.
fn horizon_rows(name: &str, sheets: &[Sheet], horizons: &[u32]) {
    let at = |horizon| sheets.iter().map(|sheet| spelled(&numbers(&Sheet { horizon, ..sheet.clone() }))).collect();
    let forms: Vec<(String, Vec<Vec<u8>>)> = horizons.iter().map(|&horizon| (format!("{name}, H = {horizon}"), at(horizon))).collect();
    rows(&forms);
}

/// Three horizons: one that few sheets keep, one of two bytes and the greatest.
const HORIZONS: [u32; 3] = [1, 4_095, H.1];

/// A sheet of `tests/sheets`.
fn stored(name: &str) -> Sheet {
    let path = format!("{}/sheets/{name}.sheet", env!("CARGO_MANIFEST_DIR"));
    read(&std::fs::read(path).expect("a stored sheet")).expect("a sheet that reads")
}

fn main() {
    if calls().is_empty() {
        println!("the planning library is not built");
        return;
    }
    let files: Vec<String> = std::env::args().skip(1).collect();
    for path in &files {
        let bytes = std::fs::read(path).expect("the file that is named");
        rows(&[(path.rsplit('/').next().unwrap().to_string(), vec![bytes])]);
    }
    if !files.is_empty() {
        return;
    }
    println!("{:<48}{:>4} {:>4} {:>4} {:>4}{:>13} {:>9} {:>9}", "sheets", "0", "6", "7", "12", "", "mean", "worst");
    let kinds: [(&str, Maker); 10] = [
        ("wide logic", wide),
        ("wide rules", rules),
        ("deep chains", deep),
        ("boxes with latency", boxes),
        ("boxes with latency and q", late_boxes),
        ("boxes with windows", slots),
        ("differences forward", forward),
        ("differences backward", backward),
        ("rings that hold", holding),
        ("rings off the horizon", running),
    ];
    for (name, make) in kinds {
        for n in [16, 64, 128, 256] {
            let sheets = sheets_of(make, n).iter().map(|sheet| spelled(&numbers(sheet))).collect();
            rows(&[(format!("{name}, {n} nodes"), sheets)]);
        }
    }
    println!("\nThe same sheets at three horizons, of 256 nodes or stored; the last column is the ratio to the mean at H = {}.", H.1);
    let kinds: [(&str, Maker); 12] = [
        // Late at the first horizon and accepted at the others; some of the rings are never legal.
        ("boxes with latency", boxes),
        ("boxes with latency and q", late_boxes),
        ("differences forward", forward),
        ("differences backward", backward),
        ("rings that hold", holding),
        // Late at all three; some of the rings are never legal.
        ("long forward", |random, n| stretched(forward(random, n), 7_000)),
        ("long backward", |random, n| stretched(backward(random, n), 7_000)),
        ("long rings that hold", |random, n| stretched(holding(random, n), 7_000)),
        ("the latest steps", latest),
        // Never legal.
        ("rings of 60 steps", |random, n| ring(random, n, 60)),
        ("rings of 65535 steps", |random, n| ring(random, n, W as i32)),
        ("rings by levels", rising),
    ];
    for (name, make) in kinds {
        horizon_rows(name, &sheets_of(make, 256), &HORIZONS);
    }
    // The first is late at the first horizon and accepted at the others, the other two are never legal.
    for name in ["rises", "zigzag", "costly-cuts"] {
        horizon_rows(name, &[stored(name)], &HORIZONS);
    }
    println!("\nRings through windows at two horizons; the last column is the ratio to the mean at H = {}.", H.1);
    // The first two are late at both, for their windows alone; of the others some are accepted.
    let kinds: [(&str, Maker, u32); 4] = [
        ("rings that miss, 256 nodes", missing, 256),
        ("rings by levels that miss, 64 nodes", missing_by_levels, 64),
        ("rings that drift, 16 nodes", drifting, 16),
        ("rings that drift, 256 nodes", drifting, 256),
    ];
    for (name, make, n) in kinds {
        horizon_rows(name, &sheets_of(make, n), &[100, H.1]);
    }
}
