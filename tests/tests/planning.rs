//! The planning call against a planner by brute force: number, place and every byte of the buffer, on made-up small sheets, damaged sheets and random
//! bytes; against the definition of least labels and the least latency on tiny sheets; and what can be checked without brute force on sheets at every
//! limit.
#![cfg(planner)]
use maps_tests::buffer::after;
use maps_tests::compare::{compare, compare_all, listing, planned, Met, NUMBERS};
use maps_tests::header::defined;
use maps_tests::labels::{carried, ends, fitting_cuts, latency, least, legal, Label};
use maps_tests::library::{plan, Answer};
use maps_tests::limits::{fields, width, H, N, T, W};
use maps_tests::made::{self, chain, damaged, greatest, input, long, memories, numbers, respelled, ring, slots, small, spelled, stairs, table, variant};
use maps_tests::made::{windowed, Size};
use maps_tests::plan::Plan;
use maps_tests::planner;
use maps_tests::random::Random;
use maps_tests::reader::{Difference, Node, Refusal, Sheet};

const SEED: u64 = 20260103;

#[test]
fn sheets_with_stairs() {
    let met = compare_all(SEED + 6, 20000, |random, _| spelled(&numbers(&stairs(random))));
    assert!(met[0] > 5000 && met[7] > 500 && met[12] > 5000, "{met:?}");
}

#[test]
fn sheets_with_rings() {
    let met = compare_all(SEED + 7, 12000, |random, _| spelled(&numbers(&ring(random, 11, true))));
    assert!(met[0] > 2000 && met[7] > 100 && met[12] > 2000, "{met:?}");
    let met = compare_all(SEED + 8, 3000, |random, _| spelled(&numbers(&ring(random, 60, false))));
    assert!(met[0] > 500 && met[7] > 20 && met[12] > 500, "{met:?}");
}

#[test]
fn small_sheets() {
    let met = compare_all(SEED, 24000, |random, round| {
        let size = match round % 8 {
            0 => Size { nodes: 13, top: 4, horizon: 30, latency: 3, wide: false },
            1 => Size { nodes: 10, top: 64, horizon: [4_095, H.1][round as usize / 8 % 2], latency: 255, wide: false },
            2 => Size { nodes: 10, top: 1, horizon: 8, latency: 2, wide: false },
            wide => Size { nodes: 9, top: 3, horizon: 6, latency: 3, wide: wide > 5 },
        };
        spelled(&numbers(&small(random, &size)))
    });
    assert!([0, 6, 7, 8].iter().all(|&number| met[number] > 4000) && met[12] > 2000, "{met:?}");
}

/// Sheets with long paths of differences, counted by how many bytes a number has.
#[derive(Debug, Default)]
struct Lengths {
    /// Plans, by their latency.
    latencies: [u32; 3],
    /// Plans that have a step of so many bytes.
    steps: [u32; 3],
    /// Plans whose last node is ready in step H, by H.
    full: [u32; 3],
    /// Plans whose latency is H, by H.
    to_output: [u32; 3],
    /// Sheets that are refused 7 and legal within an H that is greater by 20, by H.
    late: [u32; 3],
    /// Those of `full`, of `to_output` and of `late` that have the greatest H.
    greatest: [u32; 3],
}

impl Lengths {
    fn count(&mut self, sheet: &Sheet, brute: &Result<Vec<u8>, Refusal>) {
        let bytes = width(sheet.horizon) - 1;
        let greatest = u32::from(sheet.horizon == H.1);
        match brute {
            Ok(plan) => {
                let plan = Plan::decoded(sheet.nodes.len(), plan);
                self.latencies[width(plan.latency) - 1] += 1;
                (1..=3).for_each(|bytes| self.steps[bytes - 1] += u32::from(plan.labels.iter().any(|label| width(label.0) == bytes)));
                let (full, to_output) = (ends(sheet, &plan.labels) == sheet.horizon, plan.latency == sheet.horizon);
                self.full[bytes] += u32::from(full);
                self.greatest[0] += greatest * u32::from(full);
                self.to_output[bytes] += u32::from(to_output);
                self.greatest[1] += greatest * u32::from(to_output);
            }
            Err((7, _)) if least(&Sheet { horizon: sheet.horizon + 20, ..sheet.clone() }).is_ok() => {
                self.late[bytes] += 1;
                self.greatest[2] += greatest;
            }
            Err(_) => {}
        }
    }
}

#[test]
fn sheets_with_long_paths() {
    println!("seed {}", SEED + 9);
    let mut random = Random::new(SEED + 9);
    let (mut met, mut lengths) = (Met::default(), Lengths::default());
    for _ in 0..36000 {
        let sheet = long(&mut random);
        lengths.count(&sheet, &compare(&spelled(&numbers(&sheet)), &mut met));
    }
    println!("calls by number: {met:?}, {lengths:?}");
    assert!(met[0] > 15000 && met[7] > 9000 && met[12] > 9000, "{met:?}");
    let Lengths { latencies, steps, full, to_output, late, greatest } = lengths;
    assert!([latencies, steps, full, late].iter().flatten().chain([&greatest[0], &greatest[2]]).all(|&count| count > 300), "each occurs often");
    assert!(to_output.iter().chain([&greatest[1]]).all(|&count| count > 100), "each occurs often");
}

#[test]
fn every_step() {
    // Two inputs w steps apart, the second an output or not: within w, and not within less.
    let apart = |mark: u32, horizon: u32, w: u32| spelled(&[2, 1, horizon, 2, 1, 0, 0, 0, 0, 0, 0, 0, mark, 0, 0, 0, 0, 0, 1, 2 * w, 1, 0]);
    let mut of_three = 0;
    for (w, mark) in (0..=W).flat_map(|w| [(w, 0), (w, 1)]) {
        let plan = spelled(&[w * mark, 0, 0, 0, 0, w, 0, mark, 0]);
        let accepted = Answer { number: 0, place: plan.len() as u64 };
        assert_eq!(planned(&apart(mark, w, w), plan.len()), (accepted, plan.clone()), "w = H = {w}, mark {mark}");
        assert_eq!(planned(&apart(mark, H.1, w), plan.len()), (accepted, plan), "w = {w}, mark {mark}");
        if w > 0 {
            assert_eq!(planned(&apart(mark, w - 1, w), 0), (Answer { number: 7, place: 0 }, Vec::new()), "w = {w}, one more than H, mark {mark}");
        }
        of_three += mark * u32::from(width(w) == 3);
    }
    assert_eq!(of_three, 65_536 - 16_384);
}

#[test]
fn damaged_sheets() {
    let met = compare_all(SEED + 1, 36000, |random, round| {
        let whole = small(random, &Size { nodes: 7, top: 3, horizon: 6, latency: 3, wide: round % 3 == 0 });
        damaged(random, &whole)
    });
    assert!(NUMBERS.iter().all(|&number| met[number] > 500), "{met:?}");
}

/// A few small bytes behind a header whose values are mostly in range, with some bytes of any value; the last two are mostly P = 1 and no windows.
fn mostly_small(random: &mut Random) -> Vec<u8> {
    let length = random.within(0, 29);
    let mut bytes: Vec<u8> = (0..length).map(|_| if random.once_in(16) { random.next() as u8 } else { random.within(0, 3) as u8 / 3 }).collect();
    for (byte, value) in bytes.iter_mut().zip([random.within(2, 6), 2, 4, random.within(1, 3), random.within(0, 1)]) {
        if !random.once_in(16) {
            *byte = value as u8;
        }
    }
    if let Some(last) = bytes.last_chunk_mut().filter(|_| !random.once_in(4)) {
        *last = [1, 0];
    }
    bytes
}

#[test]
fn random_bytes() {
    // Brute force plans only small sheets.
    let met = compare_all(SEED + 2, 60000, |random, _| loop {
        let bytes = mostly_small(random);
        if maps_tests::reader::read(&bytes).map_or(true, |sheet| sheet.nodes.len() < 13) {
            break bytes;
        }
    });
    assert!((0..6).all(|number| met[number] > 200), "{met:?}");
}

/// All labels up to a step and a level.
fn labels_within(step: u32, top: u32) -> Vec<Label> {
    (0..=step).flat_map(|s| (0..=top).map(move |l| (s, l))).collect()
}

/// Calls `each` with every labelling of n nodes by the given labels.
fn every_labelling(n: usize, choice: &[Label], each: &mut impl FnMut(&[Label])) {
    let mut at = vec![0; n];
    loop {
        let labels: Vec<Label> = at.iter().map(|&i| choice[i]).collect();
        each(&labels);
        let Some(v) = (0..n).find(|&v| at[v] + 1 < choice.len()) else {
            return;
        };
        at[v] += 1;
        at[..v].fill(0);
    }
}

/// Holds the library to the definition of least labels and to the least latency on tiny sheets, over every labelling up to H + 2. Counts the numbers
/// met, how many sheets are refused 7 and legal within H + 2, and how many plans have a latency of 0, and above 0, while some node is ready later.
fn compare_by_definition(seed: u64, rounds: u32, mut sheet: impl FnMut(&mut Random, u32) -> Sheet) -> (Met, u32, [u32; 2]) {
    println!("seed {seed}");
    let mut random = Random::new(seed);
    let mut met = Met::default();
    let (mut later, mut below) = (0, [0; 2]);
    for round in 0..rounds {
        let sheet = sheet(&mut random, round);
        let bytes = spelled(&numbers(&sheet));
        let (answer, buffer) = planned(&bytes, 100);
        let cuts = fitting_cuts(&sheet);
        let (mut within, mut beyond) = (Vec::new(), Vec::new());
        every_labelling(sheet.nodes.len(), &labels_within(sheet.horizon + 2, sheet.top), &mut |labels| {
            if legal(&sheet, &cuts, labels, sheet.horizon) {
                within.push(labels.to_vec());
            }
            if legal(&sheet, &cuts, labels, sheet.horizon + 2) {
                beyond.push(labels.to_vec());
            }
        });
        met[answer.number as usize] += 1;
        match answer.number {
            0 => {
                let Plan { latency: found, labels, .. } = Plan::decoded(sheet.nodes.len(), &buffer[..answer.place as usize]);
                assert!(within.contains(&labels), "{sheet:?} {labels:?}");
                assert!(beyond.iter().all(|other| labels.iter().zip(other).all(|(a, b)| a <= b)), "{sheet:?} {labels:?}");
                assert_eq!(found, latency(&sheet, &labels), "{sheet:?} {labels:?}");
                assert_eq!(Some(found), beyond.iter().map(|other| latency(&sheet, other)).min(), "the least latency of {sheet:?}");
                below[usize::from(found > 0)] += u32::from(found < ends(&sheet, &labels));
                assert_eq!(least(&sheet), Ok(labels));
            }
            6 => assert!(beyond.is_empty() && cuts[answer.place as usize].is_empty(), "{sheet:?}"),
            7 => {
                assert!(within.is_empty(), "{sheet:?} {within:?}");
                assert_eq!(least(&sheet), Err((7, 0)));
                later += u32::from(!beyond.is_empty());
            }
            12 => {
                assert!(beyond.is_empty(), "{sheet:?} {beyond:?}");
                assert_eq!(least(&sheet), Err((12, 0)));
            }
            number => panic!("number {number} for {sheet:?}"),
        }
    }
    println!("sheets by number: {met:?}, refused 7 and legal within H + 2: {later}, a node ready after the latency: {below:?}");
    (met, later, below)
}

#[test]
fn labels_of_tiny_sheets_are_least_by_definition() {
    let (met, later, below) = compare_by_definition(SEED + 3, 6000, |random, round| {
        small(random, &Size { nodes: 4, top: 2, horizon: 2, latency: 2, wide: round % 3 == 0 })
    });
    assert!(met[0] > 1000 && met[6] > 50 && met[7] > 1000 && met[12] > 200 && later > 200);
    assert!(below[0] > 200 && below[1] > 5, "{below:?}");
}

#[test]
fn labels_of_tiny_sheets_with_memories_are_least_by_definition() {
    // Most of them have a memory with a q that another node reads.
    let mut read = 0;
    let (met, later, below) = compare_by_definition(SEED + 11, 4000, |random, _| {
        let sheet = memories(random, 4, 2, 3);
        let delivers = |u: &u32| sheet.nodes[*u as usize].clock_to_q > 0;
        read += u32::from(sheet.nodes.iter().any(|node| node.operands.iter().any(delivers)));
        sheet
    });
    println!("sheets with a reader of a memory with a q: {read}");
    assert!(met[0] > 1000 && met[7] > 1000 && met[12] > 100 && later > 500 && read > 1500, "{met:?}, {later}, {read}");
    assert!(below[0] > 200 && below[1] > 50, "{below:?}");
}

#[test]
fn labels_of_tiny_sheets_with_windows_are_least_by_definition() {
    // Half of them of mostly boxes.
    let (met, later, below) = compare_by_definition(SEED + 12, 5000, |random, round| match round % 2 {
        0 => slots(random, 3, 4),
        _ => {
            let whole = memories(random, 4, 2, 3);
            windowed(random, whole)
        }
    });
    assert!(met[0] > 1000 && met[7] > 1500 && met[12] > 5 && later > 500, "{met:?}, {later}");
    assert!(below[0] > 200 && below[1] > 50, "{below:?}");
}

/// The plan of a large sheet within a horizon, or the number of its refusal for time, whose place is 0.
fn within(sheet: &Sheet, horizon: u32) -> Result<Vec<u8>, u64> {
    let (answer, mut buffer) = planned(&spelled(&numbers(&Sheet { horizon, ..sheet.clone() })), 5000);
    if answer.number != 0 {
        assert!([7, 12].contains(&answer.number) && answer.place == 0, "{answer:?}");
        return Err(answer.number);
    }
    buffer.truncate(answer.place as usize);
    Ok(buffer)
}

/// Whether a large sheet is late under any horizon, where that can be told without a look at all cuts: it is if the conditions rise that are there
/// whatever cuts carry the tables, and it is not if each table can be carried by its own operands.
fn never(sheet: &Sheet) -> Option<bool> {
    let own = |node: &Node| {
        let mut leaves = if node.kind == 1 { node.operands.clone() } else { Vec::new() };
        leaves.sort();
        leaves.dedup();
        leaves
    };
    let operands: Vec<Vec<u32>> = sheet.nodes.iter().map(own).collect();
    if carried(sheet, &vec![&[][..]; operands.len()]).is_err() {
        return Some(true);
    }
    let fit = operands.iter().all(|leaves| leaves.len() <= sheet.leaves as usize);
    let chosen: Vec<&[u32]> = operands.iter().map(|leaves| &leaves[..]).collect();
    (fit && carried(sheet, &chosen).is_ok()).then_some(false)
}

/// Plans a large sheet, checks what is written and gives the number, and the plan where there is one.
fn large_plan(name: &str, sheet: &Sheet) -> (u64, Option<Plan>) {
    let bytes = spelled(&numbers(sheet));
    let (answer, buffer) = planned(&bytes, 5000);
    println!("{name}: {answer:?}");
    let decoded = |bytes: &[u8]| Plan::decoded(sheet.nodes.len(), bytes);
    let mut plan = None;
    match answer.number {
        0 => {
            let length = answer.place as usize;
            assert!(buffer[length..] == after(&[], 5000)[length..], "{name}: bytes after the plan");
            assert_eq!(planned(&bytes, length), (answer, buffer[..length].to_vec()));
            let short = Answer { number: 8, place: answer.place };
            assert_eq!(planned(&bytes, length - 1), (short, after(&[], length - 1)));
            assert_eq!(planned(&bytes, 0), (short, Vec::new()));
            let found = decoded(&buffer[..length]);
            found.check(sheet);
            // Least labels are those of every horizon from the step on by which they end, and there are none below it, also where outputs end before.
            let ends = ends(sheet, &found.labels);
            for horizon in [ends, H.1] {
                assert!(within(sheet, horizon).is_ok_and(|same| same == buffer[..length]), "{name}: within {horizon}");
            }
            for horizon in [0, found.latency, ends.saturating_sub(1)].into_iter().filter(|&horizon| horizon < ends) {
                assert_eq!(within(sheet, horizon), Err(7), "{name}: within {horizon}, and the labels end at {ends}");
            }
            plan = Some(found);
        }
        6 => {
            let node = &sheet.nodes[answer.place as usize];
            assert!(node.kind == 1 && node.operands.len() > sheet.leaves as usize, "{name}: {node:?}");
        }
        7 => {
            assert_eq!((answer.place, within(sheet, 0)), (0, Err(7)), "{name}");
            let late = |later: Vec<u8>| ends(sheet, &decoded(&later).labels) > sheet.horizon;
            assert!(within(sheet, H.1).map_or_else(|number| number == 7, late), "{name}: late within H");
        }
        12 => assert_eq!([0, sheet.horizon, 4_095, H.1].map(|horizon| within(sheet, horizon)), [const { Err(12) }; 4], "{name}"),
        number => panic!("{name}: number {number}"),
    }
    if answer.number != 0 {
        assert!(buffer == after(&[], 5000), "{name}: a refusal wrote");
        assert_eq!(planned(&bytes, 0), (answer, Vec::new()), "{name}: in no room");
    }
    let told = if answer.number == 6 { None } else { never(sheet) };
    assert!(told.is_none_or(|never| never == (answer.number == 12)), "{name}: {answer:?}, and never is {told:?}");
    (answer.number, plan)
}

/// The number alone.
fn large(name: &str, sheet: &Sheet) -> u64 {
    large_plan(name, sheet).0
}

#[test]
fn sheets_at_every_limit() {
    println!("seed {}", SEED + 4);
    let mut random = Random::new(SEED + 4);
    for far in [4_095, H.1].repeat(10) {
        let w = far as i32;
        let mut vary = |latency: u32, weight: &dyn Fn(u32) -> (u32, u32, i32)| Sheet { horizon: far, ..variant(&mut random, latency, weight) };
        // Past 4,095, and within the greatest H.
        let slow = large("lat 255 many times over", &vary(255, &|i| (i % 256, 255, -w)));
        assert_eq!(slow, if far == H.1 { 0 } else { 7 });
        assert_eq!(large("lat 1, least w", &vary(1, &|i| (i % 256, i / 4, -w))), 0);
        assert_eq!(large("lat 0, least w", &vary(0, &|i| (255 - i % 256, i % 256, -w))), 0);
        assert_eq!(large("greatest w from an input to the last node", &vary(0, &|_| (0, 255, w))), 0);
        assert_eq!(large("greatest w twice over", &vary(0, &|i| (i % 2 * 255, 255, w))), 12);
        assert_eq!(large("greatest w on the way twice over", &vary(0, &|i| if i % 2 == 0 { (0, 128, w) } else { (128, 255, w) })), 7);
        assert_eq!(large("greatest w and back", &vary(0, &|i| if i % 2 == 0 { (0, 255, w) } else { (255, 0, -w) })), 0);
        // Everything depends on input 0, so the last node is always as many steps after it as in the plan without differences.
        let still = vary(1, &|_| (0, 0, 0));
        let mut buffer = vec![0; 5000];
        let length = plan(&spelled(&numbers(&still)), &mut buffer).place as usize;
        let apart = Plan::decoded(still.nodes.len(), &buffer[..length]).labels[255].0 as i32;
        let ring = |weight: i32| Sheet { differences: vec![Difference { from: 255, to: 0, weight }; 1024], ..still.clone() };
        assert_eq!(large("a ring that holds", &ring(-apart)), 0);
        assert_eq!(large("a ring that gains a step a turn", &ring(1 - apart)), 12);
        large("the greatest", &Sheet { horizon: far, ..greatest(&mut random) });
    }
    assert_eq!(large("sixteen times lat 255", &chain(16, 4_095)), 0);
    assert_eq!(large("seventeen times lat 255", &chain(17, 4_095)), 7);
    // 127 times lat 255 after a first table that is so late that the last node is at the greatest step, or one past it.
    let late = |w: u32| {
        let mut sheet = chain(127, H.1);
        sheet.differences[0] = Difference { from: 0, to: 1, weight: w as i32 };
        sheet
    };
    let rest = H.1 - 127 * 255;
    assert_eq!(large("lat 255 up to the greatest H", &late(rest)), 0);
    assert_eq!(large("lat 255 past the greatest H", &late(rest + 1)), 7);
}

#[test]
fn the_header_says_what_no_plan_exceeds() {
    let leaves = fields(1, T.1).operands.1;
    let node = width(H.1) + width(T.1) + width(1) + width(leaves) + leaves as usize * width(N.1 - 2);
    assert_eq!(defined("MAPS_PLAN_MOST"), (width(H.1) + N.1 as usize * node) as u64);
    // Tables on six inputs each, with ids of two bytes where there are six such inputs; all but the first input are at the greatest step.
    let inputs: Vec<u32> = (0..6).chain(128..134).collect();
    let leaves_of = |own: u32| if own < 128 { &inputs[..6] } else { &inputs[6..] };
    let node = |own: u32| if inputs.contains(&own) { Node { output: true, ..input() } } else { table(true, leaves_of(own)) };
    let differences = inputs[1..].iter().map(|&to| Difference { from: 0, to, weight: W as i32 }).collect();
    let sheet = Sheet { leaves, top: T.0, horizon: H.1, nodes: (0..N.1).map(node).collect(), differences, ..Sheet::default() };
    let mut plan = vec![H.1];
    for own in 0..N.1 {
        let step = if own == 0 { 0 } else { H.1 };
        if inputs.contains(&own) {
            plan.extend([step, 0, 1, 0]);
        } else {
            plan.extend([step, 1, 1, 6]);
            plan.extend(leaves_of(own));
        }
    }
    let plan = spelled(&plan);
    assert_eq!(plan.len(), 3 + 4 + 11 * 6 + 122 * 12 + 122 * 18);
    assert!(within(&sheet, H.1) == Ok(plan), "the plan with the greatest steps");
    assert_eq!(large("the greatest steps", &sheet), 0);
}

#[test]
fn large_made_up_sheets() {
    println!("seed {}", SEED + 5);
    let mut random = Random::new(SEED + 5);
    let mut met = Met::default();
    // Plans by the bytes of their latency, and how many have a node that is ready after it.
    let (mut latencies, mut below) = ([0; 3], 0);
    // Sheets that were accepted and then pushed past every H, by number.
    let mut pushed = Met::default();
    for round in 0..400 {
        let mut sheet = made::large(&mut random, round);
        let (number, plan) = large_plan("made up", &sheet);
        met[number as usize] += 1;
        if let Some(plan) = plan {
            latencies[width(plan.latency) - 1] += 1;
            below += u32::from(plan.latency < ends(&sheet, &plan.labels));
            sheet.differences.truncate(1022);
            sheet.differences.extend([(0, 128), (128, 255)].map(|(from, to)| Difference { from, to, weight: W as i32 }));
            pushed[large("pushed", &sheet) as usize] += 1;
        }
    }
    println!("sheets by number: {met:?}, pushed: {pushed:?}, plans by their latency's bytes: {latencies:?}, a node ready after it: {below}");
    assert!([0, 6, 12].iter().all(|&number| met[number] > 20) && pushed[7] > 100 && pushed[12] > 20, "{met:?}, {pushed:?}");
    assert!(latencies[1] > 50 && latencies[2] > 50 && below > 50, "{latencies:?}, {below}");
}

/// Sheets that were made to be slow: a ring whose ids run in zigzag over operands that it pushes itself, tables with costly cuts, and a long chain of
/// rises that leads back through tables. Only the last has legal labels under any horizon.
#[test]
fn slow_sheets() {
    for (name, number) in [("zigzag", 12), ("costly-cuts", 12), ("rises", 0)] {
        let path = format!("{}/sheets/{name}.sheet", env!("CARGO_MANIFEST_DIR"));
        let sheet = maps_tests::reader::read(&std::fs::read(path).unwrap()).unwrap();
        assert_eq!(large(name, &sheet), number);
        // Whatever the horizon is.
        assert_eq!(large(name, &Sheet { horizon: H.1, ..sheet }), number);
    }
}

/// The hall sheet with other limits and differences.
fn hall(leaves: u32, top: u32, horizon: u32, differences: &[(u32, u32, i32)]) -> Vec<u8> {
    let mut nodes = vec![input(); 3];
    nodes.extend([table(false, &[0, 1]), table(false, &[3, 2]), table(true, &[4, 3])]);
    let differences = differences.iter().map(|&(from, to, weight)| Difference { from, to, weight }).collect();
    spelled(&numbers(&Sheet { leaves, top, horizon, nodes, differences, ..Sheet::default() }))
}

#[test]
fn the_cases_of_document_01() {
    // U6 of document 02 gives 12 to two of the cases.
    let (refused, never) = ("refused 7 0\n", "refused 12 0\n");
    let whole = "latency 1\n0 0 0 used\n1 0 0 used\n2 0 0 used\n3 0 1 used 0 1\n4 0 1 idle\n5 1 1 used 2 3\n";
    let spelling: Vec<u8> = [
        "0302040601000000000000000000000000000000000000010001000002000101000100000203020101",
        "0100000204030005020100",
    ]
    .concat()
    .as_bytes()
    .chunks(2)
    .map(|pair| u8::from_str_radix(std::str::from_utf8(pair).unwrap(), 16).unwrap())
    .collect();
    assert_eq!(spelling, hall(3, 2, 4, &[(0, 5, 1)]));
    assert_eq!(spelling.len(), 52);
    assert_eq!(planned(&spelling, 29), (
        Answer { number: 0, place: 29 },
        vec![1, 0, 0, 1, 0, 0, 0, 1, 0, 0, 0, 1, 0, 0, 1, 1, 2, 0, 1, 0, 1, 0, 0, 1, 1, 1, 2, 2, 3],
    ));
    assert_eq!(listing(&spelling), whole);
    assert_eq!(listing(&hall(3, 2, 1, &[(0, 5, 1)])), whole);
    assert_eq!(listing(&hall(3, 2, 0, &[(0, 5, 1)])), refused);
    assert!(listing(&hall(3, 2, 4, &[])).ends_with("5 0 1 used 0 1 2\n"));
    assert!(listing(&hall(2, 2, 4, &[])).ends_with("4 0 2 idle\n5 0 2 used 2 3\n"));
    let late = listing(&hall(2, 1, 4, &[]));
    assert!(late.contains("\n4 1 1 ") && late.contains("\n5 1 1 "), "{late}");
    assert_eq!(listing(&hall(3, 2, 4, &[(0, 5, 1), (5, 0, -1)])), whole);
    assert_eq!(listing(&hall(3, 2, 4, &[(0, 5, 1), (5, 0, 0)])), never);
    assert_eq!(listing(&hall(3, 2, 4, &[(0, 5, 1), (2, 2, 0)])), whole);
    assert_eq!(listing(&hall(3, 2, 4, &[(0, 5, 1), (2, 2, 1)])), never);

    let spell = |leaves, top, horizon, nodes| spelled(&numbers(&Sheet { leaves, top, horizon, nodes, ..Sheet::default() }));
    let one = |v| table(v, &[0]);
    let reconvergent = vec![input(), one(false), one(false), one(false), table(true, &[1, 2, 3])];
    assert!(listing(&spell(2, 1, 0, reconvergent)).ends_with("4 0 1 used 0\n"));
    assert_eq!(listing(&spell(2, 1, 0, vec![input(), input(), input(), table(true, &[0, 1, 2])])), "refused 6 3\n");
    let slow = |latency| Node { kind: 2, output: true, delay: 2, latency, clock_to_q: 0, operands: vec![0] };
    assert_eq!(listing(&spell(2, 2, 3, vec![input(), slow(3)])), "latency 3\n0 0 0 used\n1 0 2 used\n");
    assert_eq!(listing(&spell(2, 2, 2, vec![input(), slow(3)])), refused);
    assert!(listing(&spell(2, 2, 4, vec![input(), slow(0), table(true, &[1])])).ends_with("2 1 1 used 1\n"));
    let second = Node { kind: 2, output: true, delay: 2, operands: vec![1], ..input() };
    let first = Node { kind: 2, delay: 1, operands: vec![0], ..input() };
    assert!(listing(&spell(2, 2, 4, vec![input(), first, second])).ends_with("2 1 2 used\n"), "no surplus is carried over");

    assert_eq!(listing(&[0xff, 0x7f]), "refused 3 0\n");
    assert_eq!(listing(&[0x80, 0x00]), "refused 2 0\n");
    assert_eq!(listing(&[0x80]), "refused 1 1\n");
    assert_eq!(listing(&[]), "refused 1 0\n");
}

#[test]
fn the_cases_of_document_02() {
    // U2: numbers of three bytes.
    assert_eq!(listing(&[0x80, 0x80]), "refused 1 2\n");
    assert_eq!(listing(&[0x80, 0x80, 0x00]), "refused 2 0\n");
    assert_eq!(listing(&[0x80, 0x80, 0x80]), "refused 2 0\n");
    assert_eq!(listing(&[0x80, 0x80, 0x80, 0x01]), "refused 2 0\n");
    assert_eq!(listing(&[0x81, 0x80, 0x00]), "refused 2 0\n");
    assert_eq!(listing(&[0x80, 0x80, 0x01]), "refused 3 0\n");
    assert_eq!(listing(&[0xff, 0xff, 0x7f]), "refused 3 0\n");
    // U2: H and w.
    let whole = |step: u32| format!("latency {step}\n0 0 0 used\n1 0 0 used\n2 0 0 used\n3 0 1 used 0 1\n4 0 1 idle\n5 {step} 1 used 2 3\n");
    for step in [1, 127, 128, 4_095, 4_096, 16_383, 16_384, 65_534, 65_535] {
        let w = step as i32;
        assert_eq!(listing(&hall(3, 2, step, &[(0, 5, w)])), whole(step));
        assert_eq!(listing(&hall(3, 2, step - 1, &[(0, 5, w)])), "refused 7 0\n");
        assert_eq!(listing(&hall(3, 2, 65_535, &[(0, 5, w), (5, 0, -w)])), whole(step));
        assert_eq!(listing(&hall(3, 2, 65_535, &[(0, 5, w), (5, 0, 1 - w)])), "refused 12 0\n");
    }
    assert_eq!(listing(&hall(3, 2, 65_535, &[(0, 5, 1), (5, 0, -65_535)])), whole(1));
    assert_eq!(listing(&hall(3, 2, 65_536, &[(0, 5, 1)])), "refused 3 2\n");
    assert_eq!(listing(&hall(3, 2, 65_535, &[(0, 5, 65_536)])), "refused 3 51\n");
    assert_eq!(listing(&hall(3, 2, 4, &[(0, 5, -65_536)])), "refused 3 49\n");
}

/// K = 2, T = 4, H = 9: an input, a box with d = 0 on it that has this lat and q, and these nodes.
fn memory(latency: u32, clock_to_q: u32, nodes: &[Node]) -> Vec<u8> {
    let first = [input(), Node { kind: 2, latency, clock_to_q, operands: vec![0], ..input() }];
    spelled(&numbers(&Sheet { leaves: 2, top: 4, horizon: 9, nodes: [&first, nodes].concat(), ..Sheet::default() }))
}

/// A node that reads these.
fn reader_of(kind: u32, output: bool, delay: u32, operands: &[u32]) -> Node {
    Node { kind, output, delay, operands: operands.to_vec(), ..input() }
}

#[test]
fn memories_that_deliver_after_the_clock_edge() {
    // U5: the box with lat = 2 and q = 3 is (0, 0) and ready at (2, 3).
    let read_by = |nodes: &[Node]| listing(&memory(2, 3, nodes));
    assert_eq!(read_by(&[]), "latency 0\n0 0 0 used\n1 0 0 used\n");
    let table = |delay| reader_of(1, true, delay, &[1]);
    assert_eq!(read_by(&[table(1)]), "latency 2\n0 0 0 used\n1 0 0 used\n2 2 4 used 1\n");
    for delay in 2..=4 {
        assert_eq!(read_by(&[table(delay)]), format!("latency 3\n0 0 0 used\n1 0 0 used\n2 3 {delay} used 1\n"));
    }
    // A box that reads it likewise, and is there at level q also with d = 0.
    for (delay, label) in [(0, "2 3"), (1, "2 4"), (2, "3 2"), (3, "3 3"), (4, "3 4")] {
        let found = read_by(&[reader_of(2, true, delay, &[1])]);
        assert_eq!(found, format!("latency {}\n0 0 0 used\n1 0 0 used\n2 {label} used\n", &label[..1]));
    }
    // A table with d = 1 that hides one with d = 2: of the hidden one, which is (3, 2), its step alone is waited for.
    let hiding = read_by(&[reader_of(1, false, 2, &[1]), reader_of(1, true, 1, &[2])]);
    assert_eq!(hiding, "latency 3\n0 0 0 used\n1 0 0 used\n2 3 2 idle\n3 3 1 used 1\n");
    // A memory that reads the memory: (2, 3), ready at (4, 0) and read there at level 1, and not at level 4.
    let second = Node { latency: 2, ..reader_of(2, false, 0, &[1]) };
    assert_eq!(read_by(&[second, reader_of(1, true, 1, &[2])]), "latency 4\n0 0 0 used\n1 0 0 used\n2 2 3 used\n3 4 1 used 2\n");
}

#[test]
fn every_q_below_every_delay() {
    // A reader with delay d is at (2, q + d), or at (3, d) where that is past T.
    for top in [1, 2, 3, 4, 7, 63, 64] {
        for (q, delay) in (0..=top).flat_map(|q| (0..=top).map(move |delay| (q, delay))) {
            let (step, level) = if q + delay <= top { (2, q + delay) } else { (3, delay) };
            let memory = Node { kind: 2, latency: 2, clock_to_q: q, operands: vec![0], ..input() };
            for kind in [2, 1].into_iter().filter(|&kind| delay > 0 || kind == 2) {
                let nodes = vec![input(), memory.clone(), reader_of(kind, true, delay, &[1])];
                let sheet = Sheet { leaves: 2, top, horizon: 3, nodes, ..Sheet::default() };
                let leaves = if kind == 1 { " 1" } else { "" };
                let expected = format!("latency {step}\n0 0 0 used\n1 0 0 used\n2 {step} {level} used{leaves}\n");
                assert_eq!(listing(&spelled(&numbers(&sheet))), expected, "T = {top}, q = {q}, d = {delay}");
                // H = 2 is enough unless the reader is in step 3.
                let short = listing(&spelled(&numbers(&Sheet { horizon: 2, ..sheet })));
                assert_eq!(short, if step == 2 { expected } else { "refused 7 0\n".to_string() }, "T = {top}, q = {q}, d = {delay}");
            }
        }
    }
}

#[test]
fn q_enters_no_step() {
    // Differences, latency and horizon use steps: the memory is ready in step 2 whatever its q is.
    let sheet = |clock_to_q: u32, horizon: u32, differences: &[(u32, u32, i32)]| {
        let nodes = vec![input(), Node { kind: 2, output: true, latency: 2, clock_to_q, operands: vec![0], ..input() }, input()];
        let differences = differences.iter().map(|&(from, to, weight)| Difference { from, to, weight }).collect();
        spelled(&numbers(&Sheet { leaves: 2, top: 4, horizon, nodes, differences, ..Sheet::default() }))
    };
    for q in 0..=4 {
        assert_eq!(listing(&sheet(q, 2, &[])), "latency 2\n0 0 0 used\n1 0 0 used\n2 0 0 idle\n");
        assert_eq!(listing(&sheet(q, 1, &[])), "refused 7 0\n");
        // A difference looks at the label of the memory and not at its ready label, and moves no level.
        assert_eq!(listing(&sheet(q, 3, &[(1, 2, 1)])), "latency 2\n0 0 0 used\n1 0 0 used\n2 1 0 idle\n");
        assert_eq!(listing(&sheet(q, 3, &[(0, 1, 1)])), "latency 3\n0 0 0 used\n1 1 0 used\n2 0 0 idle\n");
        assert_eq!(listing(&sheet(q, 2, &[(0, 1, 1)])), "refused 7 0\n");
        assert_eq!(listing(&sheet(q, 2, &[(2, 1, 0), (1, 2, 0)])), "latency 2\n0 0 0 used\n1 0 0 used\n2 0 0 idle\n");
    }
    // A reader with lat reads at level q and is ready at its own q.
    let own = |q: u32| Node { latency: 1, clock_to_q: q, ..reader_of(2, true, 1, &[1]) };
    for q in 0..=4 {
        assert_eq!(listing(&memory(2, 3, &[own(q)])), "latency 3\n0 0 0 used\n1 0 0 used\n2 2 4 used\n");
        let (step, level) = if q < 4 { (3, q + 1) } else { (4, 1) };
        let found = listing(&memory(2, 3, &[own(q), reader_of(1, true, 1, &[2])]));
        assert!(found.ends_with(&format!("2 2 4 used\n3 {step} {level} used 2\n")), "{found}");
    }
}

#[test]
fn q_where_it_may_not_be() {
    // q of the box is at byte 15; T + 1 is too much, and with lat = 0 every q but 0.
    let reader = reader_of(1, true, 1, &[1]);
    let whole = memory(2, 4, &[reader.clone()]);
    assert_eq!(whole[15], 4);
    assert_eq!(listing(&whole), "latency 3\n0 0 0 used\n1 0 0 used\n2 3 1 used 1\n");
    for q in [5, 6, 64, 65, 127, 128, 255, 256, 16_384] {
        assert_eq!(listing(&memory(2, q, &[reader.clone()])), "refused 3 15\n");
    }
    for q in [1, 2, 4, 5, 64, 128] {
        assert_eq!(listing(&memory(0, q, &[reader.clone()])), "refused 3 15\n");
        // On a table, on an input, and on an input that is node 0.
        assert_eq!(listing(&memory(2, 3, &[Node { clock_to_q: q, ..reader.clone() }])), "refused 3 22\n");
        assert_eq!(listing(&memory(2, 3, &[Node { clock_to_q: q, ..input() }])), "refused 3 22\n");
        assert_eq!(listing(&spelled(&[2, 1, 0, 1, 0, 0, 0, 0, 0, q, 0, 1, 0])), "refused 3 9\n");
    }
    assert_eq!(listing(&memory(0, 0, &[reader])), "latency 0\n0 0 0 used\n1 0 0 used\n2 0 1 used 1\n");
    // Its spelling comes before its value, and the number may be missing.
    let all = [2, 1, 0, 1, 0, 0, 0, 0, 0, 0, 0, 1, 0];
    assert_eq!(listing(&respelled(&all, 9, &[0x80, 0])), "refused 2 9\n");
    assert_eq!(listing(&spelled(&all[..9])), "refused 1 9\n");
    // A sheet without q has its operand count in its place, and P in the place of that.
    assert_eq!(listing(&spelled(&[&all[..9], &all[10..]].concat())), "refused 3 10\n");
}

#[test]
fn sheets_with_memories() {
    println!("seed {}", SEED + 10);
    let mut random = Random::new(SEED + 10);
    let mut met = Met::default();
    // Plans with a q that is not 0: how many there are, how many differ from the plan with every q = 0, how many in a step, and how many sheets are
    // refused 7 and 12 with q and not without.
    let (mut with_q, mut moved, mut stepped, mut late, mut never) = (0, 0, 0, 0, 0);
    for _ in 0..30000 {
        let sheet = memories(&mut random, 11, 6, 24);
        let brute = compare(&spelled(&numbers(&sheet)), &mut met);
        let mut still = sheet.clone();
        still.nodes.iter_mut().for_each(|node| node.clock_to_q = 0);
        let without = planner::planned(&spelled(&numbers(&still)));
        match (brute, without) {
            (Ok(plan), Ok(other)) => {
                let [plan, other] = [plan, other].map(|plan| Plan::decoded(sheet.nodes.len(), &plan));
                // A memory that delivers later makes nothing earlier.
                assert!(plan.labels.iter().zip(&other.labels).all(|(label, other)| label >= other), "{sheet:?}");
                with_q += u32::from(sheet != still);
                moved += u32::from(plan.labels != other.labels);
                stepped += u32::from(plan.labels.iter().zip(&other.labels).any(|(label, other)| label.0 > other.0));
            }
            (Err((7, 0)), Ok(_)) => late += 1,
            (Err((12, 0)), Ok(_)) => never += 1,
            (Ok(_), Err(without)) => panic!("{without:?} with every q = 0: {sheet:?}"),
            _ => {}
        }
    }
    println!("calls by number: {met:?}, plans with q: {with_q}, labels moved by q: {moved}, steps: {stepped}, late: {late}, never: {never}");
    assert!([0, 6, 7, 8, 12].iter().all(|&number| met[number] > 1000), "{met:?}");
    assert!(with_q > 5000 && moved > 4000 && stepped > 3000 && late > 300 && never > 100);
}
