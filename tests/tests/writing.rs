//! The sheet writer against the independent one: number, place and every byte of the buffer, on made-up records, on records with each number of their
//! sheet made wrong, and on rows of any numbers; and both round trips between records and sheets.
#![cfg(planner)]
use maps_tests::buffer::{after, lent};
use maps_tests::header::defined;
use maps_tests::library::{read, write, Answer, Tables};
use maps_tests::limits::{clock_to_q, fields, width, window_from, window_to, Range, CODE, H, K, KIND, M, MARK, N, NUMBER, P, SIZES, T, W};
use maps_tests::made::{self, chain, code, damaged, drift, greatest, greatest_with, long, memories, ring, sheet, slots, small, spelled, stairs};
use maps_tests::made::{variant, windows, Size};
use maps_tests::random::Random;
use maps_tests::reader::{self, Difference, Sheet, Window};
use maps_tests::writer::{outcome, Node, Records, Rows};

const SEED: u64 = 20260106;

/// A room that no sheet exceeds.
const AMPLE: usize = 13_000;

/// Compares the library with the independent writer in one room, and gives number and place.
fn compare_in(rows: &Rows, room: usize) -> (u64, u64) {
    let (number, place, sheet) = outcome(&rows.records(), room);
    let (answer, buffer) = lent(room, |buffer| write(rows, buffer));
    assert_eq!(answer, Answer { number, place }, "{rows:?} in {room}");
    assert!(buffer == after(&sheet.unwrap_or_default(), room), "buffer of {rows:?} in {room}: {buffer:?}");
    (number, place)
}

/// Compares in several rooms and counts the numbers met: ample, none and, for accepted records, exact, one more, one short and some shorter one.
fn compare(random: &mut Random, rows: &Rows, met: &mut [u32; 9]) {
    let (number, place) = compare_in(rows, AMPLE);
    met[number as usize] += 1;
    met[compare_in(rows, 0).0 as usize] += 1;
    if number == 0 {
        let length = place as usize;
        let short = random.within(0, length as u32 - 1) as usize;
        for (room, expected) in [(length, 0), (length + 1, 0), (length - 1, 8), (short, 8)] {
            assert_eq!(compare_in(rows, room), (expected, place));
            met[expected as usize] += 1;
        }
    }
}

/// Compares on as many rows as `rounds`, which `rows` makes from the seed and the round, and counts the numbers met.
fn compare_all(seed: u64, rounds: u32, mut rows: impl FnMut(&mut Random, u32) -> Rows) -> [u32; 9] {
    println!("seed {seed}");
    let mut random = Random::new(seed);
    let mut met = [0; 9];
    for round in 0..rounds {
        let rows = rows(&mut random, round);
        compare(&mut random, &rows, &mut met);
    }
    println!("calls by number: {met:?}");
    met
}

/// A number of a sheet, by what it belongs to.
#[derive(Clone, Copy, Debug)]
enum Number {
    /// K, T or H.
    Header(usize),
    Nodes,
    Differences,
    /// Kind, mark, d, lat or q of a node.
    Field(usize, usize),
    Operands(usize),
    Operand(usize, usize),
    /// u or v of a difference.
    End(usize, usize),
    Weight(usize),
    Period,
    Windows,
    /// Id, from or to of a window.
    Window(usize, usize),
}

/// The numbers of the sheet of these records, in its order: the index of each is the place of its refusal.
fn all_numbers(records: &Records) -> Vec<Number> {
    let mut all: Vec<Number> = (0..3).map(Number::Header).chain([Number::Nodes, Number::Differences]).collect();
    for (v, node) in records.nodes.iter().enumerate() {
        all.extend((0..5).map(|field| Number::Field(v, field)));
        all.push(Number::Operands(v));
        all.extend((0..node.operands.len()).map(|i| Number::Operand(v, i)));
    }
    for i in 0..records.differences.len() {
        all.extend([Number::End(i, 0), Number::End(i, 1), Number::Weight(i)]);
    }
    all.extend([Number::Period, Number::Windows]);
    all.extend((0..records.windows.len()).flat_map(|i| (0..3).map(move |field| Number::Window(i, field))));
    all
}

impl Number {
    /// Its value; of w the bits.
    fn of(self, records: &Records) -> u32 {
        match self {
            Number::Header(field) => [records.leaves, records.top, records.horizon][field],
            Number::Nodes => records.nodes.len() as u32,
            Number::Differences => records.differences.len() as u32,
            Number::Field(v, field) => {
                let node = &records.nodes[v];
                [node.kind, node.output, node.delay, node.latency, node.clock_to_q][field]
            }
            Number::Operands(v) => records.nodes[v].operands.len() as u32,
            Number::Operand(v, i) => records.nodes[v].operands[i],
            Number::End(i, end) => [records.differences[i].from, records.differences[i].to][end],
            Number::Weight(i) => records.differences[i].weight as u32,
            Number::Period => records.period,
            Number::Windows => records.windows.len() as u32,
            Number::Window(i, field) => {
                let window = &records.windows[i];
                [window.id, window.from, window.to][field]
            }
        }
    }

    /// Gives it a value. A count becomes that of what is given, at most `MANY`.
    fn set(self, records: &mut Records, value: u32) {
        let count = value.min(MANY) as usize;
        match self {
            Number::Header(field) => *[&mut records.leaves, &mut records.top, &mut records.horizon][field] = value,
            Number::Nodes => records.nodes.resize(count, Node::from(&made::input())),
            Number::Differences => records.differences.resize(count, Difference { from: 0, to: 0, weight: 0 }),
            Number::Field(v, field) => {
                let node = &mut records.nodes[v];
                *[&mut node.kind, &mut node.output, &mut node.delay, &mut node.latency, &mut node.clock_to_q][field] = value;
            }
            Number::Operands(v) => records.nodes[v].operands.resize(count, 0),
            Number::Operand(v, i) => records.nodes[v].operands[i] = value,
            Number::End(i, 0) => records.differences[i].from = value,
            Number::End(i, _) => records.differences[i].to = value,
            Number::Weight(i) => records.differences[i].weight = value as i32,
            Number::Period => records.period = value,
            Number::Windows => records.windows.resize(count, Window { id: 0, from: 0, to: 1 }),
            Number::Window(i, field) => {
                let window = &mut records.windows[i];
                *[&mut window.id, &mut window.from, &mut window.to][field] = value;
            }
        }
    }

    /// The values that it may have in these records, and the ground where it has another; none for an operand of node 0, for w and for the id of a
    /// window.
    fn range(self, records: &Records) -> (Option<Range>, u64) {
        let ids = (0, records.nodes.len() as u32 - 1);
        match self {
            Number::Header(field) => (Some([K, T, H][field]), 3),
            Number::Nodes => (Some(N), 3),
            Number::Differences => (Some(M), 3),
            Number::Field(v, field) => {
                let Node { kind, latency, .. } = records.nodes[v];
                let fields = fields(kind, records.top);
                (Some([KIND, MARK, fields.delay, fields.latency, clock_to_q(kind, latency, records.top)][field]), 3)
            }
            Number::Operands(v) => (Some(fields(records.nodes[v].kind, records.top).operands), 3),
            Number::Operand(v, _) => (v.checked_sub(1).map(|most| (0, most as u32)), 4),
            Number::End(..) => (Some(ids), 3),
            Number::Weight(_) | Number::Window(_, 0) => (None, 3),
            Number::Period => (Some(P), 3),
            Number::Windows => (Some((0, records.nodes.len() as u32)), 3),
            Number::Window(_, 1) => (Some(window_from(records.period)), 3),
            Number::Window(i, _) => (Some(window_to(records.windows[i].from, records.period)), 3),
        }
    }

    /// Whether a window may have an id: that of a box, above that of the window before.
    fn may_stand(records: &Records, window: usize, id: u32) -> bool {
        let above = window == 0 || id > records.windows[window - 1].id;
        above && records.nodes.get(id as usize).is_some_and(|node| node.kind == 2)
    }

    /// Values that it may not have: next to its range, next to what has a spelling, such as are right in their low bits, and the greatest.
    fn wrong(self, records: &Records) -> Vec<u32> {
        let (range, right) = (self.range(records).0, self.of(records));
        let (low, high) = range.unwrap_or((0, 0));
        let mut values = vec![low.wrapping_sub(1), high + 1, NUMBER, NUMBER + 1, u32::MAX - 1, u32::MAX];
        values.extend(SIZES.iter().flat_map(|size| [size.0, size.1]));
        values.extend([8, 14, 16, 17, 21, 24, 31].map(|bit| right.wrapping_add(1 << bit)));
        if let Number::Weight(_) = self {
            let beyond = W as i32 + 1;
            values.extend([beyond, -beyond, 2 * beyond, -2 * beyond, i32::MAX, i32::MIN, i32::MIN + 1].map(|w| w as u32));
            values.extend([14, 16, 17, 21, 24].map(|bit| right.wrapping_sub(1 << bit)));
        }
        if let Number::Window(..) = self {
            values.extend(0..=records.nodes.len() as u32);
        }
        values.retain(|&value| match (self, range) {
            (Number::Weight(_), _) => (value as i32).unsigned_abs() > W,
            (Number::Window(i, 0), _) => !Number::may_stand(records, i, value),
            (_, Some((low, high))) => value < low || value > high,
            (_, None) => true,
        });
        values
    }
}

/// The most nodes, differences, windows or operands of a node that are given here.
const MANY: u32 = 3_000;

/// Any value: near the right one, small, about the size of two bytes, of any with a spelling, of w, right but for one bit, or any at all.
fn any_value(random: &mut Random, right: u32) -> u32 {
    match random.within(0, 8) {
        0 => right.wrapping_add(1),
        1 => right.wrapping_sub(1),
        2 => random.within(0, 8),
        3 => random.within(0, 300),
        4 => random.within(0, 2 * SIZES[1].1),
        5 => random.within(0, 2 * NUMBER),
        6 => random.within(0, 4 * W).wrapping_sub(2 * W),
        7 => right ^ 1 << random.within(0, 31),
        _ => random.next() as u32,
    }
}

/// Changes one number of the records to any value. There is always one: K.
fn change(random: &mut Random, records: &mut Records) {
    let all = all_numbers(records);
    let number = all[random.within(0, all.len() as u32 - 1) as usize];
    let value = any_value(random, number.of(records));
    number.set(records, value);
}

#[test]
fn made_up_records() {
    // How many have an H of one, two and three bytes, and how many a w; and how many have no window, one, and more.
    let (mut horizons, mut weights, mut windows) = ([0; 3], [0; 3], [0; 3]);
    let met = compare_all(SEED, 4000, |random, round| {
        let most = if round % 20 == 0 { 256 } else { 12 };
        let sheet = sheet(random, most);
        horizons[width(sheet.horizon) - 1] += 1;
        let has = |bytes: usize| sheet.differences.iter().any(|d| width(code(d.weight)) == bytes);
        (1..=3).for_each(|bytes| weights[bytes - 1] += u32::from(has(bytes)));
        windows[sheet.windows.len().min(2)] += 1;
        Rows::from(&Records::from(&sheet))
    });
    assert_eq!(met, [3 * 4000, 0, 0, 0, 0, 0, 0, 0, 3 * 4000]);
    println!("by bytes: H {horizons:?}, w {weights:?}; by windows: {windows:?}");
    assert!(horizons.iter().chain(&weights).all(|&count| count > 1000), "{horizons:?} {weights:?}");
    assert!(windows.iter().all(|&count| count > 300), "{windows:?}");
}

#[test]
fn changed_records() {
    let met = compare_all(SEED + 1, 20000, |random, round| {
        let most = if round % 100 == 0 { 256 } else { 8 };
        let mut records = Records::from(&sheet(random, most));
        for _ in 0..random.within(1, 3) {
            change(random, &mut records);
        }
        Rows::from(&records)
    });
    assert!([0, 3, 4, 8].iter().all(|&number| met[number] > 1000), "{met:?}");
}

/// Makes the number at an index wrong in every way: each is refused there with the number's own ground. Counts the ways.
fn every_wrong_value(records: &Records, index: usize, number: Number, met: &mut [u32; 9]) {
    let ground = number.range(records).1;
    for value in number.wrong(records) {
        let mut records = records.clone();
        number.set(&mut records, value);
        let rows = Rows::from(&records);
        for room in [100, 0] {
            assert_eq!(compare_in(&rows, room), (ground, index as u64), "{number:?} = {value} in {records:?}");
        }
        met[ground as usize] += 1;
    }
}

#[test]
fn every_number_made_wrong() {
    println!("seed {}", SEED + 2);
    let mut random = Random::new(SEED + 2);
    let mut met = [0; 9];
    for round in 0..200 {
        let records = Records::from(&sheet(&mut random, 1 + round % 10));
        for (index, number) in all_numbers(&records).into_iter().enumerate() {
            every_wrong_value(&records, index, number, &mut met);
        }
    }
    for (nodes, step) in [(130, 23), (256, 41)] {
        let mut records = Records::from(&greatest_with(&mut random, |random| (random.within(0, 30), random.within(31, 64))));
        records.nodes.truncate(nodes);
        records.differences = vec![Difference { from: 0, to: nodes as u32 - 1, weight: -1 }; M.1 as usize];
        records.windows.retain(|window| (window.id as usize) < nodes);
        // The header, the last node, the first and the last difference, P, the first and the last window, and some between them.
        let all = all_numbers(&records);
        let period = all.len() - 2 - 3 * records.windows.len();
        let first_difference = period - 3 * records.differences.len();
        let last_node = first_difference - 6 - records.nodes[nodes - 1].operands.len();
        let ends = [last_node..first_difference + 3, period - 3..period + 5, all.len() - 3..all.len()];
        let always = |index: usize| index < 5 || ends.iter().any(|range| range.contains(&index));
        for (index, &number) in all.iter().enumerate().filter(|&(index, _)| always(index) || index % step == 0) {
            every_wrong_value(&records, index, number, &mut met);
        }
    }
    println!("wrong values by ground: {met:?}");
    assert!(met[3] > 50_000 && met[4] > 10_000, "{met:?}");
}

#[test]
fn the_first_q_is_number_9() {
    let answer = |kind: u32, latency: u32, clock_to_q: u32, operands: usize| {
        let node = Node { kind, output: 0, delay: kind & 1, latency, clock_to_q, operands: vec![0; operands] };
        let records = Records { leaves: K.0, top: 4, horizon: H.0, nodes: vec![node], ..Records::default() };
        compare_in(&Rows::from(&records), 100)
    };
    for q in [1, 4, 5, 64, 65, 127, 128, NUMBER, NUMBER + 1, u32::MAX] {
        // An input, a table, a box without a latency: before the count, which is number 10, and before the operands.
        for (kind, operands) in [(0, 0), (0, 1), (1, 0), (1, 1), (2, 0), (2, 1), (2, 7)] {
            assert_eq!(answer(kind, 0, q, operands), (3, 9), "q = {q} on kind {kind}");
        }
        for latency in [1, 2, 127, 128, 255] {
            let length = 13 + u64::from(latency > 127);
            assert_eq!(answer(2, latency, q, 0), if q > 4 { (3, 9) } else { (0, length) }, "q = {q} with lat = {latency}");
            assert_eq!(answer(2, latency, q, 7), if q > 4 { (3, 9) } else { (3, 10) }, "q = {q} with lat = {latency}");
        }
        assert_eq!(answer(2, 256, q, 0), (3, 8));
    }
    assert_eq!(answer(0, 0, 0, 1), (3, 10));
    assert_eq!(answer(2, 0, 0, 1), (4, 11));
}

/// Two boxes and an input, a difference, and these windows: P is number 26, the count number 27, and the windows begin at number 28.
fn two_boxes(period: u32, triples: &[(u32, u32, u32)]) -> (u64, u64) {
    let [input, slow] = [made::input(), made::boxed(0, 0, 0, &[])].map(|node| Node::from(&node));
    let nodes = vec![slow.clone(), input, slow];
    let differences = vec![Difference { from: 0, to: 2, weight: 1 }];
    let records = Records { nodes, differences, period, windows: windows(triples), ..Records::default() };
    assert_eq!(all_numbers(&records).len(), 28 + 3 * triples.len());
    compare_in(&Rows::from(&records), 100)
}

#[test]
fn places_of_the_windows() {
    // 28 numbers of one byte, and three more for each window.
    assert_eq!(two_boxes(1, &[]), (0, 28));
    assert_eq!(two_boxes(64, &[]), (0, 28));
    assert_eq!(two_boxes(8, &[(2, 2, 4)]), (0, 31));
    assert_eq!(two_boxes(8, &[(0, 0, 8), (2, 7, 8)]), (0, 34));
    // P, also without windows, and before the count.
    for period in [0, 65, 127, 128, NUMBER, NUMBER + 1, u32::MAX] {
        for triples in [&[][..], &[(2, 0, 1)], &[(9, 9, 0); 4]] {
            assert_eq!(two_boxes(period, triples), (3, 26), "P = {period}");
        }
    }
    // As many windows as nodes are not too many, which is seen at the third, that is no box; one more is.
    assert_eq!(two_boxes(8, &[(0, 0, 1), (2, 0, 1), (3, 0, 1)]), (3, 34));
    for count in [4, 5, 256, 65_536, 65_539] {
        assert_eq!(two_boxes(8, &vec![(9, 9, 0); count]), (3, 27), "{count} windows");
    }
    // The id, whatever from and to are: no box, no node, not above the one before.
    for (from, to) in [(0, 8), (2, 2), (8, 9), (u32::MAX, u32::MAX)] {
        for id in [1, 3, 4, 255, 256, 258, 65_538, u32::MAX] {
            assert_eq!(two_boxes(8, &[(id, from, to)]), (3, 28), "id {id}");
            assert_eq!(two_boxes(8, &[(0, 7, 8), (id, from, to)]), (3, 31), "id {id}");
        }
        for (first, second) in [(0, 0), (2, 2), (2, 0)] {
            assert_eq!(two_boxes(8, &[(first, 0, 1), (second, from, to)]), (3, 31), "{first} and {second}");
        }
    }
    // Then from, whatever to is; then to.
    for from in [8, 9, 64, 255, 256, 258, u32::MAX] {
        for to in [0, 8, 9, u32::MAX] {
            assert_eq!(two_boxes(8, &[(2, from, to)]), (3, 29), "from {from}");
        }
    }
    for (from, to) in [(0, 0), (2, 0), (2, 1), (2, 2), (7, 7), (0, 9), (7, 9), (0, 255), (0, 256), (2, 259), (0, u32::MAX)] {
        assert_eq!(two_boxes(8, &[(2, from, to)]), (3, 30), "from {from} to {to}");
        assert_eq!(two_boxes(8, &[(0, 7, 8), (2, from, to)]), (3, 33), "from {from} to {to}");
    }
}

#[test]
fn operands_of_node_0_are_refused() {
    for kind in [1, 2] {
        for id in [0, 1, NUMBER, u32::MAX] {
            for count in 1..=6 {
                let node = Node { kind, output: 0, delay: 1, latency: 0, clock_to_q: 0, operands: vec![id; count] };
                let records = Records { leaves: K.0, top: T.0, horizon: H.0, nodes: vec![node], ..Records::default() };
                assert_eq!(compare_in(&Rows::from(&records), 100), (4, 11));
            }
        }
    }
}

#[test]
fn the_first_of_two_wrong_numbers_decides() {
    println!("seed {}", SEED + 3);
    let mut random = Random::new(SEED + 3);
    let mut met = [0; 9];
    for _ in 0..30000 {
        let mut records = Records::from(&sheet(&mut random, 6));
        let all = all_numbers(&records);
        let second = random.within(1, all.len() as u32 - 1);
        let first = random.within(0, second - 1);
        let ground = all[first as usize].range(&records).1;
        let values = [first, second].map(|index| {
            let wrong = all[index as usize].wrong(&records);
            wrong[random.within(0, wrong.len() as u32 - 1) as usize]
        });
        // The second first: a count that changes moves what comes after it.
        all[second as usize].set(&mut records, values[1]);
        all[first as usize].set(&mut records, values[0]);
        assert_eq!(compare_in(&Rows::from(&records), 200), (ground, u64::from(first)), "{first} and {second} of {records:?}");
        met[ground as usize] += 1;
    }
    println!("calls by number: {met:?}");
    assert!(met[3] > 1000 && met[4] > 1000, "{met:?}");
}

#[test]
fn more_than_a_sheet_holds() {
    let node = |operands: usize| Node { kind: 2, output: 0, delay: 0, latency: 0, clock_to_q: 0, operands: vec![0; operands] };
    let difference = Difference { from: 0, to: 0, weight: 0 };
    let records = |n: usize, operands: usize, m: usize| {
        let nodes = (0..n).map(|own| node(if own == 1 { operands } else { 0 })).collect();
        Rows::from(&Records { leaves: K.0, top: T.0, horizon: H.0, nodes, differences: vec![difference.clone(); m], ..Records::default() })
    };
    let (most, many) = (N.1 as usize, M.1 as usize);
    assert_eq!(compare_in(&records(most, 6, many), 10 * AMPLE).0, 0);
    // Counts that are right in their low 8 or 16 bits, too.
    for n in [most + 1, most + 2, 2 * most, 65_536, 65_538] {
        for (operands, m) in [(0, 0), (6, many), (7, many + 1)] {
            assert_eq!(compare_in(&records(n, operands, m), 10 * AMPLE), (3, 3), "{n} nodes");
        }
    }
    for m in [many + 1, 2 * many, 65_536, 65_537] {
        assert_eq!(compare_in(&records(0, 0, m), 10 * AMPLE), (3, 3), "{m} differences and no node");
        assert_eq!(compare_in(&records(most, 7, m), 10 * AMPLE), (3, 4), "{m} differences");
    }
    for operands in [7, 8, 256, 258, 65_536, 65_538] {
        assert_eq!(compare_in(&records(2, operands, 1), 10 * AMPLE), (3, 16), "{operands} operands");
    }
}

/// Rows of up to eight nodes whose ends of operands rise, fall and lie past the array, with or without incomplete rows.
fn any_ends(random: &mut Random) -> Rows {
    let n = random.within(1, 8);
    let operands: Vec<u32> = (0..random.within(0, 14)).map(|_| if random.once_in(12) { random.within(0, 8) } else { random.within(0, 1) }).collect();
    let length = operands.len() as u32;
    let (mut nodes, mut start) = (Vec::new(), 0u32);
    for own in 0..n {
        let kind = if own < 2 { 0 } else if random.once_in(10) { random.within(0, 2) } else { 2 };
        let end = match random.within(0, 9) {
            _ if own < 2 => random.within(0, 13) / 13,
            0 => 0,
            1 => random.within(0, length),
            2 => length + random.within(0, 5),
            3 => random.next() as u32,
            4 => start.saturating_sub(random.within(0, 3)),
            5 => u32::MAX - random.within(0, 1),
            _ => start.saturating_add(random.within(0, 4)),
        };
        // A box may have a latency and then a q of 0 or 1; elsewhere q is 0, or seldom wrong.
        let latency = if kind == 2 { random.within(0, 1) } else { 0 };
        let clock_to_q = if latency == 1 { random.within(0, 1) } else { random.within(0, 40) / 40 };
        nodes.extend([kind, random.within(0, 1), 1 & kind, latency, end, clock_to_q]);
        start = end;
    }
    let mut differences: Vec<u32> = (0..random.within(0, 2)).flat_map(|_| [random.within(0, n - 1), 0, random.within(0, 3)]).collect();
    nodes.extend((0..random.within(0, 5)).map(|_| random.within(0, 9)));
    differences.extend((0..random.within(0, 2)).map(|_| random.within(0, 9)));
    // Windows of boxes, seldom of another node, with or without an incomplete row.
    let period = random.within(1, 3);
    let mut windows: Vec<u32> = (2..n).filter(|_| random.once_in(3)).flat_map(|id| [id, 0, period]).collect();
    windows.extend((0..random.within(0, 2)).map(|_| random.within(0, 9)));
    Rows { leaves: 2, top: 1, horizon: random.within(0, 200), nodes, operands, differences, period, windows }
}

#[test]
fn rows_with_any_ends() {
    let (mut falling, mut past) = (0, 0);
    let met = compare_all(SEED + 4, 20000, |random, _| {
        let rows = any_ends(random);
        let ends: Vec<u32> = rows.nodes.chunks_exact(6).map(|row| row[4]).collect();
        falling += u32::from(ends.windows(2).any(|pair| pair[1] < pair[0]));
        past += u32::from(ends.iter().any(|&end| end as usize > rows.operands.len()));
        rows
    });
    println!("{falling} with an end that falls, {past} with one past the array");
    assert!([0, 3, 4, 8].iter().all(|&number| met[number] > 1000) && falling > 5000 && past > 5000, "{met:?}");
}

#[test]
fn rows_of_any_numbers() {
    let met = compare_all(SEED + 5, 30000, |random, _| {
        let any = |random: &mut Random, most: u32| -> Vec<u32> {
            (0..random.within(0, most)).map(|_| if random.once_in(20) { random.next() as u32 } else { random.within(0, 9) / 7 }).collect()
        };
        let (nodes, operands, differences, windows) = (any(random, 24), any(random, 8), any(random, 9), any(random, 5));
        let (leaves, top, horizon, period) = (random.within(2, 6), random.within(1, 3), random.within(0, 300), random.within(1, 3));
        Rows { leaves, top, horizon, nodes, operands, differences, period, windows }
    });
    assert!([0, 3, 4, 8].iter().all(|&number| met[number] > 400), "{met:?}");
}

/// The rows of a sheet as the library read it; the header, P and how many nodes and differences there are come from the independent reader.
fn rows_of(tables: &Tables, sheet: &Sheet) -> Rows {
    let (mut nodes, mut operands) = (Vec::new(), Vec::new());
    for row in tables.graph.chunks(16).take(sheet.nodes.len()) {
        operands.extend(&row[6..6 + row[5] as usize]);
        nodes.extend(&row[..4]);
        nodes.extend([operands.len() as u32, row[4]]);
    }
    let differences = tables.differences.chunks(4).take(sheet.differences.len()).flat_map(|row| [row[0], row[1], row[2].wrapping_sub(row[3])]);
    let differences = differences.collect();
    // A node without a window has 0 as its `to`.
    let windows = (0..).zip(tables.graph.chunks(16)).filter(|(_, row)| row[13] > 0).flat_map(|(id, row)| [id, row[12], row[13]]).collect();
    let Sheet { leaves, top, horizon, period, .. } = *sheet;
    Rows { leaves, top, horizon, nodes, operands, differences, period, windows }
}

/// What was written reads back to the records, by both readers; a sheet that reads is written again byte for byte from what each of them read. True
/// if these bytes read.
fn there_and_back(bytes: &[u8]) -> bool {
    let mut tables = Tables::filled_with(0xdead_beef);
    let Ok(sheet) = reader::read(bytes) else {
        assert!((1..=5).contains(&read(bytes, &mut tables).number), "{bytes:?}");
        return false;
    };
    let records = Records::from(&sheet);
    let accepted = Answer { number: 0, place: bytes.len() as u64 };
    let (answer, written) = lent(bytes.len(), |buffer| write(&Rows::from(&records), buffer));
    assert_eq!(answer, accepted, "{sheet:?}");
    assert!(written == bytes, "{sheet:?} gives {written:?} and not {bytes:?}");
    assert!(reader::read(&written).as_ref().map(Records::from) == Ok(records), "records of {written:?}");
    assert_eq!(read(&written, &mut tables), Answer { number: 0, place: 0 }, "{written:?}");
    assert!(tables == Tables::of(&sheet), "tables of {written:?}");
    assert_eq!(lent(bytes.len(), |buffer| write(&rows_of(&tables, &sheet), buffer)), (accepted, written), "{sheet:?}");
    true
}

#[test]
fn sheets_there_and_back() {
    println!("seed {}", SEED + 6);
    let mut random = Random::new(SEED + 6);
    for round in 0..10000 {
        let sheet = match round % 10 {
            8 => slots(&mut random, 12, H.1),
            9 => drift(&mut random, 1 + round as u32 % 100, H.1),
            0 => stairs(&mut random),
            1 => ring(&mut random, 11, true),
            2 => small(&mut random, &Size { nodes: 12, top: 64, horizon: H.1, latency: 255, wide: false }),
            3 => small(&mut random, &Size { nodes: 9, top: 3, horizon: 40, latency: 30, wide: true }),
            4 => long(&mut random),
            5 => memories(&mut random, 11, 64, H.1),
            _ => sheet(&mut random, if round % 100 == 6 { 256 } else { 12 }),
        };
        assert!(there_and_back(&spelled(&made::numbers(&sheet))), "{sheet:?} reads");
    }
    for round in 0..40 {
        let w = |i: u32| (255 - i % 256, i % 256, (i * 2 * W / (M.1 - 1)) as i32 - W as i32);
        let chain = chain(round as u32, [4_095, H.1][round % 2]);
        let windowed = greatest_with(&mut random, |random| (random.within(0, 63), 64));
        for sheet in [made::large(&mut random, round), greatest(&mut random), windowed, variant(&mut random, 127 + round as u32, w), chain] {
            assert!(there_and_back(&spelled(&made::numbers(&sheet))), "{sheet:?} reads");
        }
    }
    for name in ["zigzag", "costly-cuts", "rises"] {
        let path = format!("{}/sheets/{name}.sheet", env!("CARGO_MANIFEST_DIR"));
        assert!(there_and_back(&std::fs::read(path).expect("the sheet")), "{name} reads");
    }
}

#[test]
fn damaged_sheets_there_and_back() {
    println!("seed {}", SEED + 7);
    let mut random = Random::new(SEED + 7);
    let mut met = [0, 0];
    for round in 0..45000 {
        let whole = match round % 3 {
            0 => sheet(&mut random, 8),
            1 => slots(&mut random, 6, 40),
            _ => stairs(&mut random),
        };
        met[usize::from(there_and_back(&damaged(&mut random, &whole)))] += 1;
    }
    println!("refused and read: {met:?}");
    assert!(met.iter().all(|&count| count > 3000), "{met:?}");
}

#[test]
fn every_weight_and_every_horizon() {
    let mut tables = Tables::filled_with(0);
    for w in -(W as i32)..=W as i32 {
        let differences = vec![Difference { from: 1, to: 0, weight: w }];
        let sheet = Sheet { leaves: K.0, top: T.0, horizon: w.unsigned_abs(), nodes: vec![made::input(); 2], differences, ..Sheet::default() };
        let (answer, written) = lent(40, |buffer| write(&Rows::from(&Records::from(&sheet)), buffer));
        let bytes = &written[..answer.place as usize];
        assert_eq!((answer.number, reader::read(bytes)), (0, Ok(sheet)), "w = {w}");
        assert_eq!(read(bytes, &mut tables).number, 0);
        assert_eq!(tables.differences[2].wrapping_sub(tables.differences[3]) as i32, w);
    }
}

#[test]
fn lengths_at_each_count_of_bytes() {
    // H and the code of w at the ends of one, two and three bytes, with their bytes.
    let horizons: [(u32, &[u8]); 8] = [
        (0, &[0]),
        (127, &[0x7f]),
        (128, &[0x80, 0x01]),
        (4_095, &[0xff, 0x1f]),
        (4_096, &[0x80, 0x20]),
        (16_383, &[0xff, 0x7f]),
        (16_384, &[0x80, 0x80, 0x01]),
        (65_535, &[0xff, 0xff, 0x03]),
    ];
    let weights: [(i32, &[u8]); 11] = [
        (0, &[0]),
        (-1, &[1]),
        (-64, &[0x7f]),
        (64, &[0x80, 0x01]),
        (4_095, &[0xfe, 0x3f]),
        (-4_096, &[0xff, 0x3f]),
        (-8_192, &[0xff, 0x7f]),
        (8_192, &[0x80, 0x80, 0x01]),
        (-8_193, &[0x81, 0x80, 0x01]),
        (-65_535, &[0xfd, 0xff, 0x07]),
        (65_535, &[0xfe, 0xff, 0x07]),
    ];
    for (horizon, horizon_bytes) in horizons {
        for (weight, weight_bytes) in weights {
            let nodes = vec![Node::from(&made::input())];
            let records = Records { leaves: 2, top: 1, horizon, nodes, differences: vec![Difference { from: 0, to: 0, weight }], ..Records::default() };
            let bytes = [&[2, 1], horizon_bytes, &[1, 1, 0, 0, 0, 0, 0, 0, 0, 0], weight_bytes, &[1, 0]].concat();
            let length = bytes.len();
            let rows = Rows::from(&records);
            let (answer, written) = lent(length, |buffer| write(&rows, buffer));
            assert_eq!((answer, &written), (Answer { number: 0, place: length as u64 }, &bytes), "H = {horizon}, w = {weight}");
            for (room, number) in [(length, 0), (length + 1, 0), (length - 1, 8), (length - 2, 8), (0, 8)] {
                assert_eq!(compare_in(&rows, room), (number, length as u64), "H = {horizon}, w = {weight}");
            }
            assert!(there_and_back(&bytes));
        }
    }
}

#[test]
fn the_header_says_what_no_sheet_exceeds() {
    let head = [K.1, T.1, H.1, N.1, M.1].map(width).iter().sum::<usize>();
    let most = |of: fn(u32) -> u32| width((0..=KIND.1).map(of).max().unwrap());
    let times = most(|kind| fields(kind, T.1).delay.1) + most(|kind| fields(kind, T.1).latency.1) + most(|kind| clock_to_q(kind, 1, T.1).1);
    let fixed = width(KIND.1) + width(MARK.1) + times;
    let operands = (0..=KIND.1).map(|kind| fields(kind, T.1).operands.1).max().unwrap();
    let node = fixed + width(operands) + operands as usize * width(N.1 - 2);
    let difference = 2 * width(N.1 - 1) + width(CODE.1);
    let window = width(N.1 - 1) + width(P.1 - 1) + width(P.1);
    let most = head + N.1 as usize * node + M.1 as usize * difference + width(P.1) + width(N.1) + N.1 as usize * window;
    assert_eq!(defined("MAPS_SHEET_MOST"), most as u64);
    // The longest: boxes, which read the node before them as often as they may.
    let nodes = (0..N.1).map(|own| {
        let operands = if own == 0 { Vec::new() } else { vec![own - 1; operands as usize] };
        Node { kind: 2, output: 1, delay: T.1, latency: fields(2, T.1).latency.1, clock_to_q: T.1, operands }
    });
    let nodes = nodes.collect();
    let differences = vec![Difference { from: N.1 - 1, to: N.1 - 2, weight: W as i32 }; M.1 as usize];
    let windows = (0..N.1).map(|id| Window { id, from: P.1 - 1, to: P.1 }).collect();
    let rows = Rows::from(&Records { leaves: K.1, top: T.1, horizon: H.1, nodes, differences, period: P.1, windows });
    // Node 0 has no operands, those of 128 more nodes have one byte, and so have the ids of 128 windows.
    let shorter = 2 * u64::from(operands) + 128 * u64::from(operands) + 128;
    let length = defined("MAPS_SHEET_MOST") - shorter;
    assert_eq!(length, 12_160);
    for (room, number) in [(defined("MAPS_SHEET_MOST"), 0), (length, 0), (length - 1, 8), (0, 8)] {
        assert_eq!(compare_in(&rows, room as usize), (number, length));
    }
}
