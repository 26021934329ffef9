//! Made-up sheets: within the ranges, and damaged in one place.
use crate::limits::{clock_to_q, fields, width, window_from, window_to, Range, CODE, H, K, M, N, NUMBER, P, SIZES, T, W};
use crate::random::Random;
use crate::reader::{Difference, Node, Sheet, Window};

/// Appends the spelling of a number.
pub fn put(bytes: &mut Vec<u8>, value: u32) {
    assert!(value <= NUMBER, "{value} has no spelling");
    let mut rest = value;
    while rest > 127 {
        bytes.push(128 | (rest & 127) as u8);
        rest >>= 7;
    }
    bytes.push(rest as u8);
}

/// The numbers of a sheet, in its order.
pub fn numbers(sheet: &Sheet) -> Vec<u32> {
    let mut all = vec![sheet.leaves, sheet.top, sheet.horizon, sheet.nodes.len() as u32, sheet.differences.len() as u32];
    for node in &sheet.nodes {
        all.extend([node.kind, node.output as u32, node.delay, node.latency, node.clock_to_q, node.operands.len() as u32]);
        all.extend(&node.operands);
    }
    for difference in &sheet.differences {
        all.extend([difference.from, difference.to, code(difference.weight)]);
    }
    all.extend([sheet.period, sheet.windows.len() as u32]);
    all.extend(sheet.windows.iter().flat_map(|window| [window.id, window.from, window.to]));
    all
}

/// Which number of a sheet its P is. The count of windows comes after it, then three numbers for each of them.
pub fn period_index(sheet: &Sheet) -> usize {
    numbers(sheet).len() - 3 * sheet.windows.len() - 2
}

/// The code of a w.
pub fn code(w: i32) -> u32 {
    (if w >= 0 { 2 * w } else { -2 * w - 1 }) as u32
}

/// The w of a code.
pub fn weight(code: u32) -> i32 {
    let half = (code / 2) as i32;
    if code % 2 == 0 { half } else { -half - 1 }
}

pub fn spelled(numbers: &[u32]) -> Vec<u8> {
    let mut bytes = Vec::new();
    for &value in numbers {
        put(&mut bytes, value);
    }
    bytes
}

/// The bytes of a sheet with other bytes in the place of the number at an index.
pub fn respelled(numbers: &[u32], index: usize, spelling: &[u8]) -> Vec<u8> {
    [&spelled(&numbers[..index]), spelling, &spelled(&numbers[index + 1..])].concat()
}

/// A value of a range, both ends included.
fn any(random: &mut Random, (low, high): Range) -> u32 {
    random.within(low, high)
}

/// A value of a range, of each count of bytes as often.
fn of_any_size(random: &mut Random, (low, high): Range) -> u32 {
    let size = SIZES[random.within(width(low) as u32, width(high) as u32) as usize - 1];
    random.within(low.max(size.0), high.min(size.1))
}

/// Any H.
fn any_horizon(random: &mut Random) -> u32 {
    of_any_size(random, H)
}

/// Any w.
fn any_weight(random: &mut Random) -> i32 {
    weight(of_any_size(random, CODE))
}

/// q of a node: where it has a latency often 0, often T and sometimes between, otherwise 0.
pub fn any_q(random: &mut Random, latency: u32, top: u32) -> u32 {
    match random.within(0, 4) {
        _ if latency == 0 => 0,
        0 | 1 => 0,
        2 | 3 => top,
        _ => random.within(0, top),
    }
}

fn node(random: &mut Random, own: u32, top: u32) -> Node {
    let kind = if own == 0 { 0 } else { random.within(0, 2) };
    let output = random.once_in(3);
    if kind == 0 {
        return Node { output, ..input() };
    }
    let fields = fields(kind, top);
    let delay = any(random, fields.delay);
    let latency = if kind == 2 && !random.once_in(4) { any(random, fields.latency) } else { 0 };
    let clock_to_q = any_q(random, latency, top);
    let count = any(random, fields.operands);
    Node { kind, output, delay, latency, clock_to_q, operands: (0..count).map(|_| random.within(0, own - 1)).collect() }
}

/// A sheet with all values in their ranges, of up to `most` nodes; two of three have windows, where there are boxes.
pub fn sheet(random: &mut Random, most: u32) -> Sheet {
    let sheet = sheet_with(random, most, any_horizon, any_weight);
    match random.once_in(3) {
        true => Sheet { period: any(random, P), ..sheet },
        false => windowed(random, sheet),
    }
}

/// P: often small, often of a few steps, and of any size.
fn any_period(random: &mut Random) -> u32 {
    match random.within(0, 3) {
        0 => random.within(1, 3),
        1 | 2 => random.within(2, 9),
        _ => any(random, P),
    }
}

/// A window of a box: whole, of one step, up to the end of the period, its last step, from its first step on, or any.
fn any_window(random: &mut Random, id: u32, period: u32) -> Window {
    let start = any(random, window_from(period));
    let (from, to) = match random.within(0, 6) {
        0 => (0, period),
        1 | 2 => (start, start + 1),
        3 => (start, period),
        4 => (period - 1, period),
        5 => (0, start + 1),
        _ => (start, any(random, window_to(start, period))),
    };
    Window { id, from, to }
}

/// The ids of a sheet's boxes.
fn boxes(sheet: &Sheet) -> Vec<u32> {
    (0..).zip(&sheet.nodes).filter(|(_, node)| node.kind == 2).map(|(id, _)| id).collect()
}

/// The sheet with windows for some of its boxes, or for all of them. Some of these sheets have windows that close nothing.
pub fn windowed(random: &mut Random, sheet: Sheet) -> Sheet {
    let (period, whole, seldom) = (any_period(random), random.once_in(8), random.within(1, 3));
    let mut ids = boxes(&sheet);
    ids.retain(|_| random.once_in(seldom));
    let window = |id| if whole { Window { id, from: 0, to: period } } else { any_window(random, id, period) };
    let windows = ids.into_iter().map(window).collect();
    Sheet { period, windows, ..sheet }
}

/// The sheet with every input made a box, which can have a window.
pub fn sensed(mut sheet: Sheet) -> Sheet {
    sheet.nodes.iter_mut().filter(|node| node.kind == 0).for_each(|node| node.kind = 2);
    sheet
}

/// The same, where `horizon` draws H and `weight` each w.
fn sheet_with(random: &mut Random, most: u32, horizon: impl Fn(&mut Random) -> u32, weight: impl Fn(&mut Random) -> i32) -> Sheet {
    let top = any(random, T);
    let n = random.within(1, most);
    let nodes = (0..n).map(|own| node(random, own, top)).collect();
    let m = random.within(0, 4 * most.min(M.1 / 4));
    let differences =
        (0..m).map(|_| Difference { from: random.within(0, n - 1), to: random.within(0, n - 1), weight: weight(random) }).collect();
    Sheet { leaves: any(random, K), top, horizon: horizon(random), nodes, differences, ..Sheet::default() }
}

/// A sheet of nearly `most` nodes, a tenth fewer at the least, with H and the size of w up to `far`.
pub fn nearly(random: &mut Random, most: u32, far: u32) -> Sheet {
    loop {
        let whole = sheet_with(random, most, |random| random.within(0, far), |random| random.within(0, 2 * far) as i32 - far as i32);
        if whole.nodes.len() as u32 >= most * 9 / 10 {
            return whole;
        }
    }
}

/// A byte at an end of what a byte of a number may be, or any byte.
fn odd_byte(random: &mut Random) -> u8 {
    match random.within(0, 6) {
        6 => random.next() as u8,
        i => [0, 1, 127, 128, 129, 255][i as usize],
    }
}

/// The bytes of a sheet with one thing wrong: a number, its spelling, a byte, the length, the q of a node, or a number of its windows.
pub fn damaged(random: &mut Random, sheet: &Sheet) -> Vec<u8> {
    let mut all = numbers(sheet);
    let i = random.within(0, all.len() as u32 - 1) as usize;
    match random.within(0, 7) {
        0 => {
            all[i] = of_any_size(random, (0, NUMBER));
            spelled(&all)
        }
        1 => {
            all[i] = (all[i] + 1) & NUMBER;
            spelled(&all)
        }
        2 => {
            let mut bytes = spelled(&all);
            let i = random.within(0, bytes.len() as u32 - 1) as usize;
            bytes[i] = random.next() as u8;
            bytes
        }
        3 => {
            let mut bytes = spelled(&all);
            bytes.truncate(random.within(0, bytes.len() as u32 - 1) as usize);
            bytes
        }
        4 => {
            let spelling: Vec<u8> = (0..random.within(1, 4)).map(|_| odd_byte(random)).collect();
            let mut bytes = respelled(&all, i, &spelling);
            // Sometimes the sheet ends there.
            if random.once_in(3) {
                bytes.truncate(spelled(&all[..i]).len() + spelling.len());
            }
            bytes
        }
        5 => {
            let mut bytes = spelled(&all);
            for _ in 0..random.within(1, 3) {
                bytes.push(random.next() as u8);
            }
            bytes
        }
        6 => {
            let wrong = wrong_windows(sheet);
            let (index, value) = wrong[random.within(0, wrong.len() as u32 - 1) as usize];
            all[index] = value;
            spelled(&all)
        }
        _ => {
            let mut sheet = sheet.clone();
            let own = random.within(0, sheet.nodes.len() as u32 - 1) as usize;
            sheet.nodes[own].clock_to_q = wrong_q(random, &sheet.nodes[own], sheet.top);
            spelled(&numbers(&sheet))
        }
    }
}

/// A q that a node may not have: one past its range, T + 1, or any further.
pub fn wrong_q(random: &mut Random, node: &Node, top: u32) -> u32 {
    let most = clock_to_q(node.kind, node.latency, top).1;
    match random.within(0, 3) {
        0 => most + 1,
        1 => top + 1,
        2 => random.within(most + 1, top + 1),
        _ => of_any_size(random, (most + 1, NUMBER)),
    }
}

/// The numbers of a sheet's windows, each in every way in which it is wrong: which number of the sheet it is, and a value that it may not have.
pub fn wrong_windows(sheet: &Sheet) -> Vec<(usize, u32)> {
    let (n, period, first) = (sheet.nodes.len() as u32, sheet.period, period_index(sheet));
    let mut all: Vec<(usize, u32)> = [0, P.1 + 1, P.1 + 64, 128, NUMBER].map(|value| (first, value)).to_vec();
    all.extend([n + 1, n + 2, 2 * n + 1, n + 256, NUMBER].map(|count| (first + 1, count)));
    let mut least = 0;
    for (at, window) in (first + 2..).step_by(3).zip(&sheet.windows) {
        // No node, no box, not above the entry before.
        let ids = (0..n).filter(|&id| id < least || sheet.nodes[id as usize].kind != 2);
        all.extend(ids.chain([n, n + 1, n + 256, NUMBER]).map(|id| (at, id)));
        all.extend([period, period + 1, period + 64, NUMBER].map(|from| (at + 1, from)));
        all.extend((0..=window.from).chain([period + 1, period + 64, NUMBER]).map(|to| (at + 2, to)));
        least = window.id + 1;
    }
    all
}

/// A sheet at every limit: 256 nodes of six operands, 1,024 differences, values with as many bytes as their range allows.
pub fn greatest(random: &mut Random) -> Sheet {
    greatest_up_to(random, H.1)
}

/// The same where H and the size of each w are `far`.
pub fn greatest_up_to(random: &mut Random, far: u32) -> Sheet {
    let nodes = (0..N.1)
        .map(|own| {
            let operands: Vec<u32> = if own == 0 { Vec::new() } else { (0..6).map(|_| own - 1 - random.within(0, (own - 1).min(7))).collect() };
            let kind = if own == 0 { 0 } else { 2 - own % 2 };
            let fields = fields(kind, T.1);
            let (latency, clock_to_q) = (fields.latency.1, clock_to_q(kind, fields.latency.1, T.1).1);
            Node { kind, output: true, delay: fields.delay.1, latency, clock_to_q, operands }
        })
        .collect();
    let weight = |i: u32| if i % 2 == 0 { far as i32 } else { -(far as i32) };
    let differences = (0..M.1).map(|i| Difference { from: 255 - i % 128, to: 128 + i % 128, weight: weight(i) }).collect();
    Sheet { leaves: K.1, top: T.1, horizon: far, nodes, differences, ..Sheet::default() }
}

/// The greatest sheet with P = 64 and a window for each of its boxes, which `window` draws.
pub fn greatest_with(random: &mut Random, window: impl Fn(&mut Random) -> (u32, u32)) -> Sheet {
    let whole = greatest(random);
    let entry = |id| {
        let (from, to) = window(random);
        Window { id, from, to }
    };
    let windows = boxes(&whole).into_iter().map(entry).collect();
    Sheet { period: P.1, windows, ..whole }
}

/// An input that is no output.
pub fn input() -> Node {
    Node { kind: 0, output: false, delay: 0, latency: 0, clock_to_q: 0, operands: Vec::new() }
}

/// A table with d = 1.
pub fn table(output: bool, operands: &[u32]) -> Node {
    Node { kind: 1, output, delay: 1, operands: operands.to_vec(), ..input() }
}

/// A box that is no output.
pub fn boxed(delay: u32, latency: u32, clock_to_q: u32, operands: &[u32]) -> Node {
    Node { kind: 2, output: false, delay, latency, clock_to_q, operands: operands.to_vec() }
}

/// The differences of these triples: u, v and w.
pub fn differences(triples: &[(u32, u32, i32)]) -> Vec<Difference> {
    triples.iter().map(|&(from, to, weight)| Difference { from, to, weight }).collect()
}

/// The windows of these triples: the box, from and to.
pub fn windows(triples: &[(u32, u32, u32)]) -> Vec<Window> {
    triples.iter().map(|&(id, from, to)| Window { id, from, to }).collect()
}

/// What a made-up small sheet is drawn from: the greatest number of nodes, T, H and latency, and whether tables read many inputs.
#[derive(Clone, Copy)]
pub struct Size {
    pub nodes: u32,
    pub top: u32,
    pub horizon: u32,
    pub latency: u32,
    pub wide: bool,
}

/// A node with all values in their ranges.
fn small_node(random: &mut Random, own: u32, top: u32, size: &Size) -> Node {
    let kind = match random.within(0, 9) {
        0 | 1 => 0,
        2 | 3 => 2,
        _ if own == 0 || size.wide && own < 3 => 0,
        _ => 1,
    };
    let output = random.once_in(3);
    let (low, high) = if size.wide { (3, 6) } else if random.once_in(6) { (1, 6) } else { (1, 3) };
    let count = if kind == 0 || own == 0 { 0 } else { random.within(if kind == 1 { low } else { 0 }, high) };
    let reach = if random.once_in(2) { own } else { own.min(3) };
    let operands: Vec<u32> = (0..count).map(|_| own - random.within(1, reach)).collect();
    match kind {
        0 => Node { output, ..input() },
        1 => Node { delay: if random.once_in(2) { 1 } else { random.within(1, top) }, ..table(output, &operands) },
        _ => {
            let latency = if random.once_in(2) { 0 } else { random.within(0, size.latency) };
            Node { kind, output, delay: random.within(0, top), latency, clock_to_q: any_q(random, latency, top), operands }
        }
    }
}

/// A difference in any direction: forward, backward, on one node, on inputs. Backward ones mostly have room.
fn small_difference(random: &mut Random, n: u32) -> Difference {
    let (a, b) = (random.within(0, n - 1), random.within(0, n - 1));
    let (from, to) = if random.once_in(2) { (a.min(b), a.max(b)) } else { (a, b) };
    let weight = match random.within(0, 11) {
        0 => 0,
        1 => any_weight(random),
        _ if from < to => random.within(0, 4) as i32 - 2,
        _ => -(random.within(0, 3) as i32),
    };
    Difference { from, to, weight }
}

/// A legal small sheet.
pub fn small(random: &mut Random, size: &Size) -> Sheet {
    let top = random.within(1, size.top);
    let n = random.within(1, size.nodes);
    let nodes = (0..n).map(|own| small_node(random, own, top, size)).collect();
    let mut differences: Vec<Difference> = Vec::new();
    for _ in 0..random.within(0, 5) {
        let next = match differences.last() {
            Some(last) if random.once_in(6) => last.clone(),
            _ => small_difference(random, n),
        };
        differences.push(next);
    }
    let leaves = if size.wide || random.once_in(3) { 2 } else { random.within(2, 6) };
    Sheet { leaves, top, horizon: random.within(0, size.horizon), nodes, differences, ..Sheet::default() }
}

/// A legal small sheet of up to `most` nodes with many memories, which are boxes with a latency and mostly a q, and with tables and boxes that read
/// them. T goes up to `top` and H up to `horizon`; with a small T q often decides in which step a reader is.
pub fn memories(random: &mut Random, most: u32, top: u32, horizon: u32) -> Sheet {
    let (top, n) = (random.within(1, top), random.within(2, most));
    let nodes = (0..n)
        .map(|own| {
            let reach = if random.once_in(3) { own } else { own.min(3) };
            let count = if own == 0 { 0 } else { random.within(1, 3) };
            let operands: Vec<u32> = (0..count).map(|_| own - random.within(1, reach)).collect();
            let output = random.once_in(3);
            match random.within(0, 9) {
                0..=3 => {
                    let latency = if random.once_in(2) { 1 } else { random.within(1, 3) };
                    let clock_to_q = if random.once_in(3) { any_q(random, latency, top) } else { random.within(1, top) };
                    Node { kind: 2, output, delay: random.within(0, top), latency, clock_to_q, operands }
                }
                4 => Node { kind: 2, output, delay: random.within(0, top), operands, ..input() },
                _ if count == 0 || random.once_in(8) => Node { output, ..input() },
                _ => Node { delay: random.within(1, top), ..table(output, &operands) },
            }
        })
        .collect();
    let differences = (0..random.within(0, 6) / 2).map(|_| small_difference(random, n)).collect();
    Sheet { leaves: random.within(2, 4), top, horizon: random.within(0, horizon), nodes, differences, ..Sheet::default() }
}

/// A legal small sheet whose differences lead down its ids one after another, so that labels settle late; T is 1, so that steps are many.
pub fn stairs(random: &mut Random) -> Sheet {
    let mut sheet = small(random, &Size { nodes: 11, top: 1, horizon: 40, latency: 1, wide: false });
    let n = sheet.nodes.len() as u32;
    let mut from = n - 1;
    while from > 0 {
        let to = from - random.within(1, from.min(3));
        sheet.differences.push(Difference { from, to, weight: random.within(0, 4) as i32 - 3 });
        if random.once_in(3) {
            sheet.nodes[to as usize] = input();
        }
        from = to;
    }
    sheet
}

/// Numbers from 0 to n - 1 in any order.
pub fn shuffled(random: &mut Random, n: u32) -> Vec<u32> {
    let mut all: Vec<u32> = (0..n).collect();
    for i in (1..all.len()).rev() {
        all.swap(i, random.within(0, i as u32) as usize);
    }
    all
}

/// The numbers below n in rising, in falling and in zigzag order.
pub fn orders(n: u32) -> [(&'static str, Vec<u32>); 3] {
    let zigzag = (0..n).map(|i| if i % 2 == 0 { i / 2 } else { n - 1 - i / 2 }).collect();
    [("rising", (0..n).collect()), ("falling", (0..n).rev().collect()), ("zigzag", zigzag)]
}

/// A legal small sheet with a path of differences through some of its nodes that leads up to about H, or to some step below it; H is of any size, and
/// often the greatest. A difference may lead back from the path's end to its start, with room, with hardly any, or so that few turns pass H.
pub fn long(random: &mut Random) -> Sheet {
    let mut sheet = small(random, &Size { nodes: 9, top: 4, horizon: 0, latency: 3, wide: false });
    sheet.differences.retain(|d| d.from < d.to);
    sheet.horizon = if random.once_in(3) { H.1 - random.within(0, 2) } else { any_horizon(random) };
    let near = !random.once_in(3);
    let whole = if near { (sheet.horizon + random.within(0, 9)).saturating_sub(5) } else { random.within(0, sheet.horizon) };
    let mut path = shuffled(random, sheet.nodes.len() as u32);
    path.truncate(random.within(2, 5) as usize);
    if !random.once_in(4) {
        path.sort();
    }
    let mut left = whole;
    for i in 1..path.len() {
        let part = if i + 1 == path.len() { left.min(W) } else { random.within(0, left.min(W)) };
        sheet.differences.push(Difference { from: path[i - 1], to: path[i], weight: part as i32 });
        left -= part;
    }
    if random.once_in(2) {
        let gain = match random.once_in(2) {
            true => -(random.within(40, 60) as i32),
            false if near => random.within(0, 4) as i32 - 2,
            false => sheet.horizon as i32 / 8,
        };
        let weight = (gain - whole as i32).max(-(W as i32));
        sheet.differences.push(Difference { from: path[path.len() - 1], to: path[0], weight });
    }
    sheet
}

/// A sheet of up to `most` nodes, inputs below and boxes above them, with a ring of differences through many of its nodes in any order, rising or
/// falling: the ring pushes operands on which it rests, so that labels settle after many rounds or never. With `tables` some boxes are tables.
pub fn ring(random: &mut Random, most: u32, tables: bool) -> Sheet {
    let n = random.within(2, most);
    let inputs = random.within(1, n - 1);
    let top = random.within(1, 3);
    let nodes = (0..n)
        .map(|own| {
            let count = if own < inputs { 0 } else { random.within(1, 2) };
            let operands: Vec<u32> = (0..count).map(|_| if random.once_in(2) { own - 1 } else { random.within(0, own - 1) }).collect();
            match own {
                _ if own < inputs => input(),
                _ if tables && random.once_in(3) => Node { delay: random.within(1, top), ..table(random.once_in(2), &operands) },
                _ => {
                    let (delay, latency) = (random.within(0, 1), random.within(0, 8) / 8);
                    Node { kind: 2, output: false, delay, latency, clock_to_q: any_q(random, latency, top), operands }
                }
            }
        })
        .collect();
    let mut order = shuffled(random, n);
    order.truncate(random.within(2, n) as usize);
    match random.within(0, 3) {
        0 => order.sort(),
        1 => order.sort_by(|a, b| b.cmp(a)),
        _ => {}
    }
    let gain = order[random.within(0, order.len() as u32 - 1) as usize];
    let weight = random.within(0, 3) as i32 - 2;
    let mut differences: Vec<Difference> = (0..order.len())
        .map(|i| (order[i], order[(i + 1) % order.len()]))
        .map(|(from, to)| Difference { from, to, weight: if from == gain { weight } else { -(random.within(0, 5) as i32 / 5) } })
        .collect();
    differences.push(Difference { from: random.within(0, n - 1), to: random.within(0, n - 1), weight: random.within(0, 20) as i32 });
    Sheet { leaves: 3, top, horizon: random.within(10, 60), nodes, differences, ..Sheet::default() }
}

/// A small sheet of up to `most` nodes, mostly boxes that have windows, with tables among them. A difference leads from a node to another, and mostly
/// one leads back, with no room or with some.
pub fn slots(random: &mut Random, most: u32, horizon: u32) -> Sheet {
    let (n, top) = (random.within(2, most), random.within(1, 3));
    let nodes = (0..n)
        .map(|own| {
            let count = if own == 0 || random.once_in(3) { 0 } else { random.within(1, 2) };
            let operands: Vec<u32> = (0..count).map(|_| own - random.within(1, own.min(4))).collect();
            let output = random.once_in(3);
            match random.within(0, 9) {
                0 => Node { output, ..input() },
                1 | 2 if count > 0 => Node { delay: random.within(1, top), ..table(output, &operands) },
                _ => {
                    let latency = random.within(0, 4) / 2;
                    Node { output, ..boxed(random.within(0, top), latency, any_q(random, latency, top), &operands) }
                }
            }
        })
        .collect();
    let whole = Sheet { leaves: random.within(2, 3), top, horizon: random.within(0, horizon), nodes, ..Sheet::default() };
    let mut sheet = windowed(random, whole);
    for _ in 0..random.within(0, 4) {
        let (from, to) = (random.within(0, n - 1), random.within(0, n - 1));
        let there = random.within(0, sheet.period + 2) as i32 - 2;
        sheet.differences.push(Difference { from, to, weight: if from == to { -there } else { there } });
        if from != to && !random.once_in(4) {
            let room = random.within(0, 2 * sheet.period) as i32;
            sheet.differences.push(Difference { from: to, to: from, weight: -there - room });
        }
    }
    sheet
}

/// A ring of boxes: differences lead from each to the next in an order and from the last back to the first, in all as many steps back as there, or
/// a few more, so that without windows there are legal labels. With them each box waits for its window, and the ring drifts: it is gone round again
/// and again, a few periods later each time, until all fit or one is past H. Boxes may have a latency and may read the one before them.
pub fn drift(random: &mut Random, n: u32, horizon: u32) -> Sheet {
    let (period, top) = (random.within(2, P.1), random.within(1, 4));
    let read = random.once_in(3);
    let nodes = (0..n)
        .map(|own| {
            let latency = if random.once_in(4) { random.within(1, 3) } else { 0 };
            let operands = if read && own > 0 { vec![own - 1] } else { Vec::new() };
            Node { output: random.once_in(4), ..boxed(random.within(0, top), latency, any_q(random, latency, top), &operands) }
        })
        .collect();
    let mut order = shuffled(random, n);
    if read || random.once_in(3) {
        order.sort();
    }
    let apart: Vec<i32> = (1..n).map(|_| (random.within(0, 2 * period) / (1 + n / 4)) as i32 + 5 * i32::from(read)).collect();
    let mut differences: Vec<Difference> =
        apart.iter().zip(order.windows(2)).map(|(&weight, pair)| Difference { from: pair[0], to: pair[1], weight }).collect();
    let room = if random.once_in(3) { 0 } else { random.within(0, period * n.min(8) / 2) as i32 };
    differences.push(Difference { from: order[n as usize - 1], to: order[0], weight: -apart.iter().sum::<i32>() - room });
    let windows = (0..n).map(|id| any_window(random, id, period)).collect();
    Sheet { leaves: 2, top, horizon, nodes, differences, period, windows }
}

/// A ring of boxes, in an order, that has no legal labels for its windows alone. The second box is a step after the first, none of the others is before
/// the one before it, and the last is no more than a step after the first. The first two have a window of one step each, in the same step of the
/// period: the second waits for the next one, and so does then the first.
pub fn missed(order: &[u32], period: u32, horizon: u32) -> Sheet {
    let (first, last) = (order[0], order[order.len() - 1]);
    let mut differences: Vec<Difference> = order.windows(2).map(|pair| Difference { from: pair[0], to: pair[1], weight: 0 }).collect();
    differences[0].weight = 1;
    differences.push(Difference { from: last, to: first, weight: -1 });
    let mut windows = windows(&[(first, 0, 1), (order[1], 0, 1)]);
    windows.sort_by_key(|window| window.id);
    let nodes = vec![boxed(0, 0, 0, &[]); order.len()];
    Sheet { horizon, nodes, differences, period, windows, ..Sheet::default() }
}

/// The greatest sheet with its boxes and differences changed. With a latency of 0 there is no q.
pub fn variant(random: &mut Random, latency: u32, weight: impl Fn(u32) -> (u32, u32, i32)) -> Sheet {
    let mut sheet = greatest(random);
    for node in sheet.nodes.iter_mut().filter(|node| node.latency > 0) {
        (node.latency, node.clock_to_q) = (latency, clock_to_q(node.kind, latency, T.1).1);
    }
    sheet.differences = (0..1024).map(weight).map(|(from, to, weight)| Difference { from, to, weight }).collect();
    sheet
}

/// 256 nodes, each reading the one below it six times, tables and boxes in turn; the first `slow` boxes have lat = 255. H is `far`, and each w its
/// negative.
pub fn chain(slow: u32, far: u32) -> Sheet {
    let nodes = (0..256u32)
        .map(|own| match own {
            0 => input(),
            _ if own % 2 == 1 => table(true, &[own - 1; 6]),
            _ => Node { kind: 2, latency: if own <= 2 * slow { 255 } else { 0 }, operands: vec![own - 1; 6], ..input() },
        })
        .collect();
    let differences = (0..1024).map(|i| Difference { from: i % 256, to: i / 4, weight: -(far as i32) }).collect();
    Sheet { leaves: 6, top: 64, horizon: far, nodes, differences, ..Sheet::default() }
}

/// A sheet of 256 nodes, mostly tables, whose operands reach near or far down and whose differences are many, few or none, by the round. H and the
/// size of w go up to 4,095 in some rounds, and up to their limit in others, where a few differences are long.
pub fn large(random: &mut Random, round: usize) -> Sheet {
    let top = if round % 4 == 0 { 64 } else { random.within(1, 64) };
    let reach = [4, 12, 40, 255][round % 4];
    let nodes: Vec<Node> = (0..256u32)
        .map(|own| {
            let kind = if own < 6 { 0 } else { [1, 1, 1, 1, 1, 1, 0, 2][random.within(0, 7) as usize] };
            let count = if kind == 0 { 0 } else { random.within(1, 6) };
            let operands = (0..count).map(|_| own - random.within(1, reach.min(own))).collect();
            let delay = if kind == 0 { 0 } else { random.within(1, top) };
            let latency = if kind == 2 && random.once_in(3) { random.within(0, 255) } else { 0 };
            let clock_to_q = any_q(random, latency, top);
            Node { kind, output: random.once_in(9), delay, latency, clock_to_q, operands }
        })
        .collect();
    let m = [0, 256, 1024, 1024][round / 4 % 4];
    let far = [4_095, H.1][round / 16 % 2];
    let differences = (0..m)
        .map(|i| {
            let (a, b) = (random.within(0, 255), random.within(0, 255));
            match i % 4 {
                0 if round % 3 == 0 => Difference { from: a.max(b), to: a.min(b), weight: -(random.within(200, far) as i32) },
                1 if round % 5 == 0 => Difference { from: a.max(b), to: a.min(b), weight: -(far as i32) },
                2 if far == H.1 && a != b && random.once_in(40) => {
                    Difference { from: a.min(b), to: a.max(b), weight: random.within(0, far / 3) as i32 }
                }
                _ => Difference { from: a.min(b), to: a.max(b), weight: if a == b { 0 } else { random.within(0, 40) as i32 - 20 } },
            }
        })
        .collect();
    let leaves = if random.once_in(8) { random.within(4, 5) } else { 6 };
    Sheet { leaves, top, horizon: far, nodes, differences, ..Sheet::default() }
}
