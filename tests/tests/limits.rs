//! Every limit of a sheet, from both sides, through planning, reading and writing: a value inside is read and written, and one outside is refused, by
//! planning and reading at its own first byte, by writing as the number of the sheet that it is. The sheets are whole: what follows a value outside
//! its range is what a reader that takes it would go on to read.
#![cfg(planner)]
use maps_tests::buffer::{after, lent};
use maps_tests::library::{plan, read, write, Answer, Tables};
use maps_tests::limits::{clock_to_q, fields, window_from, window_to, Range, CODE, H, K, KIND, M, MARK, N, NUMBER, P, SIZES, T};
use maps_tests::made::{boxed, input, numbers, period_index, respelled, spelled, table, weight, windows};
use maps_tests::reader::{self, Difference, Node, Sheet, Window};
use maps_tests::writer::{self, Records, Rows};

/// Number and place, from planning and from reading alike.
fn refused(name: &str, bytes: &[u8], number: u64, place: u64) {
    let mut buffer = vec![0xa5; 5000];
    assert_eq!(plan(bytes, &mut buffer), Answer { number, place }, "planning: {name}");
    assert!(buffer.iter().all(|&byte| byte == 0xa5), "planning wrote: {name}");
    let mut tables = Tables::filled_with(0xdead_beef);
    assert_eq!(read(bytes, &mut tables), Answer { number, place }, "reading: {name}");
    assert!(tables == Tables::filled_with(0xdead_beef), "reading wrote: {name}");
}

/// The sheet reads as the independent reader reads it, and planning refuses it for none of grounds 1 to 5.
fn taken(name: &str, bytes: &[u8]) {
    let answer = plan(bytes, &mut vec![0; 5000]);
    assert!([0, 6, 7, 12].contains(&answer.number), "planning: {name}: {answer:?}");
    let mut tables = Tables::filled_with(0xdead_beef);
    assert_eq!(read(bytes, &mut tables), Answer { number: 0, place: 0 }, "reading: {name}");
    assert!(tables == Tables::of(&reader::read(bytes).expect("a sheet that reads")), "tables: {name}");
}

/// The most nodes, differences or windows that are given here, more than a sheet holds.
const MANY: u32 = 70_000;

/// The records whose sheet has these numbers, as many of them as counts say while there are some; then 0. At most `MANY` are given.
fn records(numbers: &[u32]) -> Records {
    let mut rest = numbers.iter().copied();
    let [leaves, top, horizon, n, m] = std::array::from_fn(|_| rest.next().unwrap());
    let nodes = (0..n.min(MANY)).map(|_| {
        let [kind, output, delay, latency, clock_to_q, count] = std::array::from_fn(|_| rest.next().unwrap_or(0));
        writer::Node { kind, output, delay, latency, clock_to_q, operands: rest.by_ref().take(count as usize).collect() }
    });
    let nodes = nodes.collect();
    let differences = (0..m.min(MANY)).map(|_| {
        let [from, to, code] = std::array::from_fn(|_| rest.next().unwrap_or(0));
        Difference { from, to, weight: weight(code) }
    });
    let differences = differences.collect();
    let [period, count] = std::array::from_fn(|_| rest.next().unwrap_or(0));
    let windows = (0..count.min(MANY)).map(|_| {
        let [id, from, to] = std::array::from_fn(|_| rest.next().unwrap_or(0));
        Window { id, from, to }
    });
    let windows = windows.collect();
    Records { leaves, top, horizon, nodes, differences, period, windows }
}

/// Writing the sheet with these numbers gives this answer, and these bytes at the front of the buffer.
fn written(name: &str, numbers: &[u32], number: u64, place: u64, bytes: &[u8]) {
    let (answer, buffer) = lent(13_000, |buffer| write(&Rows::from(&records(numbers)), buffer));
    assert_eq!(answer, Answer { number, place }, "writing: {name}");
    assert!(buffer == after(bytes, 13_000), "bytes written: {name}");
}

/// Where the number at an index of a sheet has its first byte.
fn place(numbers: &[u32], index: usize) -> u64 {
    spelled(&numbers[..index]).len() as u64
}

/// The number at `index` is taken in this sheet, which is also written.
fn inside(name: &str, numbers: &[u32], index: usize) {
    let (name, bytes) = (format!("{name} = {}", numbers[index]), spelled(numbers));
    taken(&name, &bytes);
    written(&name, numbers, 0, bytes.len() as u64, &bytes);
}

/// The number at `index` is refused with `ground` in this sheet.
fn outside(name: &str, numbers: &[u32], index: usize, ground: u64) {
    let name = format!("{name} = {}", numbers[index]);
    refused(&name, &spelled(numbers), ground, place(numbers, index));
    written(&name, numbers, ground, index as u64, &[]);
}

/// Values inside a range: both ends, and the least and the greatest of each count of bytes that it has.
fn inner((low, high): Range) -> Vec<u32> {
    let mut values: Vec<u32> = SIZES.into_iter().flat_map(|size| [size.0.max(low), size.1.min(high)]).filter(|v| (low..=high).contains(v)).collect();
    values.dedup();
    values
}

/// Values above a range that have a spelling: next to it, the least and the greatest of each count of bytes, and such as are inside but for one bit.
fn above((low, high): Range) -> Vec<u32> {
    let mut values: Vec<u32> = SIZES.into_iter().flat_map(|size| [size.0, size.1]).chain([high + 1]).collect();
    values.extend([7, 8, 12, 14, 16, 17, 20].into_iter().flat_map(|bit| [low | 1 << bit, high | 1 << bit]));
    values.retain(|&value| value > high);
    values.sort();
    values.dedup();
    assert!(values.contains(&NUMBER) && values.contains(&(high + 1)));
    values
}

/// Tries both ends of a range and other values inside it, and one past each end and others outside it, at an index of the sheet that `sheet` makes
/// for a value.
fn both_ends(name: &str, (low, high): Range, index: usize, sheet: impl Fn(u32) -> Vec<u32>) {
    for value in inner((low, high)) {
        inside(name, &sheet(value), index);
    }
    for value in (0..low).chain(above((low, high))) {
        outside(name, &sheet(value), index, 3);
    }
    assert_eq!([low, high + 1, NUMBER].map(|value| sheet(value)[index]), [low, high + 1, NUMBER], "{name} stands at {index}");
}

/// A sheet of `n` inputs and `m` differences that hold.
fn plain(n: u32, m: u32) -> Sheet {
    let differences = vec![Difference { from: 0, to: 0, weight: 0 }; m as usize];
    Sheet { nodes: vec![input(); n as usize], differences, ..Sheet::default() }
}

#[test]
fn header() {
    let with = |index: usize| {
        move |value: u32| {
            let mut all = numbers(&plain(3, 2));
            all[index] = value;
            all
        }
    };
    both_ends("K", K, 0, with(0));
    both_ends("T", T, 1, with(1));
    both_ends("H", H, 2, with(2));
    // As many nodes and differences as the header says, up to more than a sheet holds.
    let counted = |index: usize, count: u32, mut all: Vec<u32>| {
        all[index] = count;
        all
    };
    both_ends("n", N, 3, |n| counted(3, n, numbers(&plain(n.min(MANY), 0))));
    both_ends("m", M, 4, |m| counted(4, m, numbers(&plain(2, m.min(MANY)))));
}

/// The number of values in a sheet's header, and in a node before its operands.
const HEADER: usize = 5;
const HEAD: usize = 6;

/// A sheet of 8 inputs below one node, with differences after it, and the index of the node's kind.
fn with_node(top: u32, node: Node) -> (Vec<u32>, usize) {
    let mut sheet = Sheet { top, ..plain(8, 2) };
    sheet.nodes.push(node);
    sheet.nodes.push(input());
    (numbers(&sheet), HEADER + 8 * HEAD)
}

/// A node of a kind at the least of its ranges.
fn least_of(kind: u32, top: u32) -> Node {
    let fields = fields(kind, top);
    let clock_to_q = clock_to_q(kind, fields.latency.0, top).0;
    Node { kind, output: false, delay: fields.delay.0, latency: fields.latency.0, clock_to_q, operands: (0..fields.operands.0).collect() }
}

#[test]
fn kind_and_mark() {
    let index = HEADER + 8 * HEAD;
    let with = |kind: u32, offset: usize, value: u32| {
        let (mut all, index) = with_node(1, least_of(kind, 1));
        all[index + offset] = value;
        all
    };
    both_ends("kind", KIND, index, |value| with(0, 0, value));
    for kind in 0..=KIND.1 {
        inside("kind", &with(kind, 0, kind), index);
        both_ends(&format!("mark of kind {kind}"), MARK, index + 1, |value| with(kind, 1, value));
    }
}

#[test]
fn fields_of_each_kind() {
    let index = HEADER + 8 * HEAD;
    for kind in 0..=KIND.1 {
        for top in [T.0, T.0 + 1, 7, T.1 - 1, T.1] {
            let fields = fields(kind, top);
            let name = |field: &str| format!("{field} of kind {kind} under T = {top}");
            let node = || least_of(kind, top);
            both_ends(&name("d"), fields.delay, index + 2, |delay| with_node(top, Node { delay, ..node() }).0);
            both_ends(&name("lat"), fields.latency, index + 3, |latency| with_node(top, Node { latency, ..node() }).0);
            // As many operands as the count says, up to one more than the most.
            both_ends(&name("operands"), fields.operands, index + 5, |count| {
                let (mut all, _) = with_node(top, Node { operands: vec![7; count.min(7) as usize], ..node() });
                all[index + 5] = count;
                all
            });
        }
    }
}

#[test]
fn q_of_each_kind() {
    let index = HEADER + 8 * HEAD + 4;
    for kind in 0..=KIND.1 {
        for top in [T.0, T.0 + 1, 7, T.1 - 1, T.1] {
            for latency in inner(fields(kind, top).latency).into_iter().chain([1]).filter(|&lat| lat <= fields(kind, top).latency.1) {
                let range = clock_to_q(kind, latency, top);
                assert_eq!(range, (0, if kind == 2 && latency > 0 { top } else { 0 }));
                let name = format!("q of kind {kind} with lat = {latency} under T = {top}");
                both_ends(&name, range, index, |q| with_node(top, Node { latency, clock_to_q: q, ..least_of(kind, top) }).0);
            }
        }
    }
    // Whatever d, mark and operands of the box are, and with a lat of two bytes before it.
    for latency in [1, 127, 128, 255] {
        let slow = Node { output: true, delay: T.1, latency, operands: vec![7; 6], ..least_of(2, T.1) };
        both_ends("q of a box", (0, T.1), index, |q| with_node(T.1, Node { clock_to_q: q, ..slow.clone() }).0);
        // A lat that is out of its range, and the mark and d before it, are refused before q.
        for (offset, value) in [(1, 2), (2, T.1 + 1), (3, 256)] {
            let (mut all, kind) = with_node(T.1, Node { clock_to_q: T.1 + 1, ..slow.clone() });
            all[kind + offset] = value;
            outside("a number before a wrong q", &all, kind + offset, 3);
        }
        // The count and the operands after it are refused after q.
        let (mut all, kind) = with_node(T.1, Node { clock_to_q: T.1 + 1, ..slow });
        all[kind + 6] = 8;
        outside("q before a wrong operand", &all, index, 3);
    }
}

#[test]
fn operand_ids() {
    for kind in [1, 2] {
        let most = fields(kind, 1).operands.1 as usize;
        for own in [1, 2, 127, 128, 129, 254, N.1 - 1] {
            for position in 0..most {
                let with = |id: u32| {
                    let mut sheet = plain(own, 1);
                    let mut operands = vec![0; most];
                    operands[position] = id;
                    sheet.nodes.push(Node { operands, ..least_of(kind, 1) });
                    numbers(&sheet)
                };
                let index = HEADER + own as usize * HEAD + HEAD + position;
                let name = format!("operand {position} of node {own}, of kind {kind}");
                inside(&name, &with(0), index);
                inside(&name, &with(own - 1), index);
                for id in above((0, own - 1)).into_iter().chain([own + 1, N.1 - 1, N.1]).filter(|&id| id >= own) {
                    outside(&name, &with(id), index, 4);
                }
            }
        }
    }
    // Node 0 reads nothing.
    let first = |kind| [K.0, 1, H.0, 1, 0, kind, 0, 1, 0, 0, 1, 0];
    outside("operand of node 0", &first(1), 11, 4);
    outside("operand of node 0", &first(2), 11, 4);
}

#[test]
fn differences() {
    for n in [N.0, 2, 127, 128, 129, N.1] {
        for (m, which) in [(1, 0), (3, 2), (M.1, 0), (M.1, M.1 - 1)] {
            let sheet = plain(n, m);
            let index = HEADER + n as usize * HEAD + 3 * which as usize;
            let with = |offset: usize| {
                let all = numbers(&sheet);
                move |value: u32| {
                    let mut all = all.clone();
                    all[index + offset] = value;
                    all
                }
            };
            let name = |field: &str| format!("{field} of difference {which} of {m}, n = {n}");
            both_ends(&name("u"), (0, n - 1), index, with(0));
            both_ends(&name("v"), (0, n - 1), index + 1, with(1));
            both_ends(&name("code of w"), CODE, index + 2, with(2));
            // The least w.
            inside(&name("code of w"), &with(2)(CODE.1 - 1), index + 2);
        }
    }
}

/// A sheet of `n` boxes with these windows.
fn slots(n: u32, period: u32, triples: &[(u32, u32, u32)]) -> Sheet {
    Sheet { nodes: vec![boxed(0, 0, 0, &[]); n as usize], period, windows: windows(triples), ..Sheet::default() }
}

#[test]
fn periods_and_counts() {
    for sheet in [plain(1, 0), plain(3, 2), plain(N.1, M.1), slots(2, 1, &[(0, 0, 1)]), slots(2, 1, &[(0, 0, 1), (1, 0, 1)])] {
        let index = period_index(&sheet);
        let with = |period: u32| {
            let mut all = numbers(&sheet);
            all[index] = period;
            all
        };
        both_ends("P", P, index, with);
    }
    // As many windows as the count says, up to more than there are nodes; past the last box there is none to name.
    for n in [1, 2, 63, 64, 127, 128, 129, N.1] {
        let sheet = |count: u32| {
            let given: Vec<(u32, u32, u32)> = (0..count.min(MANY)).map(|id| (id, 0, 1)).collect();
            let mut all = numbers(&slots(n, 1, &given));
            all[period_index(&slots(n, 1, &[])) + 1] = count;
            all
        };
        both_ends(&format!("count of windows, n = {n}"), (0, n), period_index(&slots(n, 1, &[])) + 1, sheet);
    }
}

#[test]
fn fields_of_a_window() {
    for period in [P.0, P.0 + 1, 7, 8, P.1 - 1, P.1] {
        for (n, which) in [(1, 0), (3, 0), (3, 2), (N.1, 127), (N.1, 128), (N.1, N.1 - 1)] {
            // The window of box `which`, after those of all boxes before it.
            let with = |from: u32, to: u32| {
                let before = (0..which).map(|id| (id, 0, period));
                numbers(&slots(n, period, &before.chain([(which, from, to)]).collect::<Vec<_>>()))
            };
            let index = period_index(&slots(n, period, &[])) + 2 + 3 * which as usize;
            let name = |field: &str| format!("{field} of the window of box {which}, P = {period}");
            // Where from is right, so is to.
            both_ends(&name("from"), window_from(period), index + 1, |from| with(from, period));
            for from in [0, period / 2, period - 1] {
                both_ends(&format!("{} from {from}", name("to")), window_to(from, period), index + 2, |to| with(from, to));
            }
        }
    }
}

#[test]
fn ids_of_windows() {
    // A box at each end of the ids and inputs between them.
    for n in [1, 2, 3, 127, 128, 129, N.1] {
        let mut sheet = plain(n, 1);
        for own in [0, n / 2, n - 1] {
            sheet.nodes[own as usize] = boxed(0, 0, 0, &[]);
        }
        let with = |ids: &[u32]| {
            let entries = ids.iter().map(|&id| Window { id, from: 0, to: 1 }).collect();
            numbers(&Sheet { windows: entries, ..sheet.clone() })
        };
        let index = period_index(&sheet) + 2;
        let is_box = |id: u32| [0, n / 2, n - 1].contains(&id);
        for id in (0..n).filter(|&id| is_box(id)) {
            inside("the only id", &with(&[id]), index);
        }
        let wrong = |least: u32| (0..n).filter(move |&id| !is_box(id) || id < least).chain(above((0, n - 1)));
        for id in wrong(0) {
            outside("the only id", &with(&[id]), index, 3);
        }
        for first in (0..n).filter(|&id| is_box(id)) {
            for second in (first + 1..n).filter(|&id| is_box(id)) {
                inside("the second id", &with(&[first, second]), index + 3);
            }
            for second in wrong(first + 1).filter(|_| n > 1) {
                outside("the second id", &with(&[first, second]), index + 3, 3);
            }
        }
    }
}

/// Spellings with a third byte that is none, 0 or above 127: each such byte after 80 80, some after other bytes.
fn wrong_thirds() -> Vec<[u8; 3]> {
    let mut all: Vec<[u8; 3]> = (128..=255).chain([0]).map(|third| [0x80, 0x80, third]).collect();
    for first in [0x80, 0x81, 0xff] {
        for second in [0x80, 0x81, 0xfe, 0xff] {
            all.extend([0, 128, 129, 254, 255].map(|third| [first, second, third]));
        }
    }
    all
}

/// Right spellings of two and three bytes with their values, at the ends of H, of the code of w and of each count of bytes. No other field may have
/// one of them.
const SPELLINGS: [(&[u8], u32); 12] = [
    (&[0x80, 0x7f], 16_256),
    (&[0xff, 0x7f], 16_383),
    (&[0x80, 0x80, 0x01], 16_384),
    (&[0xff, 0x80, 0x01], 16_511),
    (&[0x80, 0x81, 0x01], 16_512),
    (&[0xff, 0xff, 0x03], 65_535),
    (&[0x80, 0x80, 0x04], 65_536),
    (&[0xfd, 0xff, 0x07], 131_069),
    (&[0xfe, 0xff, 0x07], 131_070),
    (&[0xff, 0xff, 0x07], 131_071),
    (&[0x80, 0x80, 0x7f], 2_080_768),
    (&[0xff, 0xff, 0x7f], 2_097_151),
];

#[test]
fn spelling() {
    // Every number of a sheet with two inputs, a table, a box, a difference and a window.
    let mut sheet = Sheet { windows: windows(&[(3, 0, 1)]), ..plain(2, 1) };
    sheet.nodes.extend([table(true, &[0, 1]), Node { operands: vec![2, 0], ..least_of(2, 1) }]);
    let all = numbers(&sheet);
    let operands = [23, 24, 31, 32];
    assert_eq!(operands.map(|index| all[index]), [0, 1, 2, 0]);
    let (horizon, code) = (2, period_index(&sheet) - 1);
    taken("the whole sheet", &spelled(&all));
    let mut spelled_rightly = 0;
    for index in 0..all.len() {
        let at = place(&all, index);
        let misspelt = |spelling: &[u8]| {
            let name = format!("{spelling:02x?} as number {index}");
            refused(&name, &respelled(&all, index, spelling), 2, at);
            refused(&format!("{name}, the last"), &[spelled(&all[..index]), spelling.to_vec()].concat(), 2, at);
        };
        // A last byte of 0, whatever the first says; a third byte above 127, whatever follows it.
        let own = 0x80 | all[index] as u8;
        for first in [own, 0x80, 0x81, 0xff] {
            misspelt(&[first, 0]);
        }
        misspelt(&[own, 0x80, 0]);
        wrong_thirds().iter().for_each(|spelling| misspelt(spelling));
        for fourth in [0, 1, 127, 128, 255] {
            misspelt(&[0x80, 0x80, 0x80, fourth]);
            misspelt(&[own, 0xff, 0xff, fourth]);
        }
        // A right spelling: the value is refused where it is outside its range, and not its spelling.
        let ground = if operands.contains(&index) { 4 } else { 3 };
        let most = if index == horizon { H.1 } else if index == code { CODE.1 } else { 0 };
        for (spelling, value) in SPELLINGS {
            let (name, bytes) = (format!("{spelling:02x?} as number {index}"), respelled(&all, index, spelling));
            if value > most {
                refused(&name, &bytes, ground, at);
            } else {
                let mut whole = all.clone();
                whole[index] = value;
                assert_eq!(bytes, spelled(&whole), "{name}");
                inside(&name, &whole, index);
                spelled_rightly += 1;
            }
        }
        // The sheet ends before the number, after its first byte, and after its second.
        let before = spelled(&all[..index]);
        refused(&format!("no number {index}"), &before, 1, at);
        for bytes in [&[own][..], &[0x80], &[0xff], &[own, 0x80], &[0x80, 0x80], &[0x80, 0xff], &[0xff, 0x80], &[0xff, 0xff]] {
            refused(&format!("{bytes:02x?} of number {index}"), &[&before, bytes].concat(), 1, at + bytes.len() as u64);
        }
    }
    // H up to 65,535, and the code of w up to 131,070.
    assert_eq!(spelled_rightly, 6 + 9);
    // The greatest number of one byte, and the least second byte of two.
    for spelling in [vec![127], vec![0x80, 1], vec![0xff, 1]] {
        taken(&format!("{spelling:?} as H"), &respelled(&all, horizon, &spelling));
    }
    let whole = spelled(&all);
    refused("one byte more", &[whole.clone(), vec![0]].concat(), 5, whole.len() as u64);
}
