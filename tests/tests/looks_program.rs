//! The program that counts the operands looked at by the test whether a cone's cut fits, byte for byte, against a count written here: for the walk to
//! the end the operands of all members, for the walk that stops a stack of the operands still to come; and the line of each refusal of a sheet.
use maps_tests::limits::{H, K};
use maps_tests::made::{self, chain, damaged, greatest, input, nearly, numbers, respelled, small, spelled, table, Size};
use maps_tests::plan::refusal_line;
use maps_tests::programs::{compare_lines, in_pieces, program, root};
use maps_tests::random::Random;
use maps_tests::reader::{self, Difference, Node, Sheet};
use std::collections::BTreeSet;
use std::fs;
use std::process::Command;

const SEED: u64 = 20260110;

/// Holds what the program prints to these lines.
fn compare(bytes: &[u8], expected: &str) {
    compare_lines("looks", bytes, expected);
}

/// What is counted for a node: its leaves, the operands that the walk to the end looks at, and those that the walk looks at that stops.
struct Count {
    node: usize,
    most: usize,
    leaves: usize,
    before: usize,
    now: usize,
}

impl Count {
    fn line(&self) -> String {
        let Count { node, most, leaves, before, now } = self;
        let leaves = if leaves > most { format!("more than {most}") } else { leaves.to_string() };
        format!("node {node}: {leaves} leaves; operands looked at: {before} before, {now} now\n")
    }
}

/// The members of the cone of v, and its leaves. Ids fall from a node to its operands, so one pass down the ids reaches all of them.
fn cone(sheet: &Sheet, v: usize) -> (Vec<usize>, Vec<usize>) {
    let mut reached = vec![false; v + 1];
    reached[v] = true;
    for u in (0..=v).rev() {
        if reached[u] && sheet.nodes[u].kind == 1 {
            sheet.nodes[u].operands.iter().for_each(|&y| reached[y as usize] = true);
        }
    }
    (0..=v).filter(|&u| reached[u]).partition(|&u| sheet.nodes[u].kind == 1)
}

/// The operands of the cone of v in the order in which they are looked at. The stack has those still to come, the next one on top.
fn looks(sheet: &Sheet, v: usize) -> Vec<u32> {
    let mut stack: Vec<u32> = sheet.nodes[v].operands.iter().rev().copied().collect();
    let (mut met, mut looks) = (BTreeSet::new(), Vec::new());
    while let Some(u) = stack.pop() {
        looks.push(u);
        if met.insert(u) && sheet.nodes[u as usize].kind == 1 {
            stack.extend(sheet.nodes[u as usize].operands.iter().rev());
        }
    }
    looks
}

fn counted(sheet: &Sheet, v: usize) -> Count {
    let (members, leaves) = cone(sheet, v);
    let before: usize = members.iter().map(|&u| sheet.nodes[u].operands.len()).sum();
    let looks = looks(sheet, v);
    assert_eq!(looks.len(), before, "the two ways of counting, node {v} of {sheet:?}");
    // Where each leaf is met first, in that order: the one at index K ends the walk.
    let most = sheet.leaves as usize;
    let mut first: Vec<usize> = leaves.iter().map(|&leaf| looks.iter().position(|&u| u as usize == leaf).unwrap()).collect();
    first.sort_unstable();
    let now = first.get(most).map_or(before, |at| at + 1);
    Count { node: v, most, leaves: leaves.len(), before, now }
}

/// What is counted for each output that is logic.
fn counts(sheet: &Sheet) -> Vec<Count> {
    let shown = |v: &usize| sheet.nodes[*v].kind == 1 && sheet.nodes[*v].output;
    (0..sheet.nodes.len()).filter(shown).map(|v| counted(sheet, v)).collect()
}

/// Compares on a sheet that reads; gives what is counted.
fn compare_counts(sheet: &Sheet) -> Vec<Count> {
    let counts = counts(sheet);
    compare(&spelled(&numbers(sheet)), &counts.iter().map(Count::line).collect::<String>());
    counts
}

/// A sheet of these nodes.
fn sheet(leaves: u32, nodes: Vec<Node>) -> Sheet {
    Sheet { leaves, top: 8, horizon: 100, nodes, ..Sheet::default() }
}

/// So many inputs, and these nodes above them.
fn above(inputs: usize, nodes: &[Node]) -> Vec<Node> {
    [&vec![input(); inputs], nodes].concat()
}

/// A box that reads these nodes.
fn memory(output: bool, operands: &[u32]) -> Node {
    Node { kind: 2, output, latency: 1, operands: operands.to_vec(), ..input() }
}

/// Compares with lines that are written out.
fn shows(leaves: u32, nodes: &[Node], lines: &str) {
    compare(&spelled(&numbers(&sheet(leaves, nodes.to_vec()))), lines);
}

#[test]
fn the_hall_sheet() {
    // Looked at: 4, 3, 0, 1, 2, and 3 again.
    let nodes = above(3, &[table(false, &[0, 1]), table(false, &[3, 2]), table(true, &[4, 3])]);
    let hall = Sheet { leaves: 3, top: 2, horizon: 4, nodes, differences: vec![Difference { from: 0, to: 5, weight: 1 }], ..Sheet::default() };
    compare(&spelled(&numbers(&hall)), "node 5: 3 leaves; operands looked at: 6 before, 6 now\n");
    // The third leaf is the fifth operand. Neither H nor the differences have a say.
    for horizon in [0, 4, H.1] {
        let hall = Sheet { leaves: 2, horizon, ..hall.clone() };
        compare(&spelled(&numbers(&hall)), "node 5: more than 2 leaves; operands looked at: 6 before, 5 now\n");
    }
    // Every table an output: each walk begins anew, and an output inside a cone is a member like others.
    let mut every = hall;
    (3..6).for_each(|v| every.nodes[v].output = true);
    let lines = "node 3: 2 leaves; operands looked at: 2 before, 2 now\n\
                 node 4: 3 leaves; operands looked at: 4 before, 4 now\n\
                 node 5: 3 leaves; operands looked at: 6 before, 6 now\n";
    compare(&spelled(&numbers(&every)), lines);
    let lines = "node 3: 2 leaves; operands looked at: 2 before, 2 now\n\
                 node 4: more than 2 leaves; operands looked at: 4 before, 4 now\n\
                 node 5: more than 2 leaves; operands looked at: 6 before, 5 now\n";
    compare(&spelled(&numbers(&Sheet { leaves: 2, ..every })), lines);
}

#[test]
fn a_list_alone() {
    // The leaf K + 1 as the last operand, and before it.
    shows(2, &above(3, &[table(true, &[0, 1, 2])]), "node 3: more than 2 leaves; operands looked at: 3 before, 3 now\n");
    shows(2, &above(6, &[table(true, &[0, 1, 2, 3, 4, 5])]), "node 6: more than 2 leaves; operands looked at: 6 before, 3 now\n");
    shows(2, &above(6, &[table(true, &[5, 4, 3, 2, 1, 0])]), "node 6: more than 2 leaves; operands looked at: 6 before, 3 now\n");
    shows(5, &above(6, &[table(true, &[0, 1, 2, 3, 4, 5])]), "node 6: more than 5 leaves; operands looked at: 6 before, 6 now\n");
    shows(6, &above(6, &[table(true, &[0, 1, 2, 3, 4, 5])]), "node 6: 6 leaves; operands looked at: 6 before, 6 now\n");
    // A leaf that is met again is no further leaf, and is looked at again.
    shows(2, &above(1, &[table(true, &[0])]), "node 1: 1 leaves; operands looked at: 1 before, 1 now\n");
    shows(2, &above(1, &[table(true, &[0; 6])]), "node 1: 1 leaves; operands looked at: 6 before, 6 now\n");
    shows(2, &above(2, &[table(true, &[0, 1, 0, 1, 0, 1])]), "node 2: 2 leaves; operands looked at: 6 before, 6 now\n");
    shows(2, &above(3, &[table(true, &[0, 0, 1, 1, 2, 0])]), "node 3: more than 2 leaves; operands looked at: 6 before, 5 now\n");
    shows(2, &above(3, &[table(true, &[0, 0, 1, 1, 0, 2])]), "node 3: more than 2 leaves; operands looked at: 6 before, 6 now\n");
}

#[test]
fn operands_of_operands() {
    // The operands of 4 come before the rest of the list of 5, which has many of them or the further leaves.
    let nodes = above(4, &[table(false, &[0, 1, 2]), table(true, &[4, 3, 3, 3])]);
    shows(2, &nodes, "node 5: more than 2 leaves; operands looked at: 7 before, 4 now\n");
    let nodes = above(4, &[table(false, &[0, 0, 0, 0]), table(true, &[4, 1, 2, 3])]);
    shows(2, &nodes, "node 5: more than 2 leaves; operands looked at: 8 before, 7 now\n");
    // The first operand is followed to its end before the second is looked at: 6, 4, 0, 1, then 2 of 6.
    let nodes = above(4, &[table(false, &[0, 1]), table(false, &[3, 3, 3]), table(false, &[4, 2]), table(true, &[6, 5])]);
    shows(2, &nodes, "node 7: more than 2 leaves; operands looked at: 9 before, 5 now\n");
    // A table that is met again is looked at again, and its operands are not.
    let nodes = above(1, &[table(false, &[0]), table(true, &[1, 1, 1])]);
    shows(2, &nodes, "node 2: 1 leaves; operands looked at: 4 before, 4 now\n");
    let nodes = above(3, &[table(false, &[0, 1]), table(false, &[3, 3]), table(true, &[4, 3, 4, 2, 0])]);
    shows(2, &nodes, "node 5: more than 2 leaves; operands looked at: 9 before, 8 now\n");
    shows(3, &nodes, "node 5: 3 leaves; operands looked at: 9 before, 9 now\n");
    // Seven leaves in two lists, the seventh in the middle of the second.
    let nodes = above(7, &[table(true, &[0, 1, 2, 3, 4, 5]), table(true, &[7, 6, 6])]);
    let lines = "node 7: 6 leaves; operands looked at: 6 before, 6 now\n\
                 node 8: more than 6 leaves; operands looked at: 9 before, 8 now\n";
    shows(6, &nodes, lines);
}

#[test]
fn boxes_and_other_outputs() {
    // What a box reads is not looked at; a box is one leaf.
    let nodes = above(3, &[memory(false, &[0, 1, 2]), table(true, &[3])]);
    shows(2, &nodes, "node 4: 1 leaves; operands looked at: 1 before, 1 now\n");
    let nodes = above(2, &[memory(true, &[0, 1]), memory(true, &[]), table(false, &[2, 3]), table(true, &[4, 2, 0, 1])]);
    shows(2, &nodes, "node 5: more than 2 leaves; operands looked at: 6 before, 5 now\n");
    shows(3, &nodes, "node 5: more than 3 leaves; operands looked at: 6 before, 6 now\n");
    shows(4, &nodes, "node 5: 4 leaves; operands looked at: 6 before, 6 now\n");
    // A box over tables, which are in no cone above it.
    let nodes = above(3, &[table(false, &[0, 1, 2]), memory(false, &[3, 3]), table(true, &[4, 4])]);
    shows(2, &nodes, "node 5: 1 leaves; operands looked at: 2 before, 2 now\n");
    // Inputs and boxes that are outputs, and tables that are none, have no line.
    let nodes = vec![Node { output: true, ..input() }, memory(true, &[0]), table(false, &[0, 1])];
    shows(2, &nodes, "");
    shows(2, &[input()], "");
    shows(6, &[memory(true, &[])], "");
}

/// Compares on a chain of `count` tables, each of which reads the one below it and an input of its own, the lowest two inputs: the line of its top.
fn compare_chain(leaves: u32, count: u32, input_first: bool) {
    let inputs = count + 1;
    let tables: Vec<Node> = (0..count)
        .map(|i| match i {
            0 => table(count == 1, &[0, 1]),
            _ if input_first => table(i + 1 == count, &[i + 1, inputs + i - 1]),
            _ => table(i + 1 == count, &[inputs + i - 1, i + 1]),
        })
        .collect();
    let (top, before) = (2 * count, 2 * count);
    let line = match inputs <= leaves {
        true => format!("node {top}: {inputs} leaves; operands looked at: {before} before, {before} now\n"),
        false => {
            // With the table first all of them are passed before the first input; otherwise input and table take turns down to the lowest.
            let now = if !input_first { count + leaves } else if leaves < count { 2 * leaves + 1 } else { before };
            format!("node {top}: more than {leaves} leaves; operands looked at: {before} before, {now} now\n")
        }
    };
    shows(leaves, &above(inputs as usize, &tables), &line);
}

#[test]
fn chains_with_a_leaf_a_table() {
    for leaves in K.0..=K.1 {
        for count in (1..=10).chain([49, 50, 51, 99, 127]) {
            compare_chain(leaves, count, true);
            compare_chain(leaves, count, false);
        }
    }
}

/// A sheet of n nodes, mostly tables: few or many inputs and boxes below, some among them; operands close below or anywhere; short lists or long.
fn web(random: &mut Random, n: u32) -> Sheet {
    let bottom = if random.once_in(3) { random.within(1, n) } else { random.within(1, 9) };
    let reach = [2, 4, 12, 40, 255][random.within(0, 4) as usize];
    let (low, high) = [(1, 2), (1, 3), (1, 6), (4, 6)][random.within(0, 3) as usize];
    let (others, outputs) = ([5, 30, 1000][random.within(0, 2) as usize], [1, 3, 20][random.within(0, 2) as usize]);
    let nodes = (0..n)
        .map(|own| {
            let kind = if own < bottom || random.once_in(others) { 2 * random.within(0, 1) } else { 1 };
            let count = if kind == 0 || own == 0 { 0 } else { random.within(if kind == 1 { low } else { 0 }, high) };
            let reach = if random.once_in(5) { own } else { reach.min(own) };
            let operands: Vec<u32> = (0..count).map(|_| own - random.within(1, reach)).collect();
            let output = random.once_in(outputs) || own + 1 == n;
            match kind {
                0 => Node { output, ..input() },
                1 => table(output, &operands),
                _ => memory(output, &operands),
            }
        })
        .collect();
    sheet(random.within(K.0, K.1), nodes)
}

/// What the counts of many sheets have among them.
#[derive(Debug, Default)]
struct Seen {
    /// Fitting cuts by K and leaves.
    fitting: BTreeSet<(usize, usize)>,
    /// By K: cuts that do not fit, by one leaf, and those where the walk ends on the last operand and before it.
    wide: [u32; 7],
    one_more: [u32; 7],
    last: [u32; 7],
    early: [u32; 7],
    lines: usize,
}

impl Seen {
    fn add(&mut self, counts: &[Count]) {
        self.lines += counts.len();
        for &Count { most, leaves, before, now, .. } in counts {
            if leaves <= most {
                self.fitting.insert((most, leaves));
            } else {
                self.wide[most] += 1;
                self.one_more[most] += u32::from(leaves == most + 1);
                self.last[most] += u32::from(now == before);
                self.early[most] += u32::from(now < before);
            }
        }
    }

    /// For each K: every number of leaves that fits, and at least so many of each other sort.
    fn all(&self, least: u32) -> bool {
        let (low, high) = (K.0 as usize, K.1 as usize);
        let fitting = (low..=high).all(|most| (1..=most).all(|leaves| self.fitting.contains(&(most, leaves))));
        fitting && [self.wide, self.one_more, self.last, self.early].iter().all(|counts| counts[low..].iter().all(|&count| count >= least))
    }
}

#[test]
fn made_up_sheets() {
    println!("seed {SEED}");
    let mut random = Random::new(SEED);
    let mut seen = Seen::default();
    for round in 0..1200 {
        let sheet = match round % 3 {
            0 => {
                let n = random.within(1, 12);
                web(&mut random, n)
            }
            1 => {
                let n = random.within(8, 60);
                web(&mut random, n)
            }
            _ => {
                let sheet = small(&mut random, &Size { nodes: 24, top: 64, horizon: H.1, latency: 255, wide: round % 2 == 0 });
                Sheet { leaves: random.within(K.0, K.1), ..sheet }
            }
        };
        seen.add(&compare_counts(&sheet));
    }
    println!("{seen:?}");
    assert!(seen.lines > 3000 && seen.all(3));
}

#[test]
fn sheets_of_many_nodes() {
    println!("seed {}", SEED + 1);
    let mut random = Random::new(SEED + 1);
    let mut seen = Seen::default();
    let mut most = 0;
    for round in 0..200 {
        let sheet = match round % 5 {
            0 => Sheet { leaves: random.within(K.0, K.1), ..made::large(&mut random, round / 5) },
            1 => nearly(&mut random, 256, H.1),
            _ => {
                let n = random.within(200, 256);
                web(&mut random, n)
            }
        };
        let counts = compare_counts(&sheet);
        most = most.max(counts.iter().map(|count| count.before).max().unwrap_or(0));
        seen.add(&counts);
    }
    println!("{seen:?}, at most {most} operands");
    assert!(seen.lines > 3000 && seen.all(8) && most > 1000);
}

/// Three inputs, and tables up to node 255 that each read the one below them; the lowest reads inputs 0 and 1, and the top these nodes.
fn tower(top: &[u32]) -> Vec<Node> {
    let tables = (3..256u32).map(|own| match own {
        3 => table(false, &[0, 0, 0, 0, 0, 1]),
        255 => table(true, top),
        _ => table(false, &[own - 1; 6]),
    });
    above(3, &tables.collect::<Vec<Node>>())
}

#[test]
fn sheets_at_the_limits() {
    let mut random = Random::new(SEED + 2);
    for leaves in K.0..=K.1 {
        compare_counts(&Sheet { leaves, ..greatest(&mut random) });
        compare_counts(&Sheet { leaves, ..chain(16, H.1) });
    }
    // 255 tables of six operands, every one of them an output: the greatest counts that there are.
    let nodes = above(1, &(1..256u32).map(|own| table(true, &[own - 1; 6])).collect::<Vec<Node>>());
    let lines: String = (1..256).map(|v| format!("node {v}: 1 leaves; operands looked at: {} before, {} now\n", 6 * v, 6 * v)).collect();
    shows(6, &nodes, &lines);
    // Two inputs that are met last, below 253 tables; a third at the end of the top's list, and at its front.
    shows(2, &tower(&[254; 6]), "node 255: 2 leaves; operands looked at: 1518 before, 1518 now\n");
    shows(2, &tower(&[254, 254, 254, 254, 254, 2]), "node 255: more than 2 leaves; operands looked at: 1518 before, 1518 now\n");
    shows(2, &tower(&[2, 254, 254, 254, 254, 254]), "node 255: more than 2 leaves; operands looked at: 1518 before, 259 now\n");
}

#[test]
fn refused_sheets() {
    // K, T, H, n, m; an input; a table that reads it; P and no windows.
    let whole = [2, 1, 0, 2, 0, 0, 0, 0, 0, 0, 0, 1, 1, 1, 0, 0, 1, 0, 1, 0];
    compare(&whole, "node 1: 1 leaves; operands looked at: 1 before, 1 now\n");
    compare(&[], "refused 1 0\n");
    (0..whole.len()).for_each(|length| compare(&whole[..length], &format!("refused 1 {length}\n")));
    let with = |index: usize, spelling: &[u8]| [&whole[..index], spelling, &whole[index + 1..]].concat();
    compare(&with(2, &[0x80, 0]), "refused 2 2\n");
    compare(&with(2, &[0x80, 0x80, 0]), "refused 2 2\n");
    compare(&with(17, &[0x80, 0x80, 0x80]), "refused 2 17\n");
    compare(&with(0, &[1]), "refused 3 0\n");
    compare(&with(0, &[7]), "refused 3 0\n");
    compare(&with(11, &[3]), "refused 3 11\n");
    compare(&with(12, &[2]), "refused 3 12\n");
    compare(&with(9, &[1]), "refused 3 9\n");
    compare(&with(15, &[1]), "refused 3 15\n");
    compare(&with(16, &[0]), "refused 3 16\n");
    compare(&with(17, &[1]), "refused 4 17\n");
    compare(&with(18, &[0]), "refused 3 18\n");
    compare(&with(18, &[65]), "refused 3 18\n");
    compare(&with(19, &[3]), "refused 3 19\n");
    // A window of the table, which is no box.
    compare(&with(19, &[1, 1, 0, 1]), "refused 3 20\n");
    compare(&with(19, &[0, 0]), "refused 5 20\n");
    // No more lines than this one, also where an output stands before the fault.
    let two = spelled(&numbers(&sheet(2, above(1, &[table(true, &[0]), table(true, &[1])]))));
    let place = two.len() - 3;
    compare(&[&two[..place], &[2, 1, 0]].concat(), &format!("refused 4 {place}\n"));
}

#[test]
fn damaged_sheets() {
    println!("seed {}", SEED + 3);
    let mut random = Random::new(SEED + 3);
    let mut met = [0; 6];
    let mut expect = |bytes: &[u8]| match reader::read(bytes) {
        Ok(sheet) => {
            compare_counts(&sheet);
            met[0] += 1;
        }
        Err((number, place)) => {
            compare(bytes, &refusal_line(number, place));
            met[number as usize] += 1;
        }
    };
    for round in 0..300 {
        let n = if round % 10 == 0 { 200 } else { random.within(1, 20) };
        let sheet = web(&mut random, n);
        expect(&damaged(&mut random, &sheet));
    }
    // Far into a sheet, and a tail of any length.
    let whole = numbers(&greatest(&mut random));
    let bytes = spelled(&whole);
    for _ in 0..10 {
        let index = random.within(1000, whole.len() as u32 - 1) as usize;
        for spelling in [&[0x80, 0][..], &[0x80, 0x80, 0], &[0x80, 0x80, 0x80], &[0xff, 0xff, 0x7f]] {
            expect(&respelled(&whole, index, spelling));
        }
    }
    for length in [1, 300, 5_000, 20_000] {
        expect(&[bytes.clone(), vec![0; length]].concat());
    }
    println!("sheets by number: {met:?}");
    assert!(met.iter().all(|&count| count > 10), "{met:?}");
}

#[test]
fn a_sheet_in_pieces() {
    let mut random = Random::new(SEED + 4);
    let sheet = web(&mut random, 60);
    let bytes = spelled(&numbers(&sheet));
    let expected: String = counts(&sheet).iter().map(Count::line).collect();
    assert!(!expected.is_empty());
    for piece in [1, 7, 64] {
        let output = in_pieces(&mut Command::new(program("looks")), &bytes, piece);
        assert_eq!(String::from_utf8_lossy(&output.stdout), expected, "in pieces of {piece}");
    }
}

/// The sheet and the lines that are stored beside the program: a cone that is too wide and is left early, and one of many tables that fits.
#[test]
fn the_stored_sheet() {
    let folder = root().join("crates/looks");
    let bytes = fs::read(folder.join("stdin")).expect("the stored sheet");
    let lines = fs::read_to_string(folder.join("stdout")).expect("the stored lines");
    let sheet = reader::read(&bytes).expect("a sheet that reads");
    let counts = compare_counts(&sheet);
    assert_eq!(lines, counts.iter().map(Count::line).collect::<String>());
    let [fits, wide] = &counts[..] else { panic!("two lines") };
    assert!(fits.leaves == 6 && fits.before >= 200, "{lines}");
    assert!(wide.leaves > 6 && wide.before >= 500 && wide.now <= 20, "{lines}");
}
