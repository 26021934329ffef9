//! The listing program, byte for byte, against a listing written here from document 01: of the plan by brute force for small sheets, of the plan of
//! the planning call for large ones; and the line of each refusal.
#![cfg(planner)]
use maps_tests::compare::Met;
use maps_tests::library::plan;
use maps_tests::limits::{H, W};
use maps_tests::made::{self, any_q, boxed, chain, differences, greatest, greatest_with, input, long, memories, numbers, respelled, slots, small};
use maps_tests::made::{spelled, stairs, table, windows, Size};
use maps_tests::plan::{refusal_line, Plan};
use maps_tests::planner::planned;
use maps_tests::programs::{compare_lines, in_pieces, program, STOP};
use maps_tests::random::Random;
use maps_tests::reader::{self, Difference, Node, Sheet};
use std::process::Command;

const SEED: u64 = 20260104;

/// Holds what the program prints to a listing, or the line of a refusal.
fn compare(bytes: &[u8], expected: &str) {
    compare_lines("listing", bytes, expected);
}

/// The listing of a plan of so many nodes.
fn listing(nodes: usize, plan: &[u8]) -> String {
    Plan::decoded(nodes, plan).listing()
}

/// The number of nodes of a sheet that reads.
fn nodes(bytes: &[u8]) -> usize {
    reader::read(bytes).expect("a sheet that reads").nodes.len()
}

/// Compares on a small sheet, of which brute force gives the plan; gives the number.
fn compare_small(bytes: &[u8]) -> u64 {
    match planned(bytes) {
        Ok(plan) => {
            compare(bytes, &listing(nodes(bytes), &plan));
            0
        }
        Err((number, place)) => {
            compare(bytes, &refusal_line(number, place));
            number
        }
    }
}

/// Compares on a sheet that reads, of which the planning call gives the plan. Gives the plan's numbers, none where it is refused.
fn compare_large(sheet: &Sheet) -> Option<Plan> {
    let bytes = spelled(&numbers(sheet));
    let mut buffer = vec![0; 5000];
    let answer = plan(&bytes, &mut buffer);
    if answer.number != 0 {
        compare(&bytes, &refusal_line(answer.number, answer.place));
        return None;
    }
    let plan = Plan::decoded(sheet.nodes.len(), &buffer[..answer.place as usize]);
    compare(&bytes, &plan.listing());
    Some(plan)
}

#[test]
fn small_sheets() {
    println!("seed {SEED}");
    let mut random = Random::new(SEED);
    let mut met = Met::default();
    for round in 0..480 {
        let sheet = match round % 6 {
            5 => slots(&mut random, 9, 60),
            0 => stairs(&mut random),
            1 => small(&mut random, &Size { nodes: 12, top: 64, horizon: H.1, latency: 255, wide: false }),
            2 => long(&mut random),
            3 => memories(&mut random, 11, 6, 24),
            _ => small(&mut random, &Size { nodes: 9, top: 3, horizon: 40, latency: 30, wide: round % 2 == 0 }),
        };
        met[compare_small(&spelled(&numbers(&sheet))) as usize] += 1;
    }
    println!("sheets by number: {met:?}");
    assert!([0, 6, 7, 12].iter().all(|&number| met[number] > 10), "{met:?}");
}

/// The least and the greatest count of digits in the numbers that `of` takes from plans.
fn digits<'a, I: Iterator<Item = u32>>(plans: &'a [Plan], of: impl Fn(&'a Plan) -> I) -> (usize, usize) {
    let counts: Vec<usize> = plans.iter().flat_map(of).map(|n| n.to_string().len()).collect();
    (*counts.iter().min().unwrap(), *counts.iter().max().unwrap())
}

/// A sheet of n nodes: tables that read the nodes just below and some far below, and boxes, pushed apart by differences so that steps lie all the
/// way up to H.
fn spread(random: &mut Random, n: u32) -> Sheet {
    let nodes: Vec<Node> = (0..n)
        .map(|own| match own {
            _ if own < 6.min(n) || random.once_in(9) => Node { output: random.once_in(4), ..input() },
            _ if random.once_in(7) => {
                let operands = (0..random.within(0, 6)).map(|_| own - random.within(1, own)).collect();
                let (output, delay, latency) = (random.once_in(4), random.within(0, 64), random.within(0, 255));
                Node { kind: 2, output, delay, latency, clock_to_q: any_q(random, latency, 64), operands }
            }
            _ => {
                let operands: Vec<u32> = (0..random.within(1, 6)).map(|_| own - random.within(1, own.min(9))).collect();
                Node { delay: random.within(1, 64), ..table(random.once_in(4), &operands) }
            }
        })
        .collect();
    let differences = (0..random.within(1, 9))
        .map(|_| {
            let (a, b) = (random.within(0, n - 1), random.within(0, n - 1));
            Difference { from: a.min(b), to: a.max(b), weight: if a == b { 0 } else { random.within(0, W / 3) as i32 } }
        })
        .collect();
    Sheet { leaves: 6, top: 64, horizon: H.1, nodes, differences, ..Sheet::default() }
}

#[test]
fn large_sheets() {
    println!("seed {}", SEED + 1);
    let mut random = Random::new(SEED + 1);
    let sizes = [1, 6, 7, 9, 10, 11, 12, 99, 100, 101, 128, 255, 256, 256, 256];
    let mut plans: Vec<Plan> = (0..75).filter_map(|round| compare_large(&spread(&mut random, sizes[round % sizes.len()]))).collect();
    plans.extend((0..6).filter_map(|round| compare_large(&made::large(&mut random, 4 * round))));
    plans.push(compare_large(&chain(16, 4_095)).expect("a chain within H"));
    assert!(compare_large(&chain(17, 4_095)).is_none(), "a chain past H");
    plans.push(compare_large(&chain(127, H.1)).expect("a chain within the greatest H"));
    let whole = plans.iter().filter(|plan| plan.labels.len() == 256).count();
    println!("{} plans, {whole} of 256 nodes", plans.len());
    assert!(plans.len() > 40 && whole > 10);
    // One digit, and as many as there can be; each count of leaves.
    assert_eq!(digits(&plans, |plan| [plan.latency].into_iter()), (1, 5));
    assert_eq!(digits(&plans, |plan| plan.labels.iter().map(|label| label.0)), (1, 5));
    assert_eq!(digits(&plans, |plan| plan.labels.iter().map(|label| label.1)), (1, 2));
    assert_eq!(digits(&plans, |plan| plan.leaves.iter().flatten().copied()), (1, 3));
    for count in 0..=6 {
        assert!(plans.iter().any(|plan| plan.leaves.iter().any(|leaves| leaves.len() == count)), "no node with {count} leaves");
    }
}

#[test]
fn differences_of_one_to_five_digits() {
    // Two inputs w steps apart, and a table on both.
    let nodes = vec![input(), input(), table(true, &[0, 1])];
    let five = [(H.1, W as i32), (H.1, 16_384), (16_384, 16_384), (16_383, 16_383), (10_000, 10_000)];
    let fewer = [(9_999, 9_999), (4_095, 4_095), (H.1, 3_807), (1_000, 1_000), (999, 999), (100, 99), (10, 10), (10, 9)];
    for (horizon, weight) in five.into_iter().chain(fewer) {
        let differences = vec![Difference { from: 0, to: 1, weight }];
        let sheet = Sheet { leaves: 2, top: 1, horizon, nodes: nodes.clone(), differences, ..Sheet::default() };
        let expected = format!("latency {weight}\n0 0 0 used\n1 {weight} 0 used\n2 {weight} 1 used 0 1\n");
        compare(&spelled(&numbers(&sheet)), &expected);
    }
}

#[test]
fn the_latency_of_outputs() {
    // A table in step 3, and a box on it with lat = 200, which is an output or not: its line says the same, and the first line does not.
    for (marks, latency) in [([false, false], 0), ([true, false], 3), ([false, true], 203), ([true, true], 203)] {
        let nodes = vec![input(), table(marks[0], &[0]), Node { output: marks[1], ..boxed(0, 200, 1, &[1]) }];
        let sheet = Sheet { leaves: 2, top: 1, horizon: 203, nodes, differences: differences(&[(0, 1, 3)]), ..Sheet::default() };
        compare(&spelled(&numbers(&sheet)), &format!("latency {latency}\n0 0 0 used\n1 3 1 used 0\n2 3 1 used\n"));
        compare(&spelled(&numbers(&Sheet { horizon: 202, ..sheet })), "refused 7 0\n");
    }
}

#[test]
fn a_box_that_waits_for_its_window() {
    // Box 1 starts in step 2 or 3 of 8, at level d where it waited, and is ready three steps on.
    for (asked, line) in [(0, "2 1"), (2, "2 1"), (3, "3 1"), (4, "10 1"), (9, "10 1")] {
        let nodes = vec![input(), boxed(1, 3, 0, &[0])];
        let (differences, windows) = (differences(&[(0, 1, asked)]), windows(&[(1, 2, 4)]));
        let sheet = Sheet { horizon: 13, nodes, differences, period: 8, windows, ..Sheet::default() };
        compare(&spelled(&numbers(&sheet)), &format!("latency 0\n0 0 0 used\n1 {line} used\n"));
        compare(&spelled(&numbers(&Sheet { horizon: 4, ..sheet })), "refused 7 0\n");
    }
}

#[test]
fn refusals_far_into_a_sheet() {
    println!("seed {}", SEED + 2);
    let mut random = Random::new(SEED + 2);
    let whole = numbers(&greatest(&mut random));
    let bytes = spelled(&whole);
    let mut met = [0; 6];
    let mut expect = |bytes: &[u8]| {
        let (number, place) = reader::read(bytes).expect_err("a damaged sheet");
        compare(bytes, &refusal_line(number, place));
        met[number as usize] += u32::from(place > 999);
    };
    for length in [0, 9, 10, 99, 100, 999, 1_000, 1_001, 5_000, 9_000, 9_999, 10_000, bytes.len() - 1] {
        expect(&bytes[..length]);
    }
    for _ in 0..40 {
        // A second byte of 0, a third of 0 or above 127; a value outside every range, or an operand id that is; a tail.
        let index = random.within(1000, whole.len() as u32 - 1) as usize;
        for spelling in [&[0x80, 0][..], &[0x80, 0x80, 0], &[0x80, 0x80, 0x80], &[0xff, 0xff, 0x7f]] {
            expect(&respelled(&whole, index, spelling));
        }
        expect(&[bytes.clone(), vec![random.next() as u8; random.within(1, 300) as usize]].concat());
    }
    println!("refusals 1 to 5 with a place above 999: {:?}", &met[1..]);
    assert!(met[1..].iter().all(|&count| count > 3), "{met:?}");
}

#[test]
fn tables_without_a_cut() {
    // Three inputs, tables that read one of them, and one that reads all three.
    for own in [3, 9, 10, 99, 100, 101, 199, 255] {
        let mut nodes = vec![input(); 3];
        nodes.resize(256, table(true, &[1]));
        nodes[own as usize] = table(false, &[0, 1, 2]);
        let sheet = Sheet { leaves: 2, top: 1, horizon: 0, nodes, ..Sheet::default() };
        compare(&spelled(&numbers(&sheet)), &format!("refused 6 {own}\n"));
    }
}

#[test]
fn input_longer_than_the_program_reads() {
    let mut random = Random::new(SEED + 3);
    for sheet in [chain(16, 4_095), greatest(&mut random), greatest_with(&mut random, |_| (63, 64)), spread(&mut random, 6)] {
        let bytes = spelled(&numbers(&sheet));
        for length in [STOP - 1, STOP, STOP + 1, STOP + 128, 2 * STOP, 10 * STOP + 1] {
            let longer = [bytes.clone(), vec![0; length - bytes.len()]].concat();
            compare(&longer, &refusal_line(5, bytes.len() as u64));
        }
    }
}

#[test]
fn input_in_pieces() {
    let mut random = Random::new(SEED + 4);
    let bytes = spelled(&numbers(&spread(&mut random, 40)));
    let mut buffer = vec![0; 5000];
    let answer = plan(&bytes, &mut buffer);
    assert_eq!(answer.number, 0);
    let expected = listing(40, &buffer[..answer.place as usize]);
    for piece in [1, 7, 64] {
        let output = in_pieces(&mut Command::new(program("listing")), &bytes, piece);
        assert_eq!(String::from_utf8_lossy(&output.stdout), expected, "in pieces of {piece}");
    }
}
