//! The proved reader against the independent one: number, place and both tables, on sheets within the ranges, damaged sheets and random bytes.
use maps_tests::library::{read, Answer, Tables};
use maps_tests::limits::{width, H};
use maps_tests::made::{damaged, greatest_up_to, greatest_with, numbers, period_index, sheet, slots, spelled, wrong_q, wrong_windows};
use maps_tests::random::Random;
use maps_tests::reader;

const SEED: u64 = 20260101;

/// Compares one reading, and gives number and place.
fn compare(bytes: &[u8]) -> (u64, u64) {
    let mut tables = Tables::filled_with(0xdead_beef);
    let answer = read(bytes, &mut tables);
    match reader::read(bytes) {
        Ok(sheet) => {
            assert_eq!(answer, Answer { number: 0, place: 0 }, "{bytes:?}");
            assert!(tables == Tables::of(&sheet), "tables of {bytes:?}");
        }
        Err((number, place)) => {
            assert_eq!(answer, Answer { number, place }, "{bytes:?}");
            assert!(tables == Tables::filled_with(0xdead_beef), "a refusal wrote: {bytes:?}");
        }
    }
    (answer.number, answer.place)
}

#[test]
fn made_up_sheets_read() {
    println!("seed {SEED}");
    let mut random = Random::new(SEED);
    // How many numbers have one, two and three bytes: of H, and of all.
    let (mut horizons, mut all) = ([0; 3], [0; 3]);
    // How many boxes with a latency have q = 0, q = T and a q between them.
    let mut levels = [0; 3];
    // How many windows are whole, of one step, up to the end of the period, and of another shape.
    let mut shapes = [0; 4];
    for round in 0..4000 {
        let most = if round % 10 == 0 { 256 } else { 12 };
        let sheet = sheet(&mut random, most);
        horizons[width(sheet.horizon) - 1] += 1;
        for node in sheet.nodes.iter().filter(|node| node.latency > 0) {
            levels[if node.clock_to_q == 0 { 0 } else if node.clock_to_q == sheet.top { 1 } else { 2 }] += 1;
        }
        for window in &sheet.windows {
            let ways = [window.to - window.from == sheet.period, window.to - window.from == 1, window.to == sheet.period, true];
            shapes[ways.iter().position(|&way| way).unwrap()] += 1;
        }
        numbers(&sheet).into_iter().for_each(|value| all[width(value) - 1] += 1);
        assert_eq!(compare(&spelled(&numbers(&sheet))), (0, 0));
    }
    println!("by bytes: H {horizons:?}, all numbers {all:?}; q of 0, of T and between: {levels:?}; windows: {shapes:?}");
    assert!(horizons.iter().all(|&count| count > 1000) && all.iter().all(|&count| count > 50_000), "{horizons:?} {all:?}");
    assert!(levels.iter().all(|&count| count > 1000) && shapes.iter().all(|&count| count > 500), "{levels:?} {shapes:?}");
}

/// What was wrong with a number: its third byte is missing, its second is 0, its third is 0, its third is above 127.
#[derive(Debug, Default)]
struct Spellings {
    third_missing: u32,
    second_0: u32,
    third_0: u32,
    third_above: u32,
}

impl Spellings {
    fn count(&mut self, bytes: &[u8], (number, place): (u64, u64)) {
        let byte = |i: usize| bytes.get(place as usize + i);
        match number {
            1 => self.third_missing += u32::from(bytes.len() > 1 && bytes[bytes.len() - 2..].iter().all(|&byte| byte > 127)),
            2 if byte(1) == Some(&0) => self.second_0 += 1,
            2 if byte(2) == Some(&0) => self.third_0 += 1,
            2 => self.third_above += 1,
            _ => {}
        }
    }
}

#[test]
fn damaged_sheets_are_refused_alike() {
    println!("seed {SEED}");
    let mut random = Random::new(SEED + 1);
    let (mut met, mut spellings) = ([0; 6], Spellings::default());
    for _ in 0..20000 {
        let whole = sheet(&mut random, 8);
        let bytes = damaged(&mut random, &whole);
        let answer = compare(&bytes);
        met[answer.0 as usize] += 1;
        spellings.count(&bytes, answer);
    }
    println!("accepted and refused 1 to 5: {met:?}, {spellings:?}");
    assert!(met.iter().all(|&count| count > 200), "each ground occurs often: {met:?}");
    let Spellings { third_missing, second_0, third_0, third_above } = spellings;
    assert!([third_missing, second_0, third_0, third_above].iter().all(|&count| count > 100), "each fault of a spelling occurs often");
}

#[test]
fn every_q_out_of_its_range_is_refused_there() {
    println!("seed {}", SEED + 5);
    let mut random = Random::new(SEED + 5);
    // By kind, and last the boxes with a latency.
    let mut met = [0; 4];
    for _ in 0..2000 {
        let whole = sheet(&mut random, 12);
        // Header, the nodes before, kind, mark, d, lat.
        let mut index = 5 + 4;
        for (own, node) in whole.nodes.iter().enumerate() {
            let mut wrong = whole.clone();
            wrong.nodes[own].clock_to_q = wrong_q(&mut random, node, whole.top);
            let all = numbers(&wrong);
            assert_eq!(compare(&spelled(&all)), (3, spelled(&all[..index]).len() as u64), "q of {own} of {wrong:?}");
            met[if node.latency > 0 { 3 } else { node.kind as usize }] += 1;
            index += 6 + node.operands.len();
        }
    }
    println!("inputs, tables, boxes without and with a latency: {met:?}");
    assert!(met.iter().all(|&count| count > 500), "{met:?}");
}

#[test]
fn every_number_of_the_windows_made_wrong() {
    println!("seed {}", SEED + 6);
    let mut random = Random::new(SEED + 6);
    // P, the count, and id, from and to of a window.
    let mut met = [0; 5];
    for round in 0..1500 {
        let whole = if round % 2 == 0 { slots(&mut random, 8, 9) } else { sheet(&mut random, 6) };
        let first = period_index(&whole);
        for (index, value) in wrong_windows(&whole) {
            let mut all = numbers(&whole);
            all[index] = value;
            let place = spelled(&all[..index]).len();
            let bytes = spelled(&all);
            assert_eq!(compare(&bytes), (3, place as u64), "number {index} = {value} of {whole:?}");
            // What comes after it has no say: a wrong spelling, nothing at all, or bytes past the end.
            let end = place + width(value);
            assert_eq!(compare(&bytes[..end]), (3, place as u64));
            assert_eq!(compare(&[&bytes[..end], &[0x80, 0]].concat()), (3, place as u64));
            assert_eq!(compare(&[&bytes[..], &[0]].concat()), (3, place as u64));
            met[if index < first + 2 { index - first } else { 2 + (index - first - 2) % 3 }] += 1;
        }
    }
    println!("P, counts, ids, from and to: {met:?}");
    assert!(met.iter().all(|&count| count > 4000), "{met:?}");
}

#[test]
fn random_bytes_are_refused_alike() {
    println!("seed {SEED}");
    let mut random = Random::new(SEED + 2);
    for _ in 0..20000 {
        let length = random.within(0, 40);
        let bytes: Vec<u8> = (0..length).map(|_| if random.once_in(4) { random.next() as u8 } else { random.within(0, 6) as u8 }).collect();
        compare(&bytes);
    }
}

#[test]
fn every_prefix_of_a_sheet_ends_too_early() {
    let mut random = Random::new(SEED + 3);
    // How many prefixes end after the first byte of a number and after its second.
    let mut ends = [0, 0];
    for _ in 0..10 {
        let bytes = spelled(&numbers(&sheet(&mut random, 40)));
        for length in 0..bytes.len() {
            assert_eq!(compare(&bytes[..length]), (1, length as u64));
            match bytes[..length].iter().rev().take_while(|&&byte| byte > 127).count() {
                0 => {}
                count => ends[count - 1] += 1,
            }
        }
        assert_eq!(compare(&bytes), (0, 0));
    }
    assert!(ends.iter().all(|&count| count > 100), "{ends:?}");
}

#[test]
fn the_greatest_sheet_reads() {
    let mut random = Random::new(SEED + 4);
    for far in [4_095, H.1] {
        assert_eq!(compare(&spelled(&numbers(&greatest_up_to(&mut random, far)))), (0, 0));
    }
    let windowed = greatest_with(&mut random, |random| (random.within(0, 63), 64));
    assert_eq!((windowed.windows.len(), compare(&spelled(&numbers(&windowed)))), (127, (0, 0)));
}
