//! Times the proved BLIF importer beside the independent one, on texts as ABC writes them and on hostile ones. ABC itself is not timed.
#![cfg_attr(not(planner), allow(dead_code, unused_imports))]
use maps_tests::blif::{outcome, records, Caller, NAME, TEXT};
use maps_tests::models::{abc, sheet};
use maps_tests::random::Random;
use maps_tests::reader::Sheet;
use std::collections::HashSet;
use std::hint::black_box;
use std::time::Instant;

/// A room that no sheet exceeds.
const AMPLE: usize = 13_000;

const CALLER: Caller = Caller { leaves: 6, top: 64, horizon: 4_095, table: 900, level: 100 };

/// How long each work is timed in all, in seconds, and how often at least and at most.
const SPAN: f64 = 0.5;
const RUNS: (usize, usize) = (3, 200);

/// The least time of each work, in microseconds for a call. They take turns, and each goes first as often.
fn times(works: &mut [&mut dyn FnMut()], calls: u32) -> Vec<f64> {
    let mut best = vec![f64::INFINITY; works.len()];
    let begin = Instant::now();
    for run in 0..RUNS.1 {
        if run >= RUNS.0 && begin.elapsed().as_secs_f64() > SPAN {
            break;
        }
        for turn in 0..works.len() {
            let i = (run + turn) % works.len();
            let start = Instant::now();
            for _ in 0..calls {
                works[i]();
            }
            best[i] = best[i].min(start.elapsed().as_secs_f64() * 1e6 / f64::from(calls));
        }
    }
    best
}

/// One line: the text's bytes, number and place of the answer, the importer's time and millions of bytes in a second, the time of the independent
/// importer and the ratio. Gives the importer's time.
#[cfg(planner)]
fn row(name: &str, text: &[u8], calls: u32) -> f64 {
    let mut buffer = vec![0; AMPLE];
    let answer = maps_tests::library::import(text, &CALLER, &mut buffer);
    let (number, place, _) = outcome(&records(text, &CALLER), AMPLE);
    assert!((answer.number, answer.place) == (number, place) && text.len() <= TEXT, "{name}: {answer:?}, {} bytes", text.len());
    let mut ours = || {
        black_box(maps_tests::library::import(black_box(text), &CALLER, &mut buffer));
    };
    let mut theirs = || {
        black_box(outcome(&records(black_box(text), &CALLER), AMPLE));
    };
    let best = times(&mut [&mut ours, &mut theirs], calls);
    print!("{name:<46} {:>6} bytes  {number:>2} {place:>5}  {:>9.1} us  {:>6.1} MB/s", text.len(), best[0], text.len() as f64 / best[0]);
    println!("  independent importer {:>7.1} us  ratio {:.2}", best[1], best[0] / best[1]);
    best[0]
}

#[cfg(not(planner))]
fn row(name: &str, _: &[u8], _: u32) -> f64 {
    println!("{name}: the planning library is not built");
    0.0
}

/// A text of n nodes as ABC writes it, with latches or tables in their place.
fn common(random: &mut Random, n: u32, latches: bool) -> Vec<u8> {
    let mut sheet: Sheet = sheet(random, n, &CALLER);
    for node in sheet.nodes.iter_mut().filter(|node| node.kind == 2 && !latches) {
        (node.kind, node.delay, node.latency) = (1, 9, 0);
    }
    abc(random, &sheet)
}

/// A text that repeats a part as often as it fits.
fn filled(before: &[u8], part: &[u8], after: &[u8]) -> Vec<u8> {
    repeated(before, part, (TEXT - before.len() - after.len()) / part.len(), after)
}

fn repeated(before: &[u8], part: &[u8], count: usize, after: &[u8]) -> Vec<u8> {
    [before, &part.repeat(count), after].concat()
}

/// So many different names of two bytes, with a blank before each.
fn two_byte_names(count: usize) -> Vec<u8> {
    (0..count).flat_map(|i| [32, (i / 160) as u8 + 93, (i % 160) as u8 + 93]).collect()
}

/// The hash of a name as crates/scan defines it, and the bucket of crates/names.
const FACTOR: u32 = 16_777_619;

fn hash(name: &[u8]) -> u32 {
    name.iter().fold(2_166_136_261, |hash: u32, &byte| hash.wrapping_mul(FACTOR).wrapping_add(u32::from(byte)))
}

fn bucket(name: &[u8]) -> u32 {
    hash(name) % 512
}

/// A byte for a number below 158, one that has no meaning of its own in a text.
fn plain(i: u32) -> u8 {
    (i + 93) as u8
}

/// So many names in one bucket: `first`, and names that begin with it and are three bytes longer.
fn one_bucket(first: &[u8], count: usize) -> Vec<Vec<u8>> {
    let longer = (0..158 * 158 * 158).map(|i| [first, &three(i)].concat());
    let names = [first.to_vec()].into_iter().chain(longer.filter(|name| bucket(name) == bucket(first)));
    names.take(count).collect()
}

/// Three bytes for a number below 158 to the power of 3.
fn three(i: u32) -> [u8; 3] {
    [plain(i / 158 / 158), plain(i / 158 % 158), plain(i % 158)]
}

/// So many names of seven bytes whose hashes are all equal. A hash is a polynomial in the name's bytes, so the last three that a beginning needs are
/// found by what they add.
fn one_hash(count: usize) -> Vec<Vec<u8>> {
    let added = |end: &[u8]| end.iter().fold(0u32, |sum, &byte| sum.wrapping_mul(FACTOR).wrapping_add(u32::from(byte)));
    let mut ends: Vec<(u32, [u8; 3])> = (0..158 * 158 * 158).map(three).map(|end| (added(&end), end)).collect();
    ends.sort_unstable();
    let target = hash(b"aaaaaaa");
    let begins = (0..158 * 158 * 158).map(|i| [&b"a"[..], &three(i)].concat());
    let whole = begins.filter_map(|begin| {
        let wanted = target.wrapping_sub(hash(&begin).wrapping_mul(FACTOR.wrapping_pow(3)));
        let found = ends.binary_search_by_key(&wanted, |end| end.0).ok()?;
        Some([begin.as_slice(), &ends[found].1].concat())
    });
    let names: Vec<Vec<u8>> = whole.take(count).collect();
    assert!(names.len() == count && names.iter().all(|name| hash(name) == target), "{} names", names.len());
    names
}

/// A model that defines these names and puts one of them out as often as fits.
fn looked_up(names: &[Vec<u8>], name: &[u8]) -> Vec<u8> {
    let different: HashSet<&Vec<u8>> = names.iter().collect();
    assert!(different.len() == names.len() && names.len() <= 256);
    let head = [b".model m\n.inputs ", names.join(&32).as_slice(), b"\n.outputs"].concat();
    filled(&head, &[b" ", name].concat(), b"\n.end\n")
}

/// A name and so many joins behind its first byte.
fn joined(name: &[u8], joins: usize) -> Vec<u8> {
    [&name[..1], &b"\\\n".repeat(joins), &name[1..]].concat()
}

/// Words that begin with the same byte, in an order in which a sort by merging compares the first, with so many joins in it, with each other.
fn joins_among(joins: usize, others: u32) -> Vec<u8> {
    let mut line = joined(b"a\xff", joins);
    line.extend((0..others).flat_map(|i| [32, b'a', plain(i / 158), plain(i % 158)]));
    line
}

/// A text with its name.
type Named = (String, Vec<u8>);

fn named(name: &str, text: Vec<u8>) -> Named {
    (name.to_string(), text)
}

/// A model with one line of `.inputs`.
fn inputs(words: &[u8]) -> Vec<u8> {
    [b".model m\n.inputs ", words, b"\n.end\n"].concat()
}

/// Texts with many names on a line.
fn many_names() -> Vec<Named> {
    let undefined = [b".model m\n.inputs a\n.names", two_byte_names(21_000).as_slice(), b"\n.end\n"].concat();
    vec![
        named("21,000 different inputs on a line", inputs(&two_byte_names(21_000))),
        named("the same, the last the first again", inputs(&[two_byte_names(20_999), two_byte_names(1)].concat())),
        named("one input as often as fits", filled(b".model m\n.inputs", b" a", b"\n.end\n")),
        named("one .names, one operand as often as fits", filled(b".model m\n.inputs a\n.names", b" a", b" b\n.end\n")),
        named("one .names, 20,999 undefined operands", undefined),
        named("one output as often as fits", filled(b".model m\n.inputs a\n.outputs", b" a", b"\n.end\n")),
        named("the same, the last undefined", filled(b".model m\n.inputs a\n.outputs", b" a", b" b\n.end\n")),
        named("the same, no .end", filled(b".model m\n.inputs a\n.outputs", b" a", b"")),
    ]
}

/// Texts with joins and with long words.
fn joins_and_long_words() -> Vec<Named> {
    let mut all = vec![
        named("32,768 joins", repeated(b"", b"\\\n", 32_768, b"")),
        named("joins in a directive", filled(b".model m\n.input", b"\\\n", b"s a\n.end\n")),
        named("a word of 65,000 bytes, defined", inputs(&[b'x'; 65_000])),
        named("a word of 65,000 bytes, put out", repeated(b".model m\n.inputs a\n.outputs ", b"x", 65_000, b"\n.end\n")),
        named("a word with 16,000 joins among 8,000 inputs", inputs(&joins_among(16_000, 8_000))),
        named("a word with 32,000 joins among 255 inputs", inputs(&joins_among(32_000, 255))),
    ];
    for joins in [8_192, 16_000, 24_000] {
        all.push(named(&format!("{joins} joins in a name, put out"), looked_up(&[joined(b"ab", joins)], b"ab")));
    }
    all.push(named("16,380 joins behind a name, put out", looked_up(&[joined(b"a", 16_380)], b"a")));
    let mut names = one_bucket(b"a", 256);
    names[0] = joined(b"a", 15_000);
    all.push(named("15,000 joins and 255 names more, put out", looked_up(&names, b"a")));
    let head = [b".model m\n.inputs ", names[..255].join(&32).as_slice(), b"\n.names"].concat();
    all.push(named("15,000 joins and 254 names more, operands", filled(&head, b" a", b" z\n.end\n")));
    all
}

/// Texts whose names share a bucket. The name that was added last comes first in it, so looking up the first passes all others.
fn buckets() -> Vec<Named> {
    let mut all = Vec::new();
    for length in [1, 2, 4, 8, 16, NAME - 3] {
        let names = one_bucket(&vec![b'a'; length], 256);
        all.push(named(&format!("256 names in a bucket, that of {length} bytes put out"), looked_up(&names, &names[0])));
    }
    let names = one_hash(256);
    all.push(named("256 names of one hash, the first put out", looked_up(&names, &names[0])));
    all
}

/// Texts with many lines, or with none that says anything.
fn many_lines() -> Vec<Named> {
    vec![
        named("65,536 newlines", repeated(b"", b"\n", 65_536, b"")),
        named("a comment of 65,536 bytes", repeated(b"", b"#", 65_536, b"")),
        named("comments, a line each", repeated(b"", b"#\n", 32_768, b"")),
        named("65,536 blanks", repeated(b"", b" ", 65_536, b"")),
        named("lines of one blank", repeated(b"", b" \n", 32_768, b"")),
        named("rows of six inputs", filled(b".model m\n.inputs a\n.names a a a a a a b\n", b"111111 1\n", b".end\n")),
        named("rows of one input", filled(b".model m\n.inputs a\n.names a b\n", b"1 1\n", b".end\n")),
        named("rows of no inputs", filled(b".model m\n.names b\n", b"1\n", b".end\n")),
        named("lines of .inputs, no names", filled(b".model m\n.inputs a\n", b".inputs\n", b".end\n")),
        named("lines of .outputs, no names", filled(b".model m\n.inputs a\n", b".outputs\n", b".end\n")),
        named("lines of .outputs, one name", filled(b".model m\n.inputs a\n", b".outputs a\n", b".end\n")),
    ]
}

fn main() {
    let mut random = Random::new(7);
    for most in [16, 64, 128, 256] {
        row(&format!("{most} nodes"), &common(&mut random, most, false), 10);
    }
    row("256 nodes, latches among them", &common(&mut random, 256, true), 10);
    println!();
    let hostile = [many_names(), joins_and_long_words(), buckets(), many_lines()].concat();
    let mut slow: Vec<(f64, &str)> = hostile.iter().map(|(name, text)| (row(name, text, 1), name.as_str())).collect();
    slow.sort_by(|a, b| b.0.total_cmp(&a.0));
    println!("\nthe slowest:");
    for (time, name) in &slow[..3] {
        println!("{time:>9.1} us  {name}");
    }
}
