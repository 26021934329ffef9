//! Made-up BLIF texts: models of made-up sheets in many layouts, as ABC lays them out, at the limits, and damaged.
use crate::blif::{Caller, Word, NAME, OPERANDS, TEXT};
use crate::limits::{H, K, N, T};
use crate::made::input;
use crate::random::Random;
use crate::reader::{Node, Sheet};
use std::collections::HashSet;
use std::ops::Range;

/// The words of a model, line by line.
pub type Lines = Vec<Vec<Word>>;

/// One of several.
fn one_of<'a, X: ?Sized>(random: &mut Random, all: &[&'a X]) -> &'a X {
    all[random.within(0, all.len() as u32 - 1) as usize]
}

/// An index below a length, which is not 0.
fn index(random: &mut Random, length: usize) -> usize {
    random.within(0, length as u32 - 1) as usize
}

/// Numbers of the caller that are in their ranges: K, T and H of any size, and picoseconds of any size whose quotient rounded up is at most T.
pub fn caller(random: &mut Random) -> Caller {
    let top = if random.once_in(4) { [T.0, T.1][random.within(0, 1) as usize] } else { random.within(T.0, T.1) };
    let delay = if random.once_in(4) { top } else { random.within(1, top) };
    let greatest = u32::MAX / delay;
    let size = *one_of(random, &[&1, &9, &1_000, &100_000, &greatest]);
    let level = random.within(1, size.min(greatest));
    let part = random.within(1, level);
    let table = level * (delay - 1) + one_of(random, &[&1, &level, &part]);
    let far = *one_of(random, &[&9, &200, &20_000, &H.1]);
    let horizon = random.within(H.0, far);
    Caller { leaves: random.within(K.0, K.1), top, horizon, table, level }
}

/// Numbers of the caller of which one may be out of its range.
pub fn any_caller(random: &mut Random) -> Caller {
    let mut caller = caller(random);
    match random.within(0, 60) {
        0 => caller.leaves = *one_of(random, &[&0, &1, &7, &255, &256, &258, &0x8000_0003, &u32::MAX]),
        1 => caller.top = *one_of(random, &[&0, &65, &256, &320, &0x8000_0003, &u32::MAX]),
        2 => caller.horizon = *one_of(random, &[&65_536, &65_537, &131_071, &0x8000_0003, &u32::MAX]),
        3 => caller.table = 0,
        4 => caller.level = 0,
        // One picosecond too many, or many.
        5 if caller.level <= u32::MAX / 65 => caller.table = caller.level * caller.top + 1,
        6 => (caller.table, caller.level) = (random.within(65, u32::MAX - 1), 1),
        _ => {}
    }
    caller
}

/// d for a caller whose numbers are in their ranges.
fn delay(caller: &Caller) -> u32 {
    caller.table / caller.level + u32::from(caller.table % caller.level > 0)
}

/// A table with some of the nodes below it as operands, `own` being its id.
fn table(random: &mut Random, own: u32, count: u32, delay: u32) -> Node {
    let reach = if random.once_in(2) { own } else { own.min(4) };
    Node { kind: 1, delay, operands: (0..count).map(|_| own - random.within(1, reach)).collect(), ..input() }
}

/// A sheet that a model can have: boxes with d = 0, lat = 1 and one operand, tables with one d, no differences.
pub fn sheet(random: &mut Random, n: u32, caller: &Caller) -> Sheet {
    let first = random.within(0, n.min(8));
    let outputs = random.within(1, 6);
    let nodes = (0..n).map(|own| {
        let node = match random.within(0, 9) {
            _ if own < first.max(1) => input(),
            0 => input(),
            1 | 2 => Node { kind: 2, latency: 1, operands: vec![random.within(0, own - 1)], ..input() },
            _ => {
                let count = random.within(1, OPERANDS as u32);
                table(random, own, count, delay(caller))
            }
        };
        Node { output: random.once_in(outputs), ..node }
    });
    Sheet { leaves: caller.leaves, top: caller.top, horizon: caller.horizon, nodes: nodes.collect(), ..Sheet::default() }
}

/// A byte of a word: any but those that part words and lines and begin comments.
fn word_byte(random: &mut Random) -> u8 {
    loop {
        let byte = if random.once_in(2) { *one_of(random, &[&0, &11, &13, &92, &46, &128, &255, &160, &48, &45, &65]) } else { random.next() as u8 };
        if ![9, 10, 32, 35].contains(&byte) {
            return byte;
        }
    }
}

/// Words that stand for something else where they are no names.
const OTHERS: [&str; 18] = [
    ".model", ".inputs", ".outputs", ".names", ".latch", ".end", ".exdc", ".END", ".", "..", "\\", "\\\\", "0", "1", "-", "11", "01-", "\r",
];

/// A name in one of several styles. Names of the styles 3 and 4 are alike but for one byte or two.
fn name(random: &mut Random, style: u32, number: usize) -> Word {
    match style {
        0 => format!("n{number}").into_bytes(),
        1 => format!("new_n{}", 17 + number).into_bytes(),
        2 => (0..random.within(1, NAME as u32)).map(|_| word_byte(random)).collect(),
        3 => {
            let mut name = vec![b'a'; NAME];
            name[random.within(0, NAME as u32 - 1) as usize] = word_byte(random);
            name
        }
        4 => {
            let mut name = b"lift.car.door.".to_vec();
            name.extend([word_byte(random), word_byte(random)]);
            name
        }
        5 => (0..random.within(1, 2)).map(|_| word_byte(random)).collect(),
        6 => format!("{}{}", one_of(random, &OTHERS), if random.once_in(4) { String::new() } else { number.to_string() }).into_bytes(),
        _ => {
            let style = random.within(0, 6);
            name(random, style, number)
        }
    }
}

/// So many different names.
pub fn names(random: &mut Random, count: usize) -> Vec<Word> {
    let style = random.within(0, 7);
    let (mut all, mut met) = (Vec::new(), HashSet::new());
    while all.len() < count {
        let next = name(random, style, all.len());
        if met.insert(next.clone()) {
            all.push(next);
        }
    }
    all
}

fn word(text: &str) -> Word {
    text.as_bytes().to_vec()
}

/// Lines of a directive with these names, in their order; where there are none, no line or some.
fn directive(random: &mut Random, directive: &str, names: Vec<Word>) -> Lines {
    let mut lines: Lines = vec![vec![word(directive)]; usize::from(!names.is_empty() || random.once_in(2))];
    let few = random.within(1, 20);
    for name in names {
        while random.once_in(few + 1) {
            lines.push(vec![word(directive)]);
        }
        lines.last_mut().unwrap().push(name);
    }
    lines
}

/// Two lists of lines in one, each in its order.
fn merged(random: &mut Random, one: Lines, other: Lines) -> Lines {
    let (mut one, mut other) = (one.into_iter().peekable(), other.into_iter().peekable());
    let mut all = Vec::new();
    while one.peek().is_some() || other.peek().is_some() {
        let from = if random.once_in(2) { &mut one } else { &mut other };
        all.extend(from.next());
    }
    all
}

/// A row for so many inputs.
fn row(random: &mut Random, width: usize) -> Vec<Word> {
    let inputs: Word = (0..width).map(|_| *one_of(random, &[&b'0', &b'1', &b'-'])).collect();
    let value = word(one_of(random, &["0", "1"]));
    if width == 0 { vec![value] } else { vec![inputs, value] }
}

/// The lines of a model of a sheet, whose nodes have these names; the name after them is the model's. Inputs up to the first other node may stand in
/// `.inputs`, the others are `.names` that read nothing.
pub fn lines(random: &mut Random, sheet: &Sheet, names: &[Word]) -> Lines {
    let leading = sheet.nodes.iter().take_while(|node| node.kind == 0).count();
    let listed = if random.once_in(3) { random.within(0, leading as u32) as usize } else { leading };
    let mut outputs: Vec<Word> = Vec::new();
    for (node, name) in sheet.nodes.iter().zip(names).filter(|(node, _)| node.output) {
        let at = random.within(0, outputs.len() as u32) as usize;
        outputs.splice(at..at, vec![name.clone(); 1 + usize::from(node.kind == 0 || random.once_in(9))]);
    }
    let inputs = directive(random, ".inputs", names[..listed].to_vec());
    let outputs = directive(random, ".outputs", outputs);
    let mut all = vec![vec![word(".model"), names[sheet.nodes.len()].clone()]];
    all.extend(merged(random, inputs, outputs));
    for (own, node) in sheet.nodes.iter().enumerate().skip(listed) {
        let mut line = vec![word(if node.kind == 2 { ".latch" } else { ".names" })];
        line.extend(node.operands.iter().map(|&id| names[id as usize].clone()));
        line.push(names[own].clone());
        if node.kind == 2 && random.once_in(2) {
            line.push(word(one_of(random, &["0", "1", "2", "3"])));
        }
        all.push(line);
        if node.kind != 2 {
            all.extend((0..random.within(0, 3)).map(|_| row(random, node.operands.len())));
        }
    }
    all.push(vec![word(".end")]);
    all
}

/// So many blanks.
fn blanks(random: &mut Random, low: u32, high: u32) -> Vec<u8> {
    (0..random.within(low, high)).map(|_| if random.once_in(4) { 9 } else { 32 }).collect()
}

/// A comment, which may end in a backslash.
fn comment(random: &mut Random) -> Vec<u8> {
    let text: Vec<u8> = (0..random.within(0, 9)).map(|_| *one_of(random, &[&b'#', &b' ', &b'x', &b'\\', &b'.', &9, &13, &0, &200])).collect();
    let end: &[u8] = if random.once_in(3) { b"\\" } else { b"" };
    [b"#", text.as_slice(), end].concat()
}

/// Bytes with joins at some places, also inside words.
fn with_joins(random: &mut Random, mut line: Vec<u8>) -> Vec<u8> {
    let mut places: Vec<usize> = (0..random.within(1, 3)).map(|_| random.within(0, line.len() as u32) as usize).collect();
    places.sort_by(|a, b| b.cmp(a));
    for at in places {
        line.splice(at..at, *b"\\\n");
    }
    line
}

/// The bytes of one line: words with blanks between them, and perhaps joins and a comment. A word that ends in a backslash is kept from the line's
/// end.
fn laid_line(random: &mut Random, words: &[Word], odd: bool) -> Vec<u8> {
    let mut line = if odd { blanks(random, 0, 1) } else { Vec::new() };
    for (i, word) in words.iter().enumerate() {
        if i > 0 {
            line.extend(if odd { blanks(random, 1, 3) } else { vec![32] });
        }
        line.extend(word);
    }
    if odd && random.once_in(3) {
        line = with_joins(random, line);
    }
    if odd && random.once_in(6) {
        line.extend(blanks(random, 0, 2));
        line.extend(comment(random));
    } else if line.last() == Some(&b'\\') {
        line.extend(one_of(random, &[" ", "\t", "#", "\\\n"]).as_bytes());
    }
    line.push(10);
    line
}

/// The text of these lines: plain, or with blank lines, comments, tabs and joins; sometimes without the last byte 10.
pub fn laid_out(random: &mut Random, lines: &Lines) -> Vec<u8> {
    let odd = !random.once_in(4);
    let mut text = Vec::new();
    for words in lines {
        while odd && random.once_in(8) {
            text.extend(match random.once_in(2) {
                true => blanks(random, 0, 2),
                false => comment(random),
            });
            text.push(10);
        }
        text.extend(laid_line(random, words, odd));
    }
    if random.once_in(4) {
        text.pop();
    }
    text
}

/// A text of a sheet in any names and any layout.
pub fn text(random: &mut Random, sheet: &Sheet) -> Vec<u8> {
    let names = names(random, sheet.nodes.len() + 1);
    let lines = lines(random, sheet, &names);
    laid_out(random, &lines)
}

/// A list of names after a directive as ABC breaks it over lines of about 78 bytes.
fn abc_list(directive: &str, names: &[String]) -> String {
    let (mut text, mut length) = (directive.to_string(), directive.len());
    for name in names {
        if length + name.len() + 4 > 78 {
            text += " \\\n";
            length = 0;
        }
        text += &format!(" {name}");
        length += name.len() + 1;
    }
    text + "\n"
}

/// A text of a sheet as ABC lays it out.
pub fn abc(random: &mut Random, sheet: &Sheet) -> Vec<u8> {
    let name = |(own, node): (usize, &Node)| match node.kind {
        _ if node.output => format!("po{own}"),
        0 => format!("pi{own}"),
        1 => format!("new_n{own}"),
        _ => format!("lo{own}"),
    };
    let names: Vec<String> = sheet.nodes.iter().enumerate().map(name).collect();
    let leading = sheet.nodes.iter().take_while(|node| node.kind == 0).count();
    let outputs: Vec<String> = names.iter().zip(&sheet.nodes).filter(|(_, node)| node.output).map(|(name, _)| name.clone()).collect();
    let mut text = format!("# Benchmark \"lift{}\" written by ABC on Tue Jan  6 10:11:12 2026\n.model lift\n", random.within(0, 99));
    text += &abc_list(".inputs", &names[..leading]);
    text += &abc_list(".outputs", &outputs);
    for (own, node) in sheet.nodes.iter().enumerate().skip(leading) {
        let operands: Vec<&str> = node.operands.iter().map(|&id| names[id as usize].as_str()).collect();
        match node.kind {
            2 => text += &format!(".latch {:>10} {:>10}  {}\n", operands[0], names[own], random.within(0, 3)),
            0 => text += &format!(".names {}\n {}\n", names[own], random.within(0, 1)),
            _ => {
                text += &format!(".names {} {}\n", operands.join(" "), names[own]);
                for _ in 0..random.within(1, 3) {
                    let words = row(random, operands.len());
                    text += &format!("{}\n", String::from_utf8(words.join(&32)).expect("a row"));
                }
            }
        }
    }
    (text + ".end\n").into_bytes()
}

/// A text made so many bytes long, where it is shorter, by lines without a word before it or behind it.
fn padded(random: &mut Random, text: Vec<u8>, length: usize) -> Vec<u8> {
    let more = length.saturating_sub(text.len());
    if more == 0 {
        return text;
    }
    let mut lines: Vec<u8> = match random.within(0, 2) {
        0 => vec![b'#'; more],
        1 => (0..more).map(|_| *one_of(random, &[&32, &9, &10])).collect(),
        // Joins; of an odd count the first byte ends a line.
        _ => b"\\\n".repeat(more / 2 + 1)[2 - more % 2..].to_vec(),
    };
    lines[more - 1] = 10;
    match random.once_in(2) {
        true => [lines, text].concat(),
        false => [text, vec![10], lines].concat()[..length].to_vec(),
    }
}

/// A text at a limit, on one of its sides: 255 to 257 nodes, names of 31 and 32 bytes, six and seven operands, 65,535 to 65,537 bytes.
pub fn at_limit(random: &mut Random, caller: &Caller) -> Vec<u8> {
    let kind = random.within(0, 4);
    let n = if kind == 0 { random.within(N.1 - 1, N.1 + 1) } else { random.within(1, 9) };
    let mut sheet = sheet(random, n, caller);
    if kind == 0 && random.once_in(3) {
        sheet.nodes = vec![input(); n as usize];
    }
    let mut names = names(random, n as usize + 1);
    if kind == 1 || kind == 4 {
        let length = NAME + random.within(0, 1) as usize;
        let at = index(random, names.len());
        names[at] = vec![b'z'; length];
    }
    if kind == 2 || kind == 4 {
        let count = OPERANDS as u32 + random.within(0, 1);
        sheet.nodes.push(table(random, n, count, delay(caller)));
        names.insert(n as usize, word("table"));
    }
    let lines = lines(random, &sheet, &names);
    let text = laid_out(random, &lines);
    match kind {
        3 => {
            let length = TEXT - 1 + random.within(0, 2) as usize;
            padded(random, text, length)
        }
        _ => text,
    }
}

/// A byte that often means something, or any.
fn odd_byte(random: &mut Random) -> u8 {
    match random.once_in(8) {
        true => random.next() as u8,
        false => *one_of(random, &[&0, &9, &10, &11, &13, &32, &35, &92, &46, &48, &49, &45, &50, &52, &97, &127, &128, &255]),
    }
}

/// Where words stand in a text, each up to the next blank or line's end.
fn places(text: &[u8]) -> Vec<Range<usize>> {
    let mut all = Vec::new();
    let mut start = 0;
    for part in text.split(|byte| [9, 10, 32].contains(byte)) {
        if !part.is_empty() {
            all.push(start..start + part.len());
        }
        start += part.len() + 1;
    }
    all
}

/// What may be appended to a text.
const TAILS: [&str; 12] = [
    "x", "\n", "\n# x", "\n\\", "\n.end\n", "\n.model m\n", "\n1 1\n", "\n.inputs\n", "\n.names x\n1\n", " ", "\n \t\n", "\\\n.end",
];

/// Damages a line: dropped, doubled, exchanged with another, or moved behind another.
fn damage_line(random: &mut Random, text: &mut Vec<u8>) {
    let mut lines: Vec<Vec<u8>> = text.split_inclusive(|&byte| byte == 10).map(<[u8]>::to_vec).collect();
    let (at, other) = (index(random, lines.len()), index(random, lines.len()));
    match random.within(0, 3) {
        0 => drop(lines.remove(at)),
        1 => lines.insert(other, lines[at].clone()),
        2 => lines.swap(at, other),
        _ => {
            let line = lines.remove(at);
            lines.insert(other.min(lines.len()), line);
        }
    }
    *text = lines.concat();
}

/// Damages a word: changed to another of the text, to one that may mean something or to a long one, dropped, doubled, or cut by a join, a blank or a
/// line's end.
fn damage_word(random: &mut Random, text: &mut Vec<u8>) {
    let words = places(text);
    if words.is_empty() {
        return;
    }
    let (at, other) = (words[index(random, words.len())].clone(), words[index(random, words.len())].clone());
    let cut = random.within(at.start as u32, at.end as u32) as usize;
    match random.within(0, 7) {
        0 | 1 => drop(text.splice(at, text[other].to_vec())),
        2 => drop(text.splice(at, word(one_of(random, &OTHERS)))),
        3 => drop(text.drain(at)),
        4 => drop(text.splice(at.end..at.end, [b" ", &text[at.clone()]].concat())),
        5 => drop(text.splice(cut..cut, *b"\\\n")),
        6 => text.insert(cut, *one_of(random, &[&9, &10, &32])),
        _ => drop(text.splice(at, vec![b'y'; NAME + 1 - random.within(0, 2) as usize])),
    }
}

/// Damages a byte: dropped, doubled, exchanged with the next, changed, or put in.
fn damage_byte(random: &mut Random, text: &mut Vec<u8>) {
    let at = index(random, text.len());
    let next = (at + 1).min(text.len() - 1);
    match random.within(0, 4) {
        0 => drop(text.remove(at)),
        1 => text.insert(at, text[at]),
        2 => text.swap(at, next),
        3 => text[at] = odd_byte(random),
        _ => text.insert(at, odd_byte(random)),
    }
}

/// A text damaged in one place or in several.
pub fn damaged(random: &mut Random, mut text: Vec<u8>) -> Vec<u8> {
    for _ in 0..*one_of(random, &[&1, &1, &1, &2, &5]) {
        if text.is_empty() {
            return text;
        }
        match random.within(0, 9) {
            0..=2 => damage_byte(random, &mut text),
            3..=5 => damage_line(random, &mut text),
            6 | 7 => damage_word(random, &mut text),
            8 => text.extend(one_of(random, &TAILS).as_bytes()),
            _ => text.truncate(random.within(0, text.len() as u32) as usize),
        }
    }
    text
}
