//! The BLIF importer: tables of small texts, for each sentence of U3 and each decided point, and a comparison with the independent importer, number,
//! place and every byte of the buffer, on made-up texts, whole and damaged, and on hostile ones.
#![cfg(planner)]
use maps_tests::blif::{self, Caller, Ground, Word, NAME, TEXT};
use maps_tests::header::defined;
use maps_tests::library::{import, imported, plan, read, Answer, Tables};
use maps_tests::limits::{Range, H, K, N, T};
use maps_tests::made::{input, numbers, spelled};
use maps_tests::models::{abc, any_caller, at_limit, caller, damaged, laid_out, sheet, text, Lines};
use maps_tests::random::Random;
use maps_tests::reader::{self, Node, Sheet};
use maps_tests::writer::Records;
use std::collections::BTreeMap;

const SEED: u64 = 20260107;

/// A room that no imported sheet exceeds.
const AMPLE: usize = 5_000;

/// The caller's numbers where a test is not about them: K = 3, T = 2, H = 4, d = 1.
const CALLER: Caller = Caller { leaves: 3, top: 2, horizon: 4, table: 1, level: 1 };

/// A text for a message, its first part.
fn shown(text: &[u8]) -> String {
    format!("{} bytes: {}", text.len(), text[..text.len().min(800)].escape_ascii())
}

/// The library's number and place in one room, and what it writes, which are those of the independent importer.
fn compare_in(text: &[u8], caller: &Caller, room: usize) -> (u64, u64, Vec<u8>) {
    compare_with(text, caller, &blif::records(text, caller), room)
}

/// The same, given what the independent importer finds.
fn compare_with(text: &[u8], caller: &Caller, found: &Result<Records, blif::Refusal>, room: usize) -> (u64, u64, Vec<u8>) {
    let (number, place, sheet) = blif::outcome(found, room);
    let (answer, written) = imported(text, caller, room);
    assert_eq!(answer, Answer { number, place }, "{caller:?} in {room}, {}", shown(text));
    assert!(written == sheet.unwrap_or_default(), "{written:?} written for {caller:?} in {room}, {}", shown(text));
    (number, place, written)
}

/// One refused text, in an ample room and in none.
fn refused_for(caller: &Caller, text: &[u8], number: u64, place: u64) {
    for room in [AMPLE, 0] {
        assert_eq!(compare_in(text, caller, room), (number, place, Vec::new()), "in {room}, {}", shown(text));
    }
}

/// A table of texts that are refused with one number, each with its place.
fn refused(number: u64, cases: &[(&str, u64)]) {
    for &(text, place) in cases {
        refused_for(&CALLER, text.as_bytes(), number, place);
    }
}

/// The nodes that words stand for: `i` an input, `t` a table and `b` a box with the ids that follow, a `*` for an output. The d of tables is given.
fn nodes(words: &str, delay: u32) -> Vec<Node> {
    let node = |word: &str| {
        let mut parts = word.split_whitespace();
        let kind = parts.next().expect("a kind");
        let operands = parts.map(|id| id.parse().expect("an id")).collect();
        let output = kind.ends_with('*');
        match kind.trim_end_matches('*') {
            "i" => Node { output, ..input() },
            "t" => Node { kind: 1, output, delay, operands, ..input() },
            "b" => Node { kind: 2, output, latency: 1, operands, ..input() },
            other => panic!("{other} is no kind"),
        }
    };
    words.split(',').map(node).collect()
}

/// The sheet reads, and planning it is refused for none of grounds 1 to 5.
fn reads(sheet: &[u8]) {
    let mut tables = Tables::filled_with(0xdead_beef);
    assert_eq!(read(sheet, &mut tables), Answer { number: 0, place: 0 }, "{sheet:?}");
    assert!(tables == Tables::of(&reader::read(sheet).expect("a sheet that reads")), "tables of {sheet:?}");
    let answer = plan(sheet, &mut vec![0; AMPLE]);
    assert!([0, 6, 7].contains(&answer.number), "planning {sheet:?}: {answer:?}");
}

/// One accepted text: its sheet in an ample room, in an exact one and in one byte more, and 8 in one byte less and in none.
fn accepted_for(caller: &Caller, text: &[u8], sheet: &[u8]) {
    let length = sheet.len();
    for room in [AMPLE, length + 1, length] {
        let (number, place, written) = compare_in(text, caller, room);
        assert_eq!((number, place), (0, length as u64), "in {room}, {}", shown(text));
        assert!(written == sheet, "{written:?} and not {sheet:?}, {}", shown(text));
    }
    for room in [length - 1, 0] {
        assert_eq!(compare_in(text, caller, room), (8, length as u64, Vec::new()), "in {room}, {}", shown(text));
    }
    reads(sheet);
}

/// The bytes of the sheet of these nodes.
fn sheet_of(caller: &Caller, nodes: Vec<Node>) -> Vec<u8> {
    let Caller { leaves, top, horizon, .. } = *caller;
    spelled(&numbers(&Sheet { leaves, top, horizon, nodes, ..Sheet::default() }))
}

/// A table of texts that are accepted, each with its nodes.
fn accepted(cases: &[(&str, &str)]) {
    for &(text, words) in cases {
        accepted_for(&CALLER, text.as_bytes(), &sheet_of(&CALLER, nodes(words, 1)));
    }
}

/// The text with each `@` made another byte or several.
fn with(text: &str, bytes: &[u8]) -> Vec<u8> {
    text.bytes().flat_map(|byte| if byte == b'@' { bytes.to_vec() } else { vec![byte] }).collect()
}

#[test]
fn a_model_and_its_bytes() {
    let text = b"# a lift\n.model hall\n.inputs a b\n.outputs q x\n.names a b x\n11 1\n.latch x q 0\n.names q one o\n-- 1\n.end\n";
    refused_for(&CALLER, text, 10, 8);
    let text = b"# a lift\n.model hall\n.inputs a b\n.outputs q x\n.names one\n1\n.names a b x\n11 1\n.latch x q 0\n.names q one o\n-- 1\n.end\n";
    // K, T, H, n, m; then kind, mark, d, lat, q, count and operands of a, b, one, x, q, o; then P = 1 and no windows.
    let header = [3, 2, 4, 6, 0];
    let inputs = [0; 18];
    let others = [1, 1, 1, 0, 0, 2, 0, 1, 2, 1, 0, 1, 0, 1, 3, 1, 0, 1, 0, 0, 2, 4, 2];
    accepted_for(&CALLER, text, &[&header[..], &inputs, &others, &[1, 0]].concat());
    // H of three bytes, d = 64, n of two bytes.
    let caller = Caller { leaves: 6, top: 64, horizon: 65_535, table: 64_000, level: 1_000 };
    let names: String = (0..255).map(|i| format!(" n{i}")).collect();
    let text = format!(".model m\n.inputs{names}\n.names n0 n254 z\n.end");
    let expected = [&[6, 64, 0xff, 0xff, 0x03, 0x80, 0x02, 0][..], &[0; 6 * 255], &[1, 0, 64, 0, 0, 2, 0, 0xfe, 0x01, 1, 0]].concat();
    accepted_for(&caller, text.as_bytes(), &expected);
}

#[test]
fn lines_and_their_ends() {
    accepted(&[
        (".model m\n.inputs a\n.end\n", "i"),
        (".model m\n.inputs a\n.end", "i"),
        (".model m\n.inputs a\n.end\n\n", "i"),
        ("\n\n.model m\n\n.inputs a\n \t \n.end\n \n\t\n\n", "i"),
        (".model m\n.inputs a\n.names a b\n\n \n# x\n1 1\n\n0 0\n.end\n# end", "i, t 0"),
    ]);
    // The lines before a fault count as they stand in the text, with a word or not.
    refused(9, &[
        ("x", 1),
        ("\nx", 2),
        ("\n\nx\n", 3),
        (" \n#\n\t\n\\\n\nx\n", 6),
        (".model m\n\n.inputs a\n#\nx\n.end\n", 5),
        (".model m\n.inputs a\n.end\n\n\nx", 6),
        // Byte 10 alone ends a line.
        (".model m\r.inputs a\r.end\r", 1),
        (".model m\u{b}.inputs a\n.end\n", 1),
    ]);
}

#[test]
fn a_missing_end() {
    refused(9, &[
        ("", 1),
        ("\n", 2),
        ("\n\n", 3),
        (" ", 2),
        (" \n", 2),
        ("#", 2),
        ("\\", 2),
        ("\\\n", 2),
        ("\\\n\\\n", 3),
        ("\\\n\\", 3),
        (".model m", 2),
        (".model m\n", 2),
        (".model m\n\n", 3),
        (".model m\n ", 3),
        (".model m\n#", 3),
        (".model m\n\\", 3),
        (".model m\\\n\\\n", 3),
        (".model m\n.inputs a", 3),
        (".model m\n.inputs a\n", 3),
        (".model m\n.inputs a\\\nb\\\n", 4),
        (".model m\n.inputs a\\\n b\n.names a c\\\n", 5),
        (".model m\n.inputs a\n.names a b\n1 1\n", 5),
        (".model m\n.inputs a\n.latch a b", 4),
        (".model m\n.inputs a\n.outputs z\n# .end\n", 5),
        // Before undefined outputs and before no nodes.
        (".model m\n.outputs z\n", 3),
        (".model m\n.inputs\n.outputs\n", 4),
        // `.end` is no word of its own there.
        (".model m\n.inputs a .end\n", 3),
        (".model m\n.inputs a\\\n.end\n", 4),
    ]);
}

#[test]
fn joined_lines() {
    accepted(&[
        (".model m\n.inputs a\\\n b\n.end", "i, i"),
        (".model m\n.inputs a \\\nb\n.end", "i, i"),
        // Nothing between them: one name, and a directive in two or in many parts.
        (".model m\n.inputs a\\\nb\n.outputs ab\n.end", "i*"),
        (".model m\n.inp\\\nuts a\n.end", "i"),
        ("\\\n.\\\nm\\\no\\\nd\\\ne\\\nl\\\n \\\nm\\\n\n.inputs a\n.e\\\nnd\\\n", "i"),
        (".model m\n.inputs a\n.names a a\\\n a b\n1\\\n11 \\\n1\n.end", "i, t 0 0 0"),
        // A line that is joined may be empty, or hold no word, or only a comment.
        (".model m\n.inputs a\\\n\n.end", "i"),
        (".model m\n.inputs a\\\n \t\n.end", "i"),
        (".model m\n.inputs a\\\n#b\n.end", "i"),
        (".model m\n.inputs a\\\nb#\\\n.outputs ab\n.end", "i*"),
        ("\\\n\\\n\n.model m\n.inputs a\n\\\n\n.end\n\\\n\\\n", "i"),
        // The last line's backslash is taken away and joins nothing.
        (".model m\n.inputs a\n.end\\", "i"),
        (".model m\n.inputs a\n.end\\\n", "i"),
        (".model m\n.inputs a\n.end \\", "i"),
        (".model m\n.inputs a\n.end\n\\", "i"),
        (".model m\n.inputs a\n.end\n \\\n", "i"),
        // Of two the last joins and the other is a byte of the word.
        (".model m\n.inputs a\\\\\nb\n.outputs a\\b\n.end", "i*"),
        (".model m\n.inputs a\\\\\\\nb\n.outputs a\\\\b\n.end", "i*"),
        (".model m\n.inputs \\\\\n\n.outputs \\ \n.end", "i*"),
        // Elsewhere a backslash is a byte of the word.
        (".model m\n.inputs a\\b \\ \n.outputs a\\b\n.end", "i*, i"),
        (".model m\n.inputs a\\ \n.outputs a\\\t\n.end", "i*"),
        (".model m\n.inputs a\\#\n.outputs a\\# x\n.end", "i*"),
        (".model m\n.inputs a\\\r\n.outputs a\\\r\n.end", "i*"),
    ]);
    refused(9, &[
        (".model m\\\nn\n.inputs a\n.end\\\n.end", 4),
        (".model m\\\n n\n.inputs a\n.end", 1),
        (".model m\n.inputs a\n.end\\\nx", 3),
        (".model m\n.inputs a\n.end\\\\", 3),
        (".model m\n.inputs a\n.end\\\\\n", 3),
        (".model m\n.inputs a\n.end\\ \n", 3),
        (".model m\n.inputs a\n.end\\#\n", 3),
        (".model m\n.inputs a\n.end\n\\\\\n", 4),
    ]);
    refused(10, &[
        // The lines are not joined: the next is one of its own.
        (".model m\n.inputs a \\ \n.names b c\n.end", 3),
        (".model m\n.inputs a \\# x\n.names b c\n.end", 3),
        (".model m\n.inputs a \\\r\n.names b c\n.end", 3),
    ]);
}

#[test]
fn the_place_of_joined_lines() {
    refused(9, &[
        ("x\\\n\\\ny", 1),
        ("\\\n\\\nx", 1),
        ("\n\\\n\\\nx", 2),
        (".model m\n.inputs \\\n a \\\n b\n.foo\\\n\\\n x\n.end", 5),
        (".model \\\nm\n.inputs a\n.names\\\n\\\n\n.end", 4),
        (".model \\\nm\n.inputs a\n.names\\\n a b\n11\\\n 1\n.end", 6),
        (".model \\\n\\\nm\n.inputs a\n.end\nx\\\ny", 6),
    ]);
    refused(10, &[
        (".model m\n.inputs a \\\n b \\\n a\n.end", 2),
        (".model m\n.inputs a\n.names \\\n\\\n b \\\n c\n.end", 3),
        (".model m\n.inputs a\n.latch \\\n b c\n.end", 3),
        (".model m\n.inputs a\n\\\n\\\n.outputs\\\n\\\n x\n.end", 3),
        (".model m\n.outputs a\\\n\n.outputs \\\nx\n.inputs a\n.end", 4),
    ]);
    refused(11, &[
        (".model \\\n zzzzzzzzzzzzzzzz\\\nzzzzzzzzzzzzzzzz\n.end", 1),
        (".model m\n.inputs a\n.names a a \\\n a a \\\n a a \\\n a b\n.end", 3),
        (".model m\n\n\\\n.en\\\nd", 3),
    ]);
}

#[test]
fn comments() {
    accepted(&[
        ("#\n# x\n.model m # n\n.inputs a #b\n.end # x", "i"),
        // Also inside a word.
        (".model m#n o p\n.inputs a#b\n.outputs a#\n.end#.end", "i*"),
        (".model m\n.inputs#a\n.inputs b\n.end", "i"),
        (".model m\n.inputs a\n.names a b\n1 1#0\n1 0#\n#1\n.end", "i, t 0"),
        // A backslash in a comment joins nothing.
        (".model m\n.inputs a # b \\\n.outputs a\n.end", "i*"),
        (".model m #\\\n.inputs a#\\\\\n.end#\\", "i"),
        ("#\\\n.model m\n.inputs a\n.end\n#\\\n#\\", "i"),
        (".model m\n.inputs a\\\n b # c\\\n.outputs b\n.end", "i, i*"),
        // A comment may hold any byte, a line's end excepted.
        ("#\r\u{b}\0\t# \u{e9}\n.model m\n.inputs a\n.end", "i"),
    ]);
    refused(9, &[("# .model m\n.inputs a\n.end", 2), (".model #m\n.inputs a\n.end", 1), (".model m\n.names #a\n.end", 2), ("#\\\nx", 2)]);
    refused(10, &[(".model m\n.inputs a\n.names a #b\n.end", 3)]);
}

#[test]
fn words_and_their_bytes() {
    accepted(&[
        ("\t .model\t\t m \n \t.inputs \t a\tb \n.outputs\tb\n\t.end\t \n", "i, i*"),
        // Any word may be a name.
        (".model .model\n.inputs .inputs .outputs\n.outputs .end .names\n.names .inputs .names\n1 1\n.latch .names .end 3\n.end", "i, i, t* 0, b* 2"),
        (".model 0\n.inputs 1 0 - 01 .\n.names 1 0 11\n-1 0\n.latch 0 3 3\n.latch 3 2\n.end", "i, i, i, i, i, t 0 1, b 1, b 6"),
        (".model a\n.inputs a A .A\n.outputs A\n.end", "i, i*, i"),
        // Names that begin alike or end alike are different.
        (".model m\n.inputs a aa aaa ba ab\n.outputs aa\n.end", "i, i*, i, i, i"),
    ]);
    // Also those that differ in one byte, at any place.
    for at in 0..NAME {
        let mut other = vec![b'x'; NAME];
        other[at] = b'y';
        let text = [b".model m\n.inputs ", long(NAME).as_bytes(), b" ", &other, b"\n.outputs ", &other, b"\n.end"].concat();
        accepted_for(&CALLER, &text, &sheet_of(&CALLER, nodes("i, i*", 1)));
    }
    // Bytes 32 and 9 part words, and no other; 10 ends a line and 35 begins a comment.
    for byte in (0..=255).filter(|byte| ![9, 10, 32, 35, b'q'].contains(byte)) {
        let text = with(".model @ \n.inputs @ q@ @q @@ q@q \n.outputs q@q @ \n.end", &[byte]);
        accepted_for(&CALLER, &text, &sheet_of(&CALLER, nodes("i*, i, i, i, i*", 1)));
        refused_for(&CALLER, &with(".model m\n.inputs a\n.end@ \n", &[byte]), 9, 3);
        refused_for(&CALLER, &with(".model m\n@.inputs a\n.end\n", &[byte]), 9, 2);
        refused_for(&CALLER, &with(".model m\n.inputs a\n.names a b\n1@1\n.end\n", &[byte]), 9, 4);
    }
}

/// A text whose `@` is each byte in turn, but those that part words and lines, begin comments or join lines: it is accepted with these nodes for the
/// bytes that are right, and refused with 9 at this line for all others.
fn each_byte(text: &str, right: &[u8], words: &str, line: u64) {
    for byte in (0..=255).filter(|byte| ![9, 10, 32, 35, 92].contains(byte)) {
        let text = with(text, &[byte]);
        match right.contains(&byte) {
            true => accepted_for(&CALLER, &text, &sheet_of(&CALLER, nodes(words, 1))),
            false => refused_for(&CALLER, &text, 9, line),
        }
    }
}

#[test]
fn the_first_line_is_the_model() {
    accepted(&[("\n#\n \\\n\n.model m\n.inputs a\n.end", "i")]);
    refused(9, &[
        (".end", 1),
        ("m\n.model m\n.inputs a\n.end", 1),
        (".inputs a\n.model m\n.end", 1),
        (".outputs\n.model m\n.inputs a\n.end", 1),
        (".names a\n.model m\n.end", 1),
        (".MODEL m\n.inputs a\n.end", 1),
        (".modelm\n.inputs a\n.end", 1),
        ("model m\n.inputs a\n.end", 1),
        ("\n.model\n.inputs a\n.end", 2),
        (".model a b\n.inputs a\n.end", 1),
        (".model m .inputs a\n.end", 1),
        (".model m\n.model m\n.inputs a\n.end", 2),
        (".model m\n.inputs a\n.model n\n.end", 3),
        (".model m\n.inputs a\n.names a b\n.model m\n.end", 4),
        (".model m\n.inputs a\n.end\n.model n\n.inputs a\n.end", 4),
    ]);
}

#[test]
fn inputs_and_outputs() {
    accepted(&[
        (".model m\n.inputs a\n.inputs b c\n.inputs\n.inputs d\n.end", "i, i, i, i"),
        (".model m\n.outputs b\n.outputs\n.inputs a\n.outputs a\n.inputs b\n.outputs b b\n.end", "i*, i*"),
        // None at all, or without names.
        (".model m\n.names a\n.end", "i"),
        (".model m\n.inputs\n.outputs\n.names a\n1\n.end", "i"),
        // An output may be defined later, by a table, a latch or an input, and more than once put out.
        (".model m\n.outputs c b c a\n.outputs c\n.inputs a\n.names a b\n.latch b c\n.end", "i*, t* 0, b* 1"),
        (".model m\n.outputs a a\n.inputs a b\n.outputs b\n.outputs b\n.end", "i*, i*"),
    ]);
    refused(9, &[
        (".model m\n.inputs a\n.names a b\n.inputs c\n.end", 4),
        (".model m\n.inputs a\n.names a b\n.inputs\n.end", 4),
        (".model m\n.inputs a\n.names a b\n1 1\n.outputs b\n.end", 5),
        (".model m\n.inputs a\n.names a b\n1 1\n.outputs\n.end", 5),
        (".model m\n.inputs a\n.latch a b\n.inputs c\n.end", 4),
        (".model m\n.inputs a\n.latch a b\n.inputs\n.end", 4),
        (".model m\n.inputs a\n.latch a b\n.outputs b\n.end", 4),
        (".model m\n.inputs a\n.latch a b\n.outputs\n.end", 4),
        (".model m\n.input a\n.end", 2),
        (".model m\n.Inputs a\n.end", 2),
        (".model m\n.output a\n.end", 2),
        (".model m\n.inputsa\n.end", 2),
    ]);
}

#[test]
fn tables_and_rows() {
    accepted(&[
        // A `.names` is logic, or an input if it reads nothing, with rows or none.
        (".model m\n.inputs a\n.names a b\n.end", "i, t 0"),
        (".model m\n.names a\n.names b\n0\n.names c\n1\n.names d\n 1\n0 \n1\n.end", "i, i, i, i"),
        (".model m\n.inputs a b\n.names a b c\n11 1\n-- 0\n01 1\n1- 1\n.names c d\n- 0\n.end", "i, i, t 0 1, t 2"),
        (".model m\n.inputs a b c d e f\n.names f e d c b a g\n01-01- 1\n.end", "i, i, i, i, i, i, t 5 4 3 2 1 0"),
        (".model m\n.inputs a\n.names a a b\n10 1\n.end", "i, t 0 0"),
        (".model m\n.inputs a\n.names a b\n1 1\n1 1\n1 0\n1 1\n.end", "i, t 0"),
        (".model m\n.inputs a\n.names a b\n\t1\t 1\t\n.end", "i, t 0"),
    ]);
    refused(9, &[
        (".model m\n.inputs a\n.names\n.end", 3),
        (".model m\n.names\n", 2),
        // Rows of another width.
        (".model m\n.inputs a b\n.names a b c\n1 1\n.end", 4),
        (".model m\n.inputs a b\n.names a b c\n111 1\n.end", 4),
        (".model m\n.inputs a b\n.names a b c\n11 1\n-- 0\n1 1\n.end", 6),
        (".model m\n.inputs a b\n.names a b c\n1\n.end", 4),
        (".model m\n.inputs a b\n.names a b c\n11\n.end", 4),
        (".model m\n.inputs a b\n.names a b c\n111\n.end", 4),
        (".model m\n.names a\n1 1\n.end", 3),
        (".model m\n.names a\n11\n.end", 3),
        (".model m\n.names a\n-\n.end", 3),
        (".model m\n.names a\n- 1\n.end", 3),
        // The input part is not parted; the output is its own word, and the last.
        (".model m\n.inputs a b\n.names a b c\n1 1 1\n.end", 4),
        (".model m\n.inputs a b\n.names a b c\n11 1 1\n.end", 4),
        (".model m\n.inputs a b\n.names a b c\n11 11\n.end", 4),
        (".model m\n.inputs a b\n.names a b c\n1 11\n.end", 4),
        (".model m\n.inputs a b\n.names a b c\n11 -\n.end", 4),
        (".model m\n.inputs a b\n.names a b c\n11 2\n.end", 4),
        (".model m\n.inputs a b\n.names a b c\n1x 1\n.end", 4),
        (".model m\n.inputs a b\n.names a b c\n11 1\r\n.end", 4),
        (".model m\n.inputs a b\n.names a b c\n.. 1\n.end", 4),
        // Rows belong to the `.names` before them.
        (".model m\n1\n.names a\n.end", 2),
        (".model m\n.inputs a\n1 1\n.names a b\n.end", 3),
        (".model m\n.inputs a\n.names a b\n1 1\n.latch b c\n1 1\n.end", 6),
        (".model m\n.inputs a\n.latch a c\n1 1\n.end", 4),
        (".model m\n.inputs a b\n.names a b c\n.names c d\n11 1\n.end", 5),
        (".model m\n.inputs a b\n.names a b c\n.names d\n11 1\n.end", 5),
        (".model m\n.inputs a\n.names a b\n.end\n1 1\n", 5),
        // Lines of BLIF that are not of the subset.
        (".model m\n.inputs a\n.clock c\n.end", 3),
        (".model m\n.inputs a\n.names a b\n.exdc\n.end", 4),
        (".model m\n.inputs a\n.names a b\n.gate x\n.end", 4),
        (".model m\n.inputs a\n.names a b\n.subckt x a=a\n.end", 4),
        (".model m\n.inputs a\n.latch a b\n.wire_load_slope 1\n.end", 4),
        (".model m\n.inputs a\n.Names a b\n.end", 3),
        (".model m\n.inputs a\n.names a b\n.LATCH a c\n.end", 4),
    ]);
    each_byte(".model m\n.inputs a b\n.names a b c\n1@ 1\n.end", b"01-", "i, i, t 0 1", 4);
    each_byte(".model m\n.inputs a b\n.names a b c\n@1 0\n.end", b"01-", "i, i, t 0 1", 4);
    each_byte(".model m\n.inputs a b\n.names a b c\n11 @\n.end", b"01", "i, i, t 0 1", 4);
    each_byte(".model m\n.names a\n@\n.end", b"01", "i", 3);
    each_byte(".model m\n.names a\n1@\n.end", b"", "", 3);
    // Each width with each number of inputs.
    for count in 0..=6 {
        let operands = " a".repeat(count);
        for width in 0..=8 {
            let text = format!(".model m\n.inputs a\n.names{operands} b\n{} 1\n.end", "-".repeat(width));
            match width == count {
                true => assert_eq!(compare_in(text.as_bytes(), &CALLER, AMPLE).0, 0, "{text}"),
                false => refused_for(&CALLER, text.as_bytes(), 9, 4),
            }
        }
    }
}

#[test]
fn latches() {
    accepted(&[
        (".model m\n.inputs a\n.latch a b\n.latch b c 0\n.latch c d 1\n.latch a e 2\n.latch a f 3\n.end", "i, b 0, b 1, b 2, b 0, b 0"),
        (".model m\n.inputs a\n.outputs b\n.latch a b\n.names b c\n1 1\n.end", "i, b* 0, t 1"),
        (".model m\n.inputs a\n.latch\ta  b\t 3 # x\n.end", "i, b 0"),
    ]);
    refused(9, &[
        (".model m\n.inputs a\n.latch\n.end", 3),
        (".model m\n.inputs a\n.latch a\n.end", 3),
        (".model m\n.inputs a\n.latch a b 4\n.end", 3),
        (".model m\n.inputs a\n.latch a b -1\n.end", 3),
        (".model m\n.inputs a\n.latch a b 00\n.end", 3),
        (".model m\n.inputs a\n.latch a b 03\n.end", 3),
        (".model m\n.inputs a\n.latch a b x\n.end", 3),
        (".model m\n.inputs a\n.latch a b 0 0\n.end", 3),
        (".model m\n.inputs a c\n.latch a b re c\n.end", 3),
        (".model m\n.inputs a c\n.latch a b re c 2\n.end", 3),
        (".model m\n.inputs a c\n.latch a b re\n.end", 3),
    ]);
    each_byte(".model m\n.inputs a\n.latch a b @\n.end", b"0123", "i, b 0", 3);
    each_byte(".model m\n.inputs a\n.latch a b @0\n.end", b"", "", 3);
    each_byte(".model m\n.inputs a\n.latch a b 0@\n.end", b"", "", 3);
}

#[test]
fn the_end() {
    accepted(&[(".model m\n.inputs a\n.end\n# x\n \\\n\n\t\n", "i")]);
    refused(9, &[
        (".model m\n.inputs a\n.end x\n", 3),
        (".model m\n.inputs a\n.end .end\n", 3),
        (".model m\n.inputs a\n.end\n.end\n", 4),
        (".model m\n.inputs a\n.end\nx", 4),
        (".model m\n.inputs a\n.end\n\n#\n.inputs\n", 6),
        (".model m\n.inputs a\n.names a b\n.end\n1 1\n", 5),
        (".model m\n.inputs a\n.end\n\\\n\\\nx", 4),
        (".model m\n.inputs a\n.END\n.end", 3),
        (".model m\n.inputs a\n.ends\n.end", 3),
        (".model m\n.inputs a\n.end\r\n", 3),
        (".model m\r\n.inputs a\r\n.outputs a\r\n.end\r\n", 4),
    ]);
}

#[test]
fn names_read_and_defined() {
    accepted(&[
        // The model's name and the outputs define nothing.
        (".model a\n.outputs b a\n.inputs a\n.names a b\n.end", "i*, t* 0"),
        (".model m\n.inputs c a\n.inputs b\n.names d\n.names b a e\n.latch e f\n.names f d g\n.end", "i, i, i, i, t 2 1, b 4, t 5 3"),
    ]);
    refused(10, &[
        // Read before it is defined: by a table at each operand, by a latch.
        (".model m\n.names x a\n.end", 2),
        (".model m\n.inputs a\n.names x a b\n.end", 3),
        (".model m\n.inputs a\n.names a x b\n.end", 3),
        (".model m\n.inputs a\n.names a a a a a x b\n.end", 3),
        (".model m\n.inputs a\n.latch x b\n.end", 3),
        (".model m\n.inputs a\n.names c b\n.names a c\n.end", 3),
        (".model m\n.inputs a\n.latch c b 0\n.names a c\n.end", 3),
        (".model m\n.inputs a\n.names b b\n.end", 3),
        (".model m\n.inputs a\n.names a b b\n.end", 3),
        (".model m\n.inputs a\n.latch b b\n.end", 3),
        (".model m\n.inputs a\n.names m b\n.end", 3),
        (".model m\n.inputs a\n.outputs o\n.names o b\n.end", 4),
        (".model m\n.inputs a\n.outputs o\n.latch o b\n.end", 4),
        (".model m\n.inputs a\n.names A b\n.end", 3),
        (".model m\n.inputs ab\n.names a b\n.end", 3),
        (".model m\n.inputs a\n.names ab b\n.end", 3),
        // Defined twice: on one line, on two, by each kind after each.
        (".model m\n.inputs a a\n.end", 2),
        (".model m\n.inputs a b c b\n.end", 2),
        (".model m\n.inputs a\n.inputs b a\n.end", 3),
        (".model m\n.inputs a b\n.inputs b\n.end", 3),
        (".model m\n.inputs a\n.names a\n.end", 3),
        (".model m\n.inputs a\n.names a a\n.end", 3),
        (".model m\n.inputs a\n.latch a a\n.end", 3),
        (".model m\n.inputs a\n.names b\n.names b\n.end", 4),
        (".model m\n.inputs a\n.names b\n1\n.names a b\n.end", 5),
        (".model m\n.inputs a\n.names a b\n.latch a b\n.end", 4),
        (".model m\n.inputs a\n.latch a b\n.names a b\n.end", 4),
        (".model m\n.inputs a\n.latch a b\n.latch a b\n.end", 4),
    ]);
}

#[test]
fn outputs_without_definition() {
    refused(10, &[
        (".model m\n.inputs a\n.outputs x\n.end", 3),
        (".model m\n.outputs x\n.inputs a\n.end", 2),
        (".model m\n.outputs m\n.inputs a\n.end", 2),
        (".model m\n.inputs a\n.outputs a\n.outputs a x\n.end", 4),
        // The first such line in the text.
        (".model m\n.inputs a\n.outputs a\n.outputs a\n.outputs\n.outputs y\n.outputs x\n.end", 6),
        (".model m\n.inputs a\n.outputs a y\n.outputs x\n.end\n", 3),
        (".model m\n.outputs a \\\n \\\n x\n.inputs a\n.end\n", 2),
    ]);
    // Found last: after every fault of another line.
    refused(9, &[
        (".model m\n.outputs x\n.inputs a\n.foo\n.end", 4),
        (".model m\n.outputs x\n.inputs a\n.end\nx", 5),
        (".model m\n.outputs x\n.inputs a\n", 4),
    ]);
    refused(10, &[(".model m\n.outputs x\n.inputs a a\n.end", 3), (".model m\n.outputs x\n.inputs a\n.names b c\n.end", 4)]);
    refused(11, &[(".model m\n.outputs x\n.end", 3), (".model m\n.outputs x\n.inputs a\n.names a a a a a a a b\n.end", 4)]);
}

#[test]
fn a_model_without_nodes() {
    refused(11, &[
        (".model m\n.end", 2),
        (".model m\n.inputs\n.outputs\n\n.end\n", 5),
        (".model m\n\\\n.end", 2),
        // Before anything after it and before undefined outputs.
        (".model m\n.end\nx", 2),
        (".model m\n.end\n.end\n", 2),
        (".model m\n.outputs x\n.end\n", 3),
    ]);
    refused(9, &[(".model m\n.end x", 2), (".model m\n.inputs\n.ende\n.end", 3)]);
}

/// A name of so many bytes.
fn long(length: usize) -> String {
    "x".repeat(length)
}

#[test]
fn names_of_31_bytes() {
    // Each place that a name has, with the nodes and the line.
    let places: [(&str, &str, u64); 7] = [
        (".model @\n.inputs a\n.end", "i", 1),
        (".model m\n.inputs @\n.end", "i", 2),
        (".model m\n.inputs a\n.inputs b @ c\n.end", "i, i, i, i", 3),
        (".model m\n.inputs a\n.names @\n1\n.end", "i, i", 3),
        (".model m\n.inputs a\n.names a @\n1 1\n.end", "i, t 0", 3),
        (".model m\n.inputs a\n.latch a @\n.end", "i, b 0", 3),
        (".model m\n.inputs a\n.latch a @ 3\n.end", "i, b 0", 3),
    ];
    for (text, words, line) in places {
        for length in [1, 2, 8, 15, 16, 17, 30, NAME] {
            accepted_for(&CALLER, &with(text, long(length).as_bytes()), &sheet_of(&CALLER, nodes(words, 1)));
        }
        for length in [NAME + 1, NAME + 2, 63, 64, 255, 256, 257, 287, 60_000] {
            refused_for(&CALLER, &with(text, long(length).as_bytes()), 11, line);
        }
        // In bytes, and not in letters.
        refused_for(&CALLER, &with(text, "\u{e9}".repeat(16).as_bytes()), 11, line);
        accepted_for(&CALLER, &with(text, ("\u{e9}".repeat(15) + "y").as_bytes()), &sheet_of(&CALLER, nodes(words, 1)));
    }
    let put_out = ".model m\n.outputs @\n.inputs @\n.end";
    accepted_for(&CALLER, &with(put_out, long(NAME).as_bytes()), &sheet_of(&CALLER, nodes("i*", 1)));
    refused_for(&CALLER, &with(put_out, long(NAME + 1).as_bytes()), 11, 2);
    refused_for(&CALLER, &with(".model m\n.outputs b @ b\n.inputs a\n.end", long(NAME).as_bytes()), 10, 2);
    refused_for(&CALLER, &with(".model m\n.inputs a\n.outputs b @ b\n.end", long(NAME + 1).as_bytes()), 11, 3);
    // A longer name that is read is not defined.
    refused_for(&CALLER, &with(".model m\n.inputs a\n.names @ b\n.end", long(NAME + 1).as_bytes()), 10, 3);
    refused_for(&CALLER, &with(".model m\n.inputs a\n.latch @ b\n.end", long(NAME + 1).as_bytes()), 10, 3);
    // A longer word that is no name.
    refused_for(&CALLER, &with(".model m\n.inputs a\n.names a b\n@ 1\n.end", "1".repeat(NAME + 1).as_bytes()), 9, 4);
    refused_for(&CALLER, &with(".model m\n.inputs a\n@ b\n.end", long(NAME + 1).as_bytes()), 9, 3);
    refused_for(&CALLER, &with(".model m\n.inputs a\n.latch a b @\n.end", "0".repeat(NAME + 1).as_bytes()), 9, 3);
    accepted_for(&CALLER, &with(".model m #@\n.inputs a\n.end", long(300).as_bytes()), &sheet_of(&CALLER, nodes("i", 1)));
}

#[test]
fn six_operands() {
    for count in 1..=6 {
        let text = format!(".model m\n.inputs a b\n.names{} b c\n.end", " a".repeat(count - 1));
        let words = format!("i, i, t{} 1", " 0".repeat(count - 1));
        accepted_for(&CALLER, text.as_bytes(), &sheet_of(&CALLER, nodes(&words, 1)));
    }
    // Repeated ones count each time.
    for count in [7, 8, 255, 256, 257, 262, 30_000] {
        refused_for(&CALLER, format!(".model m\n.inputs a b\n.names{} c\n.end", " a".repeat(count)).as_bytes(), 11, 3);
    }
    refused(11, &[
        (".model m\n.inputs a b c d e f g\n.names a b c d e f g h\n.end", 3),
        (".model m\n.inputs a b c d e f g\n.names a b c d e f g h\n1111111 1\n.end", 3),
        (".model m\n.inputs a b c d e f g\n.names a b c d e f g h\n1 1\n.end", 3),
    ]);
}

/// A head with so many inputs, on one line or on one for each.
fn inputs(count: u32, one_line: bool) -> String {
    let names: Vec<String> = (0..count).map(|i| format!(" n{i}")).collect();
    match one_line {
        true => format!(".model m\n.inputs{}\n", names.concat()),
        false => format!(".model m\n.inputs{}\n", names.join("\n.inputs")),
    }
}

#[test]
fn nodes_of_a_model() {
    for count in [1, 2, 127, 128, 129, N.1 - 1, N.1] {
        for one_line in [true, false] {
            let text = inputs(count, one_line) + ".end";
            accepted_for(&CALLER, text.as_bytes(), &sheet_of(&CALLER, vec![input(); count as usize]));
        }
    }
    for count in [N.1 + 1, N.1 + 2, 512, 513, 4_000] {
        refused_for(&CALLER, (inputs(count, true) + ".end").as_bytes(), 11, 2);
        refused_for(&CALLER, (inputs(count, false) + ".end").as_bytes(), 11, 2 + u64::from(N.1));
    }
    // The 256th and the 257th by each line that defines.
    for (line, words) in [(".inputs z", "i"), (".names z", "i"), (".names n0 z", "t 0"), (".latch n1 z", "b 1")] {
        let mut all = vec![input(); N.1 as usize - 1];
        all.extend(nodes(words, 1));
        accepted_for(&CALLER, format!("{}{line}\n.end", inputs(N.1 - 1, true)).as_bytes(), &sheet_of(&CALLER, all));
        refused_for(&CALLER, format!("{}{line}\n.end", inputs(N.1, true)).as_bytes(), 11, 3);
        refused_for(&CALLER, format!("{}.inputs\n{line}\nx", inputs(N.1, true)).as_bytes(), 11, 4);
    }
    // Two of which the first would do.
    refused_for(&CALLER, (inputs(N.1 - 1, true) + ".inputs y z\n.end").as_bytes(), 11, 3);
    // Lines that define nothing may come after 256 nodes.
    let text = inputs(N.1, true) + ".inputs\n.outputs n0 n255\n.end\n#";
    let mut all = vec![input(); N.1 as usize];
    (all[0].output, all[255].output) = (true, true);
    accepted_for(&CALLER, text.as_bytes(), &sheet_of(&CALLER, all));
}

#[test]
fn grounds_on_one_line() {
    let (long, full) = (long(NAME + 1), inputs(N.1, true));
    let case = |text: String, number, place| refused_for(&CALLER, text.as_bytes(), number, place);
    // 9 before 10 and 11.
    case(format!(".model {long} m\n"), 9, 1);
    case(format!("{full}.latch x {long}  4\n.end"), 9, 3);
    case(format!("{full}.latch n0 n0 x\n.end"), 9, 3);
    case(format!("{full}.latch x y 0 1\n.end"), 9, 3);
    case(format!("{full}.names n0 y\n.end"), 11, 3);
    case(".model m\n.inputs a\n.names a b\n.inputs a a\n.end".to_string(), 9, 4);
    case(format!(".model m\n.inputs a\n.names a b\n.outputs {long}\n.end"), 9, 4);
    case(".model m\n.end x\n".to_string(), 9, 2);
    // 10 over all the line's names, before 11.
    case(".model m\n.inputs a\n.names a a a a a a x b\n.end".to_string(), 10, 3);
    case(".model m\n.inputs a\n.names x a a a a a a b\n.end".to_string(), 10, 3);
    case(".model m\n.inputs a\n.names a a a a a a a a\n.end".to_string(), 10, 3);
    case(format!(".model m\n.inputs a\n.names{} x b\n.end", " a".repeat(1000)), 10, 3);
    case(format!(".model m\n.inputs a\n.names x {long}\n.end"), 10, 3);
    case(format!(".model m\n.inputs a\n.names {long} {long}\n.end"), 10, 3);
    case(format!(".model m\n.inputs a\n.latch x {long}\n.end"), 10, 3);
    case(format!(".model m\n.inputs {long} a a\n.end"), 10, 2);
    case(format!(".model m\n.inputs a {long} {long}\n.end"), 10, 2);
    case(format!(".model m\n.inputs a\n.inputs {long} a\n.end"), 10, 3);
    case(format!("{full}.inputs z n0\n.end"), 10, 3);
    case(format!("{full}.inputs z y z\n.end"), 10, 3);
    case(format!("{full}.names n7\n.end"), 10, 3);
    case(format!("{full}.names z y\n.end"), 10, 3);
    case(format!("{full}.latch z z\n.end"), 10, 3);
    case(format!("{full}.latch n0 n255\n.end"), 10, 3);
    let whole: String = (0..N.1).map(|i| format!(" n{i}")).collect();
    case(format!(".model m\n.inputs{whole} n0\n.end"), 10, 2);
    case(format!(".model m\n.inputs{whole} z z\n.end"), 10, 2);
    case(format!(".model m\n.inputs{whole} z y x n255\n.end"), 10, 2);
    case(format!(".model m\n.inputs{whole} z\n.end"), 11, 2);
    // Several limits on one line.
    case(format!("{full}.names n0 n0 n0 n0 n0 n0 n0 {long}\n.end"), 11, 3);
}

#[test]
fn the_first_faulty_line_decides() {
    let long = long(NAME + 1);
    let case = |text: String, number, place| refused_for(&CALLER, text.as_bytes(), number, place);
    let (nine, ten, eleven) = (".foo\n", ".names x y\n", format!(".names {long}\n"));
    let head = ".model m\n.inputs a\n.names a b\n";
    for (first, number) in [(nine, 9), (ten, 10), (eleven.as_str(), 11)] {
        for second in [nine, ten, eleven.as_str(), ".end\n", ".end\nx\n", ""] {
            case(format!("{head}{first}{second}"), number, 4);
            case(format!("{head}1 1\n\n#\n{first}{second}"), number, 7);
        }
    }
    case(format!(".model {long}\nx"), 11, 1);
    case(format!(".model m\n.outputs {long}\n.inputs a a\n.foo"), 11, 2);
    case(format!("x\n.model {long}\n"), 9, 1);
    case(".model m\n.inputs a\n.names a a a a a a a b\n1 1\n.end".to_string(), 11, 3);
    case(".model m\n.inputs a\n.names x b\n1 1 1\n.end".to_string(), 10, 3);
    case(".model m\n.inputs a\n.names a b\n11 1\n.names x b\n.end".to_string(), 9, 4);
}

#[test]
fn the_callers_numbers() {
    let text = b".model m\n.inputs a\n.outputs b\n.latch a b\n.end";
    let fields: [(Range, fn(&mut Caller) -> &mut u32); 3] = [(K, |c| &mut c.leaves), (T, |c| &mut c.top), (H, |c| &mut c.horizon)];
    for ((low, high), field) in fields {
        for value in [low, low + 1, high - 1, high] {
            let mut caller = CALLER;
            *field(&mut caller) = value;
            accepted_for(&caller, text, &sheet_of(&caller, nodes("i, b* 0", 1)));
        }
        let above = [high + 1, high + 2, 0x100 + low, 0x1_0000 + high, 0x1_0000 + low, 0x8000_0000 + low, u32::MAX - 1, u32::MAX];
        for value in (0..low).chain(above.into_iter().filter(|&value| value > high)) {
            let mut caller = CALLER;
            *field(&mut caller) = value;
            // Before any line is looked at, whatever the text.
            let texts: [&[u8]; 6] = [text, b"", b"x", b".model m\n.end", b".model m\n.inputs a a\n", &vec![b'x'; TEXT + 1]];
            texts.iter().for_each(|text| refused_for(&caller, text, 11, 0));
        }
    }
    for (table, level) in [(0, 1), (1, 0), (0, 0), (u32::MAX, 0), (0, u32::MAX)] {
        for text in [&text[..], b"", b"x"] {
            refused_for(&Caller { table, level, ..CALLER }, text, 11, 0);
        }
    }
}

#[test]
fn the_quotient_rounded_up() {
    // A table's picoseconds, a level's, and d.
    let cases = [
        (1, 1, 1),
        (1, 2, 1),
        (2, 2, 1),
        (3, 2, 2),
        (1, 1_000, 1),
        (400, 1_000, 1),
        (999, 1_000, 1),
        (1_000, 1_000, 1),
        (1_001, 1_000, 2),
        (1_499, 1_000, 2),
        (1_500, 1_000, 2),
        (2_000, 1_000, 2),
        (2_001, 1_000, 3),
        (2_499, 1_000, 3),
        (7, 3, 3),
        (6, 3, 2),
        (63, 1, 63),
        (64, 1, 64),
        (63_001, 1_000, 64),
        (64_000, 1_000, 64),
        (1, u32::MAX, 1),
        (u32::MAX, u32::MAX, 1),
        (u32::MAX - 1, u32::MAX, 1),
        (u32::MAX, u32::MAX - 1, 2),
        (u32::MAX, 1 << 31, 2),
        (1 << 31, 1 << 31, 1),
        ((1 << 31) + 1, 1 << 31, 2),
        (u32::MAX, 67_108_864, 64),
        (u32::MAX, 68_174_085, 63),
        (u32::MAX, 68_174_084, 64),
        (4_227_858_432, 67_108_864, 63),
        (4_227_858_433, 67_108_864, 64),
    ];
    let text = b".model m\n.inputs a\n.outputs b\n.names a b\n1 1\n.latch b c\n.end";
    for (table, level, delay) in cases {
        for top in [delay, delay + 1, T.1].into_iter().filter(|&top| top <= T.1) {
            let caller = Caller { top, table, level, ..CALLER };
            accepted_for(&caller, text, &sheet_of(&caller, nodes("i, t* 0, b 1", delay)));
        }
        // Above T, also where the model has no table.
        for top in T.0..delay {
            let caller = Caller { top, table, level, ..CALLER };
            for text in [&text[..], b".model m\n.inputs a\n.end", b"x", b""] {
                refused_for(&caller, text, 11, 0);
            }
        }
    }
    let near = [(65, 1), (129, 2), (64_001, 1_000), (u32::MAX, 67_108_863)];
    let far = [(257, 1), (320, 1), (65_537, 1), (1 << 31, 1), (u32::MAX, 2), (u32::MAX, 1)];
    for (table, level) in near.into_iter().chain(far) {
        for top in [T.0, 2, T.1] {
            refused_for(&Caller { top, table, level, ..CALLER }, text, 11, 0);
        }
    }
}

#[test]
fn texts_of_65536_bytes() {
    let head = ".model m\n.inputs a\n.end\n";
    let pad = |byte: u8, length: usize| [head.as_bytes(), &vec![byte; length - head.len()]].concat();
    let sheet = sheet_of(&CALLER, nodes("i", 1));
    for byte in [b'\n', b' ', b'\t'] {
        accepted_for(&CALLER, &pad(byte, TEXT - 1), &sheet);
        accepted_for(&CALLER, &pad(byte, TEXT), &sheet);
        for length in [TEXT + 1, TEXT + 2, 2 * TEXT, 2 * TEXT + 30] {
            refused_for(&CALLER, &pad(byte, length), 11, 0);
        }
    }
    // A longer text is looked at before any line; the longest has places above 65,535.
    refused_for(&CALLER, &[b'x'; TEXT + 1], 11, 0);
    refused_for(&CALLER, &[b'x'; TEXT], 9, 1);
    refused_for(&CALLER, &[b'\n'; TEXT], 9, TEXT as u64 + 1);
    refused_for(&CALLER, &[b'\n'; TEXT + 1], 11, 0);
    let last = |last: &[u8]| [&vec![b'\n'; TEXT - last.len()], last].concat();
    refused_for(&CALLER, &last(b"x"), 9, TEXT as u64);
    refused_for(&CALLER, &last(b"x\n"), 9, TEXT as u64 - 1);
    refused_for(&CALLER, &last(b".model m"), 9, TEXT as u64 - 6);
    accepted_for(&CALLER, &last(head.as_bytes()), &sheet);
    assert_eq!(defined("MAPS_TEXT_MOST"), TEXT as u64);
}

#[test]
fn the_room() {
    let mut random = Random::new(SEED);
    for n in [1, 2, 20, 128, 129, 256] {
        let caller = caller(&mut random);
        let sheet = sheet(&mut random, n, &caller);
        let (text, expected) = (text(&mut random, &sheet), spelled(&numbers(&sheet)));
        let found = blif::records(&text, &caller);
        for room in 0..expected.len() + 40 {
            let short = room < expected.len();
            let (number, place, _) = compare_with(&text, &caller, &found, room);
            assert_eq!((number, place), (if short { 8 } else { 0 }, expected.len() as u64), "{room}");
        }
        accepted_for(&caller, &text, &expected);
    }
    // The longest that a model has: tables of six operands, the last one that they may read, and H of three bytes.
    let caller = Caller { leaves: 6, top: 64, horizon: H.1, table: 64, level: 1 };
    let table = |own: u32| Node { kind: 1, output: true, delay: 64, operands: vec![own - 1; 6], ..input() };
    let all = (0..N.1).map(|own| if own == 0 { input() } else { table(own) }).collect();
    let sheet = Sheet { leaves: 6, top: 64, horizon: H.1, nodes: all, ..Sheet::default() };
    let expected = spelled(&numbers(&sheet));
    assert!(expected.len() < AMPLE && expected.len() as u64 <= defined("MAPS_SHEET_MOST"));
    accepted_for(&caller, &abc(&mut random, &sheet), &expected);
    // Grounds before 8, in no room.
    for (text, number, place) in [(".model m\n.inputs a\n.outputs b\n.end", 10, 3), (".model m\n.inputs a\n", 9, 3), (".model m\n.end", 11, 2)] {
        assert_eq!(import(text.as_bytes(), &CALLER, &mut []), Answer { number, place });
    }
}

/// How often each number was given, and each ground of the independent importer.
#[derive(Default)]
struct Met {
    numbers: [u32; 12],
    grounds: BTreeMap<Ground, u32>,
}

impl Met {
    /// Compares in an ample room, in some other and, for an accepted text, in none, one short, exact, one more and some other. Gives number and place
    /// in the ample one.
    fn compare(&mut self, random: &mut Random, text: &[u8], caller: &Caller) -> (u64, u64) {
        let found = blif::records(text, caller);
        if let Err((ground, _)) = found {
            *self.grounds.entry(ground).or_default() += 1;
        }
        let (number, place, sheet) = compare_with(text, caller, &found, AMPLE);
        let mut rooms = vec![random.within(0, 60) as usize];
        if number == 0 {
            let length = place as usize;
            rooms.extend([0, length - 1, length, length + 1, random.within(0, 2 * length as u32) as usize]);
            assert!(reader::read(&sheet).is_ok(), "{sheet:?}");
        }
        self.numbers[number as usize] += 1;
        for room in rooms {
            self.numbers[compare_with(text, caller, &found, room).0 as usize] += 1;
        }
        (number, place)
    }

    /// Each number was given at least so often, and no other; and each of these grounds at least so often.
    fn often(&self, least: u32, grounds: &[Ground], each: u32) {
        println!("calls by number: {:?}\ngrounds: {:?}", self.numbers, self.grounds);
        for (number, &count) in self.numbers.iter().enumerate() {
            let may = [0, 8, 9, 10, 11].contains(&number);
            assert!(if may { count >= least } else { count == 0 }, "{number}: {count}");
        }
        for ground in grounds {
            let count = self.grounds.get(ground).copied().unwrap_or(0);
            assert!(count >= each, "{ground:?}: {count}");
        }
    }
}

/// Every ground that a line of a text can have.
const OF_LINES: [Ground; 25] = [
    Ground::NoModel,
    Ground::ModelWords,
    Ground::SecondModel,
    Ground::LateInputs,
    Ground::LateOutputs,
    Ground::NamesWithoutWord,
    Ground::LatchWords,
    Ground::LatchValue,
    Ground::EndWords,
    Ground::AfterEnd,
    Ground::RowWords,
    Ground::RowWidth,
    Ground::RowByte,
    Ground::RowValue,
    Ground::NoSuchLine,
    Ground::NoEnd,
    Ground::TableReadsUndefined,
    Ground::LatchReadsUndefined,
    Ground::DefinedBefore,
    Ground::RepeatedOnLine,
    Ground::OutputUndefined,
    Ground::LongName,
    Ground::ManyOperands,
    Ground::ManyNodes,
    Ground::NoNodes,
];

/// Every ground of the caller's.
const OF_CALLER: [Ground; 6] =
    [Ground::Leaves, Ground::Top, Ground::Horizon, Ground::NoTableTime, Ground::NoLevelTime, Ground::Delay];

#[test]
fn sheets_to_texts_and_back() {
    println!("seed {}", SEED + 1);
    let mut random = Random::new(SEED + 1);
    let mut met = Met::default();
    for round in 0..6_000 {
        let caller = caller(&mut random);
        let n = if round % 50 == 0 { random.within(200, N.1) } else { random.within(1, 14) };
        let sheet = sheet(&mut random, n, &caller);
        let text = text(&mut random, &sheet);
        let bytes = spelled(&numbers(&sheet));
        if text.len() <= TEXT {
            assert_eq!(met.compare(&mut random, &text, &caller), (0, bytes.len() as u64), "{sheet:?}, {}", shown(&text));
            assert!(imported(&text, &caller, AMPLE).1 == bytes, "{sheet:?}, {}", shown(&text));
        }
        if round % 20 == 0 {
            reads(&bytes);
        }
    }
    println!("calls by number: {:?}", met.numbers);
    assert!(met.numbers[0] > 15_000 && met.numbers[8] > 10_000 && met.grounds.is_empty());
}

#[test]
fn texts_as_abc_writes_them() {
    println!("seed {}", SEED + 2);
    let mut random = Random::new(SEED + 2);
    let mut met = Met::default();
    for round in 0..600 {
        let caller = caller(&mut random);
        let n = if round % 3 == 0 { N.1 } else { random.within(1, N.1) };
        let sheet = sheet(&mut random, n, &caller);
        let text = abc(&mut random, &sheet);
        let bytes = spelled(&numbers(&sheet));
        assert_eq!(met.compare(&mut random, &text, &caller), (0, bytes.len() as u64), "{}", shown(&text));
        assert!(imported(&text, &caller, AMPLE).1 == bytes, "{}", shown(&text));
        if round % 20 == 0 {
            reads(&bytes);
        }
    }
    let text = "# Benchmark \"x\" written by ABC on Tue Jan  6 10:11:12 2026\n.model x\n.inputs pi0 pi1 \\\n pi2\n.outputs po0 \\\n po1\n\
                .latch        pi0        lo0  0\n\n.names pi1 pi2 new_n17\n11 1\n.names new_n17 lo0 new_n18\n10 1\n.names new_n17 new_n18 po0\n11 1\n\
                .names po1\n 0\n.end\n";
    accepted(&[(text, "i, i, i, b 0, t 1 2, t 4 3, t* 4 5, i*")]);
    // A latch before what it reads.
    refused(10, &[("# ABC\n.model x\n.inputs a\n.outputs q\n.latch          n          q  0\n.names a q n\n11 1\n.end\n", 5)]);
}

#[test]
fn texts_at_the_limits() {
    println!("seed {}", SEED + 3);
    let mut random = Random::new(SEED + 3);
    let mut met = Met::default();
    for _ in 0..4_000 {
        let caller = any_caller(&mut random);
        let text = at_limit(&mut random, &CALLER);
        met.compare(&mut random, &text, &caller);
    }
    println!("calls by number: {:?}\ngrounds: {:?}", met.numbers, met.grounds);
    let limits = [Ground::LongName, Ground::ManyOperands, Ground::ManyNodes, Ground::LongText];
    assert!(limits.iter().all(|ground| met.grounds.get(ground).copied().unwrap_or(0) > 100), "{:?}", met.grounds);
    assert!(met.numbers[0] > 3_000 && met.numbers[8] > 1_500, "{:?}", met.numbers);
}

#[test]
fn damaged_texts() {
    println!("seed {}", SEED + 4);
    let mut random = Random::new(SEED + 4);
    let mut met = Met::default();
    for round in 0..60_000 {
        let good = caller(&mut random);
        let n = if round % 200 == 0 { N.1 } else { random.within(1, 9) };
        let sheet = sheet(&mut random, n, &good);
        let whole = match round % 5 {
            0 => abc(&mut random, &sheet),
            1 if round % 4 == 0 => at_limit(&mut random, &good),
            _ => text(&mut random, &sheet),
        };
        let caller = if random.once_in(4) { any_caller(&mut random) } else { good };
        let text = if random.once_in(8) { whole } else { damaged(&mut random, whole) };
        met.compare(&mut random, &text, &caller);
    }
    met.often(5_000, &[&OF_LINES[..], &OF_CALLER].concat(), 30);
}

/// Words of which lines are made that are often right.
const PIECES: [&str; 24] = [
    ".model", ".inputs", ".outputs", ".names", ".latch", ".end", "a", "b", "c", "d", "0", "1", "11", "-", "1-", "a ", //
    "\n", "\n", "\n", "\\\n", "#", "\\", ".", "\t",
];

#[test]
fn words_in_any_order() {
    println!("seed {}", SEED + 5);
    let mut random = Random::new(SEED + 5);
    let mut met = Met::default();
    for _ in 0..60_000 {
        let mut text: Vec<u8> = if random.once_in(8) { Vec::new() } else { b".model m\n.inputs a\n".to_vec() };
        for _ in 0..random.within(0, 12) {
            text.extend(PIECES[random.within(0, PIECES.len() as u32 - 1) as usize].bytes());
            if !random.once_in(6) {
                text.push(32);
            }
        }
        if !random.once_in(4) {
            text.extend(b"\n.end");
        }
        met.compare(&mut random, &text, &CALLER);
    }
    println!("calls by number: {:?}\ngrounds: {:?}", met.numbers, met.grounds);
    assert!([0, 8, 9, 10].iter().all(|&number| met.numbers[number] > 500) && met.numbers[11] > 50, "{:?}", met.numbers);
    assert!(met.grounds.len() > 18, "{:?}", met.grounds);
}

/// A small model with every kind of line.
const SMALL: &str = ".model m\n.inputs a b # x\n.outputs c \\\n d\n.names a b c\n1- 1\n.latch c d 2\n.names e\n.end\n";

#[test]
fn every_byte_of_a_text() {
    let mut random = Random::new(SEED + 6);
    let mut met = Met::default();
    let small = SMALL.as_bytes();
    for at in 0..small.len() {
        met.compare(&mut random, &small[..at], &CALLER);
        met.compare(&mut random, &[&small[..at], &small[at + 1..]].concat(), &CALLER);
        for byte in 0..=255 {
            met.compare(&mut random, &[&small[..at], &[byte], &small[at + 1..]].concat(), &CALLER);
            met.compare(&mut random, &[&small[..at], &[byte], &small[at..]].concat(), &CALLER);
        }
    }
    println!("calls by number: {:?}\ngrounds: {:?}", met.numbers, met.grounds);
    assert!([0, 8, 9, 10].iter().all(|&number| met.numbers[number] > 1_000), "{:?}", met.numbers);
}

/// Every sequence of so many of these bytes.
fn sequences(bytes: &[u8], length: u32) -> impl Iterator<Item = Word> + '_ {
    let base = bytes.len();
    (0..base.pow(length)).map(move |code| (0..length).map(|i| bytes[code / base.pow(i) % base]).collect())
}

#[test]
fn every_way_to_end_and_join_lines() {
    let mut random = Random::new(SEED + 7);
    let mut met = Met::default();
    // Where the bytes stand: in a word and between words, at lines' ends, before the first line, after the last, and in a comment.
    let texts = [
        ".model m\n.inputs a@b\n.outputs ab\n.names a c\n1 1\n.end\n",
        ".model m\n.inputs a\n.names a@\n1 1\n.end",
        "@.model m\n.inputs a\n.end\n",
        ".model m\n.inputs a\n.end@",
        ".model m\n.inputs a #@\n.end\n",
        "@",
    ];
    for text in texts {
        for length in 0..=5 {
            for bytes in sequences(b"\\\n# x", length) {
                met.compare(&mut random, &with(text, &bytes), &CALLER);
            }
        }
    }
    println!("calls by number: {:?}\ngrounds: {:?}", met.numbers, met.grounds);
    assert!([0, 8, 9, 10].iter().all(|&number| met.numbers[number] > 500), "{:?}", met.numbers);
}

#[test]
fn any_bytes() {
    let mut random = Random::new(SEED + 8);
    for round in 0..20_000 {
        let most = if round % 500 == 0 { TEXT as u32 + 2 } else { 60 };
        let bytes: Vec<u8> = (0..random.within(0, most)).map(|_| random.next() as u8).collect();
        compare_in(&bytes, &CALLER, 100);
        compare_in(&[b".model m\n.inputs ", bytes.as_slice()].concat(), &CALLER, 100);
        compare_in(&[b".model m\n.inputs ", bytes.as_slice(), b"\n.end"].concat(), &CALLER, 100);
    }
}

/// Different names of two bytes, as many as asked; none has a backslash.
fn two_byte_names(count: usize) -> Vec<Word> {
    let bytes: Vec<u8> = (1..=255).filter(|byte| ![9, 10, 32, 35, 92].contains(byte)).collect();
    bytes.iter().flat_map(|&first| bytes.iter().map(move |&second| vec![first, second])).take(count).collect()
}

/// Different names that are the same letters in another order.
fn anagrams(count: usize) -> Vec<Word> {
    let mut all = Vec::new();
    let mut word = b"abcdefgh".to_vec();
    while all.len() < count {
        all.push(word.clone());
        // The next in the order of words.
        let rise = (0..7).rev().find(|&i| word[i] < word[i + 1]).expect("a next word");
        let next = (rise + 1..8).rev().find(|&i| word[i] > word[rise]).expect("a greater letter");
        word.swap(rise, next);
        word[rise + 1..].reverse();
    }
    all
}

/// Different names of 24 bytes made of `Aa` and `BB`, which a hash by 31 takes for one.
fn alike_to_a_hash(count: usize) -> Vec<Word> {
    (0..count).map(|code| (0..12).flat_map(|bit| if code >> bit & 1 == 0 { *b"Aa" } else { *b"BB" }).collect()).collect()
}

/// A text with lists of names; what follows `.inputs`, `.outputs` or `.names` is on one line.
fn listed(before: &str, names: &[Word], after: &str) -> Vec<u8> {
    let text = [before.as_bytes(), &names.join(&32), after.as_bytes()].concat();
    assert!((TEXT - 3_000..=TEXT).contains(&text.len()), "{} bytes", text.len());
    text
}

#[test]
fn hostile_names() {
    for names in [two_byte_names(21_000), anagrams(7_000), alike_to_a_hash(2_600)] {
        let last = names.len() - 1;
        // All different: the 257th. The last one again, the first again, or two alike in the middle: defined twice.
        refused_for(&CALLER, &listed(".model m\n.inputs ", &names, "\n.end"), 11, 2);
        refused_for(&CALLER, &listed(".model m\n.inputs ", &names, "\n"), 11, 2);
        for (one, other) in [(0, last), (last - 1, last), (last / 2, last / 2 + 1), (0, 1), (255, 256), (100, last)] {
            let mut twice = names.clone();
            twice[other] = names[one].clone();
            refused_for(&CALLER, &listed(".model m\n.inputs ", &twice, "\n.end"), 10, 2);
        }
        // Undefined outputs and operands, all of them or the last alone.
        refused_for(&CALLER, &listed(".model m\n.outputs ", &names, "\n.inputs q\n.end"), 10, 2);
        refused_for(&CALLER, &listed(".model m\n.outputs ", &names, "\n.end"), 11, 3);
        refused_for(&CALLER, &listed(".model m\n.inputs q\n.names ", &names, "\n.end"), 10, 3);
        let defined = names[..200].join(&32);
        let head = [b".model m\n.inputs ", defined.as_slice(), b"\n"].concat();
        let text = |directive: &str, names: &[Word]| [&head, directive.as_bytes(), b" ", &names.join(&32), b"\n.end"].concat();
        let mut often: Vec<Word> = (0..names.len() * 4 / 5).map(|i| names[i % 200].clone()).collect();
        let mut all = vec![Node { output: true, ..input() }; 200];
        accepted_for(&CALLER, &text(".outputs", &often), &sheet_of(&CALLER, all.clone()));
        refused_for(&CALLER, &text(".names q\n.names", &[&often[..], &[b"w".to_vec()]].concat()), 11, 4);
        often.push(names[200].clone());
        refused_for(&CALLER, &text(".outputs", &often), 10, 3);
        refused_for(&CALLER, &text(".names", &[&often[..], &[b"w".to_vec()]].concat()), 10, 3);
        // Each on its own line.
        let each = often[..often.len() - 1].iter().flat_map(|name| [b".outputs ", name.as_slice(), b"\n"].concat()).take(40_000);
        let lines: Vec<u8> = each.collect();
        let whole = lines.iter().rposition(|&byte| byte == 10).expect("a line") + 1;
        all.iter_mut().for_each(|node| node.output = true);
        accepted_for(&CALLER, &[&head, &lines[..whole], b".end"].concat(), &sheet_of(&CALLER, all));
    }
}

#[test]
fn hostile_texts() {
    let at = |text: Vec<u8>, number, place| {
        assert!((TEXT - 6_000..=TEXT).contains(&text.len()), "{} bytes", text.len());
        refused_for(&CALLER, &text, number, place);
    };
    let many = |before: &str, part: &str, count: usize, after: &str| format!("{before}{}{after}", part.repeat(count)).into_bytes();
    let one = sheet_of(&CALLER, nodes("i", 1));
    // Operands and outputs.
    at(many(".model m\n.inputs a\n.names", " a", 32_000, " b\n.end"), 11, 3);
    at(many(".model m\n.inputs a\n.names", " a", 32_000, " x b\n.end"), 10, 3);
    at(many(".model m\n.inputs a\n.names x", " a", 32_000, " b\n.end"), 10, 3);
    at(many(".model m\n.inputs a\n.names", " a", 32_000, " a\n.end"), 10, 3);
    at(many(".model m\n.inputs a\n.latch", " a", 32_000, " b\n.end"), 9, 3);
    at(many(".model", " m", 32_000, "\n.inputs a\n.end"), 9, 1);
    at(many(".model m\n.inputs a\n.end", " m", 32_000, "\n"), 9, 3);
    accepted_for(&CALLER, &many(".model m\n.inputs a\n.outputs", " a", 32_000, "\n.end"), &sheet_of(&CALLER, nodes("i*", 1)));
    at(many(".model m\n.inputs a\n.outputs", " a", 32_000, " b\n.end"), 10, 3);
    at(many(".model m\n.inputs a\n.outputs", " b", 32_000, "\n.end"), 10, 3);
    at(many(".model m\n.inputs", " a", 32_000, "\n.end"), 10, 2);
    // Joins.
    at(many("", "\\\n", 32_768, ""), 9, 32_769);
    at(many("", "\\\n", 32_000, "x"), 9, 1);
    at(many("", "\\\n", 32_000, ".model m\n.x"), 9, 32_002);
    at(many(".model m\n", "\\\n", 32_000, ".inputs a a"), 10, 2);
    at(many(".model m\n.inputs a\n.end", "\\\n", 32_000, "x"), 9, 3);
    at(many(".model m\n.inputs a\n.end\n", "\\\n", 32_000, "x"), 9, 4);
    at(many(".model m\n.inputs a\n.outputs a", "\\\n", 32_000, "x\n.end"), 10, 3);
    at(many(".model m\n.inputs a", "\\\n", 32_000, "\n.outputs x\n.end"), 10, 32_003);
    at(many(".model m\n.inputs a", "b\\\n", 21_000, "\n.end"), 11, 2);
    accepted_for(&CALLER, &many("", "\\\n", 32_756, ".model m\n.inputs a\n.end\n"), &one);
    accepted_for(&CALLER, &many(".model m\n.inputs a", "\\\n", 32_756, "\n.end\n"), &one);
    accepted_for(&CALLER, &many(".model m\n.inputs a\n.end\n", "\\\n", 32_756, ""), &one);
    accepted_for(&CALLER, &many(".model m\n.inputs ", "a\\\n", 31, "\n.end\n"), &one);
    refused_for(&CALLER, &many(".model m\n.inputs ", "a\\\n", 32, "\n.end\n"), 11, 2);
    // Backslashes that do not join, signs of comments, blanks.
    at(many("", "\\", 65_536, ""), 9, 1);
    at(many(".model m\n.inputs a\n", "\\", 65_000, " \n.end"), 9, 3);
    at(many(".model m\n.inputs ", "\\", 65_000, "\n.end"), 11, 2);
    at(many("", "#", 65_536, ""), 9, 2);
    at(many("", " ", 65_536, ""), 9, 2);
    at(many("", " \n", 32_768, ""), 9, 32_769);
    accepted_for(&CALLER, &many(".model m\n.inputs a#", "\\#", 32_700, "\\\n.end"), &one);
    accepted_for(&CALLER, &many(".model m\n.inputs a", " \t", 32_700, "\n.end"), &one);
    accepted_for(&CALLER, &many(".model m\n.inputs a\n", "#\\\n", 21_800, ".end"), &one);
    // One word.
    at(many("", "x", 65_536, ""), 9, 1);
    at(many(".model ", "x", 65_000, "\n.inputs a\n.end"), 11, 1);
    at(many(".model m\n.inputs a ", "x", 65_000, "\n.end"), 11, 2);
    at(many(".model m\n.inputs a\n.outputs ", "x", 65_000, "\n.end"), 11, 3);
    at(many(".model m\n.inputs a\n.names ", "x", 65_000, "\n.end"), 11, 3);
    at(many(".model m\n.inputs a\n.names ", "x", 65_000, " b\n.end"), 10, 3);
    at(many(".model m\n.inputs a\n.latch ", "x", 65_000, " b\n.end"), 10, 3);
    at(many(".model m\n.inputs a\n.latch a ", "x", 65_000, "\n.end"), 11, 3);
    at(many(".model m\n.inputs a\n.latch a b ", "0", 65_000, "\n.end"), 9, 3);
    at(many(".model m\n.inputs a\n.names a b\n", "1", 65_000, " 1\n.end"), 9, 4);
    at(many(".model m\n.inputs a\n.names a b\n1 ", "1", 65_000, "\n.end"), 9, 4);
    at(many(".model m\n.inputs a\n.", "x", 65_000, "\n.end"), 9, 3);
    // Lines.
    accepted_for(&CALLER, &many(".model m\n.inputs a\n", ".inputs\n", 8_100, ".end"), &one);
    accepted_for(&CALLER, &many(".model m\n.inputs a\n", ".outputs a\n", 5_900, ".end"), &sheet_of(&CALLER, nodes("i*", 1)));
    accepted_for(&CALLER, &many(".model m\n.inputs a\n.names a b\n", "- 1\n", 16_300, ".end"), &sheet_of(&CALLER, nodes("i, t 0", 1)));
    at(many(".model m\n.inputs a\n.names a b\n", "- 1\n", 16_000, "-- 1\n.end"), 9, 16_004);
    at(many(".model m\n.inputs a\n.outputs x\n.names a b\n", "- 1\n", 16_000, ".end"), 10, 3);
    at(many(".model m\n.inputs a\n", ".outputs a\n", 5_900, ".outputs b\n.end"), 10, 5_903);
    at(many(".model m\n.inputs a\n", ".outputs b\n", 5_900, ".end"), 10, 3);
    at(many(".model m\n.inputs a\n.latch a b\n", "#\n", 32_000, "1 1\n.end"), 9, 32_004);
    // Everything at its limit at once: 256 nodes, names of 31 bytes, six operands, 65,536 bytes.
    let name = |own: u32| format!("{own:0>31}");
    let mut text = format!(".model {}\n.inputs {}\n.outputs {}\n", "m".repeat(NAME), name(0), name(255));
    for own in 1..N.1 {
        let operands: Vec<String> = (1..=6).map(|back| name(own.saturating_sub(back))).collect();
        text += &format!(".names {} {}\n", operands.join(" "), name(own));
    }
    text += ".end\n";
    let all = (0..N.1).map(|own| match own {
        0 => input(),
        _ => Node { kind: 1, output: own == 255, delay: 1, operands: (1..=6).map(|back| own.saturating_sub(back)).collect(), ..input() },
    });
    let expected = sheet_of(&CALLER, all.collect());
    text += &"#".repeat(TEXT - text.len());
    accepted_for(&CALLER, text.as_bytes(), &expected);
}

#[test]
fn layouts_of_one_model() {
    // The same lines in many layouts have one sheet.
    println!("seed {}", SEED + 9);
    let mut random = Random::new(SEED + 9);
    let plain = SMALL.replace("# x", "").replace("\\\n", "");
    let words = |line: &str| line.split_whitespace().map(|word| word.as_bytes().to_vec()).collect();
    let lines: Lines = plain.lines().map(words).collect();
    let expected = sheet_of(&CALLER, nodes("i, i, t* 0 1, b* 2, i", 1));
    accepted_for(&CALLER, SMALL.as_bytes(), &expected);
    for _ in 0..3_000 {
        let text = laid_out(&mut random, &lines);
        assert!(compare_in(&text, &CALLER, AMPLE).2 == expected, "{}", shown(&text));
    }
}
