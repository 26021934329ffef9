//! The importing program: on standard output the bytes that the library's call writes, the line of a refusal or of the usage on standard error, and
//! its output planned by the listing program.
#![cfg(planner)]
use maps_tests::blif::{self, Caller, Ground, TEXT};
use maps_tests::library::{imported, plan};
use maps_tests::models::{abc, any_caller, at_limit, caller, damaged, sheet, text};
use maps_tests::plan::{refusal_line, Plan};
use maps_tests::programs::{file, in_pieces, program};
use maps_tests::random::Random;
use maps_tests::reader;
use std::collections::BTreeSet;
use std::ffi::OsStr;
use std::io::Seek;
use std::os::unix::ffi::OsStrExt;
use std::process::{Command, Output, Stdio};

const SEED: u64 = 20260109;

/// A room that no sheet exceeds.
const AMPLE: usize = 13_000;

/// The program stops reading after so many bytes: one more than a text may have.
const STOP: usize = TEXT + 1;

const USAGE: &str = "usage: import K T H TABLE LEVEL < model.blif > sheet\n";

/// The caller's numbers where a test is not about them, and a text that is accepted with them.
const CALLER: Caller = Caller { leaves: 3, top: 2, horizon: 4, table: 1, level: 1 };
const MODEL: &[u8] = b".model m\n.inputs a b\n.outputs q\n.names a b x\n11 1\n.latch x q\n.end\n";

/// The caller's numbers as the program's arguments.
fn words(caller: &Caller) -> [String; 5] {
    let Caller { leaves, top, horizon, table, level } = *caller;
    [leaves, top, horizon, table, level].map(|number| number.to_string())
}

/// What the program writes for these arguments where standard input is a file with this text. It ends well and reads so many bytes of the text.
fn run<A: AsRef<OsStr>>(text: &[u8], arguments: &[A], read: usize) -> Output {
    let mut file = file(text);
    let output = Command::new(program("import")).args(arguments).stdin(file.try_clone().unwrap()).output().expect("the program runs");
    assert!(output.status.success(), "{output:?}");
    assert_eq!(file.stream_position().unwrap(), read as u64, "bytes read of {}", text.len());
    output
}

/// Holds the program to the library's call and to the independent importer; gives the number.
fn compare(text: &[u8], caller: &Caller) -> u64 {
    let (answer, sheet) = imported(text, caller, AMPLE);
    let (number, place, expected) = blif::outcome(&blif::records(text, caller), AMPLE);
    assert!((answer.number, answer.place) == (number, place) && sheet == expected.unwrap_or_default(), "the library's call");
    let output = run(text, &words(caller), text.len().min(STOP));
    let said = if number == 0 { String::new() } else { refusal_line(number, place) };
    assert_eq!(String::from_utf8_lossy(&output.stderr), said, "{caller:?}, {}", text.escape_ascii());
    assert!(output.stdout == sheet, "{:?} written and not {sheet:?} for {caller:?}, {}", output.stdout, text.escape_ascii());
    number
}

#[test]
fn a_model_and_its_bytes() {
    // K, T, H, n, m; then kind, mark, d, lat, q, count and operands of a, b, x, q; then P = 1 and no windows.
    let sheet = [&[3, 2, 4, 4, 0][..], &[0; 12], &[1, 0, 1, 0, 0, 2, 0, 1, 2, 1, 0, 1, 0, 1, 2, 1, 0]].concat();
    let output = run(MODEL, &["3", "2", "4", "1", "1"], MODEL.len());
    assert!(output.stdout == sheet && output.stderr.is_empty(), "{output:?}");
    // d = 64; H of three bytes.
    let output = run(MODEL, &["6", "64", "65535", "4294967295", "67108864"], MODEL.len());
    let sheet = [&[6, 64, 0xff, 0xff, 3, 4, 0][..], &[0; 12], &[1, 0, 64, 0, 0, 2, 0, 1, 2, 1, 0, 1, 0, 1, 2, 1, 0]].concat();
    assert!(output.stdout == sheet && output.stderr.is_empty(), "{output:?}");
}

#[test]
fn refused_texts_and_callers() {
    let refused = |text: &str, arguments: [&str; 5], line: &str| {
        let output = run(text.as_bytes(), &arguments, text.len());
        assert!(output.stdout.is_empty() && output.stderr == line.as_bytes(), "{output:?} for {text:?}");
    };
    let plain = ["3", "2", "4", "1", "1"];
    refused("", plain, "refused 9 1\n");
    refused(".model m\n.inputs a\n.end\n.end\n", plain, "refused 9 4\n");
    refused(&format!("{}x", "\n".repeat(1_233)), plain, "refused 9 1234\n");
    refused(".model m\n.inputs a a\n.end\n", plain, "refused 10 2\n");
    refused(".model m\n.inputs a\n.outputs z\n.end\n", plain, "refused 10 3\n");
    refused(".model m\n.end\n", plain, "refused 11 2\n");
    refused(&format!(".model m\n.inputs {}\n.end\n", "a".repeat(32)), plain, "refused 11 2\n");
    // The caller's numbers, before the text.
    for arguments in [
        ["1", "2", "4", "1", "1"],
        ["7", "2", "4", "1", "1"],
        ["3", "0", "4", "1", "1"],
        ["3", "65", "4", "1", "1"],
        ["3", "2", "65536", "1", "1"],
        ["3", "2", "4", "0", "1"],
        ["3", "2", "4", "1", "0"],
        ["3", "2", "4", "3", "1"],
        ["3", "2", "4", "4294967295", "1"],
        ["4294967295", "4294967295", "4294967295", "4294967295", "4294967295"],
    ] {
        refused("x", arguments, "refused 11 0\n");
        refused(std::str::from_utf8(MODEL).unwrap(), arguments, "refused 11 0\n");
    }
}

#[test]
fn made_up_texts() {
    println!("seed {SEED}");
    let mut random = Random::new(SEED);
    let mut met = [0; 12];
    let mut grounds = BTreeSet::new();
    for round in 0..600 {
        let right = caller(&mut random);
        let n = if round % 20 == 0 { random.within(200, 256) } else { random.within(1, 30) };
        let sheet = sheet(&mut random, n, &right);
        let whole = match round % 4 {
            0 => abc(&mut random, &sheet),
            1 => at_limit(&mut random, &right),
            _ => text(&mut random, &sheet),
        };
        let text = if round % 2 == 0 { whole } else { damaged(&mut random, whole) };
        let caller = if round % 3 == 0 { any_caller(&mut random) } else { right };
        grounds.extend(blif::records(&text, &caller).err().map(|(ground, _)| ground));
        met[compare(&text, &caller) as usize] += 1;
    }
    println!("texts by number: {met:?}, grounds {grounds:?}");
    assert!(met[0] > 100 && met[9..].iter().all(|&count| count > 20), "{met:?}");
    assert!(grounds.len() > 20 && grounds.contains(&Ground::LongText), "{grounds:?}");
}

/// A text of so many bytes: the model, and comments behind it.
fn longer(length: usize) -> Vec<u8> {
    [MODEL, &vec![b'#'; length - MODEL.len()]].concat()
}

#[test]
fn texts_longer_than_the_program_reads() {
    for length in [TEXT - 1, TEXT] {
        assert_eq!(compare(&longer(length), &CALLER), 0);
    }
    for length in [TEXT + 1, TEXT + 2, 2 * TEXT, 3 * TEXT + 1] {
        let output = run(&longer(length), &words(&CALLER), STOP);
        assert!(output.stdout.is_empty() && output.stderr == b"refused 11 0\n", "{output:?}");
    }
    // The same where no line of it is right.
    let output = run(&vec![b'x'; TEXT + 1], &words(&CALLER), STOP);
    assert!(output.stdout.is_empty() && output.stderr == b"refused 11 0\n", "{output:?}");
}

#[test]
fn a_text_in_pieces() {
    let (_, sheet) = imported(MODEL, &CALLER, AMPLE);
    for piece in [1, 7, 64] {
        let output = in_pieces(Command::new(program("import")).args(words(&CALLER)), MODEL, piece);
        assert!(output.stdout == sheet, "in pieces of {piece}: {output:?}");
    }
}

/// The program says how it is used, writes nothing else and reads nothing.
fn says_usage<A: AsRef<OsStr> + std::fmt::Debug>(arguments: &[A]) {
    let output = run(MODEL, arguments, 0);
    assert!(output.stdout.is_empty() && output.stderr == USAGE.as_bytes(), "{output:?} for {arguments:?}");
}

#[test]
fn counts_of_arguments() {
    for count in (0..=12).filter(|&count| count != 5) {
        says_usage(&vec!["1"; count]);
    }
    says_usage(&["3", "2", "4", "1", "1", ""]);
    says_usage(&["", "3", "2", "4", "1", "1"]);
}

#[test]
fn words_that_are_no_numbers() {
    let wrong: [&[u8]; 40] = [
        b"", b"-1", b"-0", b"+1", b"-", b"+", b" ", b" 1", b"1 ", b"1\n", b"\t1", b"1e3", b"1.0", b"1,0", b"1_0", b"0x1", b"1u", b"one", b"a",
        b"/", b":", b"1/", b"1:", b"/1", b":1", b"\xc2\xb2", b"\xff", b"1\x01",
        // Past 32 bits, also where 32 or 64 bits of it would be a number that is right.
        b"4294967296", b"4294967297", b"4294967299", b"4294967300", b"9999999999", b"42949672960", b"18446744073709551615", b"18446744073709551617",
        b"18446744073709551619", b"99999999999999999999", b"340282366920938463463374607431768211457",
        // Longer than the program looks.
        b"00000000000000000000000000000000000000000000000000000000000000001",
    ];
    for place in 0..5 {
        for word in wrong {
            let mut arguments = ["3", "2", "4", "1", "1"].map(OsStr::new);
            arguments[place] = OsStr::from_bytes(word);
            says_usage(&arguments);
        }
    }
    // Zeros before a number, and the greatest one.
    let (_, sheet) = imported(MODEL, &CALLER, AMPLE);
    let output = run(MODEL, &["03", "0000000000000002", "0004", "01", "001"], MODEL.len());
    assert!(output.stdout == sheet && output.stderr.is_empty(), "{output:?}");
    let output = run(MODEL, &["3", "2", "4", "4294967295", "4294967295"], MODEL.len());
    assert!(output.stdout == sheet && output.stderr.is_empty(), "{output:?}");
}

/// What the listing program prints of what the importing program writes, each at one end of a pipe.
fn listed(text: &[u8], caller: &Caller) -> String {
    let mut command = Command::new(program("import"));
    command.args(words(caller)).stdin(file(text)).stdout(Stdio::piped()).stderr(Stdio::piped());
    let mut importing = command.spawn().expect("the program runs");
    let listing = Command::new(program("listing")).stdin(importing.stdout.take().unwrap()).output().expect("the listing program runs");
    let importing = importing.wait_with_output().unwrap();
    assert!(importing.status.success() && importing.stderr.is_empty(), "{importing:?}");
    assert!(listing.status.success() && listing.stderr.is_empty(), "{listing:?}");
    String::from_utf8(listing.stdout).expect("text")
}

/// The listing of a sheet's plan, or the line of its refusal.
fn expected(sheet: &[u8]) -> (u64, String) {
    let mut buffer = vec![0; AMPLE];
    let answer = plan(sheet, &mut buffer);
    if answer.number != 0 {
        return (answer.number, refusal_line(answer.number, answer.place));
    }
    let nodes = reader::read(sheet).expect("a sheet that reads").nodes;
    (0, Plan::decoded(nodes.len(), &buffer[..answer.place as usize]).listing())
}

#[test]
fn a_pipe_into_the_listing_program() {
    // a and b arrive in step 0; x is a table of one level; q waits for x and is there one step on.
    assert_eq!(listed(MODEL, &CALLER), "latency 1\n0 0 0 used\n1 0 0 used\n2 0 1 used 0 1\n3 0 1 used\n");
    println!("seed {}", SEED + 1);
    let mut random = Random::new(SEED + 1);
    let mut met = [0; 9];
    for round in 0..200 {
        let caller = caller(&mut random);
        let n = if round % 10 == 0 { random.within(200, 256) } else { random.within(1, 40) };
        let sheet = sheet(&mut random, n, &caller);
        let text = if round % 2 == 0 { abc(&mut random, &sheet) } else { text(&mut random, &sheet) };
        let (answer, bytes) = imported(&text, &caller, AMPLE);
        assert_eq!(answer.number, 0, "{}", text.escape_ascii());
        let (number, listing) = expected(&bytes);
        met[number as usize] += 1;
        assert_eq!(listed(&text, &caller), listing, "{caller:?}, {}", text.escape_ascii());
    }
    println!("sheets by number: {met:?}");
    assert!([0, 6, 7].iter().all(|&number| met[number] > 5), "{met:?}");
}
