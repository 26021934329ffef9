//! MAPS_STACK of the header against a bound on the stack of each exported call. The bounds come from the archive itself: the frame of each function
//! and who calls whom are read from its disassembly, and a recursive function counts as often as it can be active at once.
#![cfg(planner)]
use maps_tests::blif::Caller;
use maps_tests::header::defined;
use maps_tests::library::{import, plan, write};
use maps_tests::limits::{H, N};
use maps_tests::made::{chain, greatest, greatest_with, input, numbers, spelled, table};
use maps_tests::models::abc;
use maps_tests::programs::root;
use maps_tests::random::Random;
use maps_tests::reader::Sheet;
use maps_tests::writer::{Records, Rows};
use std::collections::{BTreeMap, BTreeSet};
use std::process::Command;

/// The exported calls.
const CALLS: [&str; 3] = ["maps_plan", "maps_write_rows", "maps_import"];

/// Ids of nodes.
const NODES: u64 = N.1 as u64;

/// The recursive functions, by crate and name, with how often each can be active at once.
///
/// The cone walk (crates/cone): `visit` of u goes on only where u is not met in `part`, and sets that it is, so it goes on once for each node; one
/// more may be active, which returns at once. `visit_operands` of a node begins once, from `visit` or the walk's start.
///
/// The search (crates/flow): `expand` of p goes on only where `seen[p]` is 0, and sets it: once for each node, and one more that returns at once.
/// `scan` begins once in each `expand` that goes on. An `enter` that is not the last call has called an `expand`, so there is at most one more of it.
///
/// The sort of the words of a line (crates/distinct): `sort` of n words calls itself for each half of them and returns at once where n is below 2. A
/// text has at most 32,768 words, 2 to the power of 15, so at most 16 of it are active.
///
/// A compiler that inlines some of them, or makes a loop of a last call, leaves fewer frames of each, never more.
const RECURSIVE: [(&str, &str, u64); 6] = [
    ("cone", "visit_operands", NODES),
    ("cone", "visit", NODES + 1),
    ("flow", "expand", NODES + 1),
    ("flow", "scan", NODES),
    ("flow", "enter", NODES + 2),
    ("distinct", "sort", 16),
];

/// Functions of the C library that the compiler calls by itself, and what is allowed for one of them: they are leaves with small frames, and the
/// first call of one may go through the dynamic linker, which saves the vector registers on the stack.
const FOREIGN: [&str; 4] = ["memset", "memcpy", "memmove", "memcmp"];
const FOREIGN_BYTES: u64 = 8192;

/// The return address, which each call adds.
const RETURN: u64 = 8;

/// A function of the archive.
#[derive(Debug, Default)]
struct Function {
    section: String,
    start: u64,
    /// Bytes that it takes from the stack, all of its pushes and subtractions together.
    frame: u64,
    /// Whom it calls or jumps to.
    calls: BTreeSet<String>,
}

fn hexadecimal(text: &str) -> u64 {
    u64::from_str_radix(text.trim_start_matches("0x"), 16).unwrap_or_else(|_| panic!("no number: {text}"))
}

/// A constant operand, as `$0x28,%rsp` has it: its value, which is signed, and the register.
fn constant(operands: &str) -> Option<(i64, &str)> {
    let (value, register) = operands.strip_prefix('$')?.split_once(',')?;
    Some((hexadecimal(value) as i64, register))
}

/// What one instruction takes from the stack. `probe` is true between the copy of the stack pointer and the loop that touches each page down to it.
fn taken(operation: &str, operands: &str, probe: &mut bool) -> u64 {
    match (operation, constant(operands)) {
        ("mov", _) if operands == "%rsp,%r11" => {
            *probe = true;
            0
        }
        ("sub", Some((bytes, "%r11"))) if *probe => bytes as u64,
        // The loop's own step, which the line above has counted whole.
        ("sub", Some((_, "%rsp"))) if *probe => {
            *probe = false;
            0
        }
        // What gives back counts as 0. 128 bytes are taken by adding -128.
        ("sub", Some((bytes, "%rsp"))) => bytes.max(0) as u64,
        ("add", Some((bytes, "%rsp"))) => (-bytes).max(0) as u64,
        ("push", _) => 8,
        ("pop", _) => 0,
        ("cmp" | "test", _) => 0,
        _ if operands.ends_with(",%rsp") || ["enter", "leave", "pushf"].contains(&operation) => {
            panic!("the stack pointer changes in a way that is not known: {operation} {operands}")
        }
        _ => 0,
    }
}

/// The functions of an archive, from what `objdump -dr` prints of it.
fn functions(text: &str) -> BTreeMap<String, Function> {
    let mut all: BTreeMap<String, Function> = BTreeMap::new();
    let (mut section, mut name, mut probe, mut jumps) = (String::new(), String::new(), false, false);
    // Each relocation's function and target, and whether it is that of a call or jump.
    let mut relocations: Vec<(String, String, bool)> = Vec::new();
    for line in text.lines() {
        if let Some(rest) = line.strip_prefix("Disassembly of section ") {
            section = rest.trim_end_matches(':').to_string();
        } else if let Some((start, rest)) = line.split_once(" <").filter(|_| line.ends_with(">:")) {
            name = rest.trim_end_matches(">:").to_string();
            probe = false;
            let new = Function { section: section.clone(), start: hexadecimal(start), ..Function::default() };
            assert!(all.insert(name.clone(), new).is_none(), "two functions are named {name}");
        } else if let Some((_, relocation)) = line.split_once(": R_X86_64_") {
            let target = relocation.split_once(char::is_whitespace).expect("a relocation's target").1.trim();
            relocations.push((name.clone(), target.to_string(), jumps));
        } else if let Some(instruction) = line.split('\t').nth(2) {
            let instruction = instruction.trim().trim_start_matches("notrack ");
            let (operation, operands) = instruction.split_once(char::is_whitespace).unwrap_or((instruction, ""));
            let operands = operands.split_once(" #").map_or(operands, |(before, _)| before).trim();
            // Older versions write callq, pushq and popq.
            let operation = if ["callq", "jmpq", "pushq", "popq"].contains(&operation) { operation.trim_end_matches('q') } else { operation };
            jumps = operation == "call" || operation.starts_with('j');
            let function = all.get_mut(&name).expect("a function");
            function.frame += taken(operation, operands, &mut probe);
            // A jump through a register stays in its function: the table of a switch.
            assert!(operation != "call" || !operands.starts_with('*'), "{name} calls through a pointer: {instruction}");
            // A target inside a function has an offset in it, and is no call; one without is its beginning.
            if let Some((_, target)) = operands.split_once('<').filter(|_| jumps) {
                let target = target.strip_suffix('>').unwrap_or(target);
                if !target.contains("+0x") && (operation == "call" || target != name) {
                    function.calls.insert(target.to_string());
                }
            }
        }
    }
    for (from, target, jumps) in relocations {
        let at = target.rfind(['+', '-']).unwrap_or(target.len());
        let (symbol, addend) = target.split_at(at);
        let to = if symbol.starts_with(".text") {
            // A place in a section; the addend counts from 4 bytes before the next instruction.
            let place = if addend.starts_with('+') { hexadecimal(&addend[1..]) + 4 } else { 4 - hexadecimal(&addend[1..]) };
            let before = all.iter().filter(|(_, f)| f.section == symbol && f.start <= place);
            before.max_by_key(|(_, f)| f.start).unwrap_or_else(|| panic!("nothing stands at {target}")).0.clone()
        } else {
            symbol.to_string()
        };
        if jumps {
            all.get_mut(&from).unwrap().calls.insert(to);
        } else {
            assert!(!all.contains_key(&to), "{from} takes the address of {to}");
        }
    }
    all
}

/// What can be reached from a function by calls.
fn reached<'a>(all: &'a BTreeMap<String, Function>, from: &'a str) -> BTreeSet<&'a str> {
    let mut met = BTreeSet::new();
    let mut open = vec![from];
    while let Some(next) = open.pop() {
        if let Some(function) = all.get(next) {
            open.extend(function.calls.iter().map(String::as_str).filter(|&to| met.insert(to)));
        }
    }
    met
}

/// How often a function that can reach itself is active at once. A name is a path, or has each of its words behind the count of its letters; after the
/// path of a generic function stand its types.
fn activations(name: &str) -> u64 {
    let path = name.split("::<").next().unwrap_or(name);
    let is = |in_crate: &str, function: &str| {
        let counted = |word: &str| name.contains(&format!("{}{word}", word.len()));
        path.starts_with(&format!("{in_crate}::")) && path.ends_with(&format!("::{function}")) || counted(in_crate) && counted(function)
    };
    let known = RECURSIVE.iter().find(|(in_crate, function, _)| is(in_crate, function));
    known.unwrap_or_else(|| panic!("{name} is recursive, and this test has no bound for it")).2
}

/// The most that the stack holds from the call of a function on, its return address included.
fn deepest(all: &BTreeMap<String, Function>, name: &str) -> u64 {
    if !all.contains_key(name) {
        assert!(FOREIGN.contains(&name), "{name} is not in the archive, and not known");
        return FOREIGN_BYTES;
    }
    // The functions that call each other with this one, or this one alone.
    let below = reached(all, name);
    let group: BTreeSet<&str> = below.iter().copied().filter(|to| reached(all, to).contains(name)).chain([name]).collect();
    let count = |member: &str| if below.contains(name) { activations(member) } else { 1 };
    let own: u64 = group.iter().map(|member| count(member) * (all[*member].frame + RETURN)).sum();
    let next = group.iter().flat_map(|member| &all[*member].calls).filter(|to| !group.contains(to.as_str()));
    own + next.map(|to| deepest(all, to)).max().unwrap_or(0)
}

/// The functions of the planner's archive.
fn archive() -> BTreeMap<String, Function> {
    let path = root().join("target/staticlib/libplanner.a");
    let output = Command::new("objdump").arg("-dr").arg(&path).output().expect("objdump runs");
    assert!(output.status.success(), "{}", String::from_utf8_lossy(&output.stderr));
    functions(&String::from_utf8(output.stdout).expect("text"))
}

#[test]
fn the_header_promises_no_less_than_the_bound() {
    let all = archive();
    for (name, function) in &all {
        let times = if reached(&all, name).contains(name.as_str()) { activations(name) } else { 1 };
        println!("{name}: {} bytes, {times} at once, calls {:?}", function.frame + RETURN, function.calls);
    }
    // The walks of two crates and the sort of a third are recursive: a reading of the archive that does not see this is wrong.
    for in_crate in ["cone", "flow", "distinct"] {
        assert!(all.keys().any(|name| name.contains(in_crate) && reached(&all, name).contains(name.as_str())), "no recursion in {in_crate}");
    }
    let promised = defined("MAPS_STACK");
    for call in CALLS {
        let bound = deepest(&all, call);
        println!("{call}: bound {bound}, promised {promised}");
        assert!(bound <= promised, "MAPS_STACK is {promised}, and {call} may take {bound} bytes");
    }
}

/// Runs some of an exported call on a thread whose stack has its bound, and a little more for what the thread itself needs.
fn within_the_bound<T: Send + 'static>(call: &str, work: impl FnOnce() -> T + Send + 'static) -> T {
    let stack = deepest(&archive(), call) as usize + 16_384;
    println!("{stack} bytes of stack");
    std::thread::Builder::new().stack_size(stack).spawn(work).expect("a thread").join().expect("work within the bound")
}

/// Tables that each read the one below and one of `inputs` inputs: with T = 1 all of them must be inside one cone, and a walk goes down all of it.
fn ladder(inputs: u32) -> Sheet {
    let nodes = (0..256).map(|own| if own < inputs { input() } else { table(own == 255, &[own % inputs, own - 1]) }).collect();
    Sheet { leaves: 6, top: 1, horizon: H.1, nodes, ..Sheet::default() }
}

#[test]
fn the_bound_is_enough_for_deep_sheets() {
    let planning = || {
        let mut random = Random::new(20260105);
        let mut met = [0; 13];
        let chains = [4_095, H.1].into_iter().flat_map(|far| (0..20).map(move |slow| chain(slow, far)));
        let greatest = (0..20).map(|round| if round % 2 == 0 { greatest(&mut random) } else { greatest_with(&mut random, |_| (0, 64)) });
        let sheets = (1..40).map(ladder).chain(greatest).chain(chains);
        for sheet in sheets.collect::<Vec<_>>() {
            let mut buffer = vec![0; 5000];
            met[plan(&spelled(&numbers(&sheet)), &mut buffer).number as usize] += 1;
        }
        met
    };
    let met = within_the_bound("maps_plan", planning);
    println!("sheets by number: {met:?}");
    assert!(met[0] > 20);
}

#[test]
fn the_bound_is_enough_for_the_greatest_records() {
    let writing = || {
        let mut random = Random::new(20260107);
        let mut met = [0; 9];
        for _ in 0..20 {
            let rows = Rows::from(&Records::from(&greatest_with(&mut random, |_| (0, 64))));
            let wrong = Rows { differences: vec![256; rows.differences.len()], ..rows.clone() };
            for (rows, room) in [(&rows, 13_000), (&rows, 0), (&wrong, 13_000)] {
                met[write(rows, &mut vec![0; room]).number as usize] += 1;
            }
        }
        met
    };
    assert_eq!(within_the_bound("maps_write_rows", writing), [20, 0, 0, 20, 0, 0, 0, 0, 20]);
}

/// A model with so many different inputs, each a name of two bytes, and the first of them again where `twice` says so.
fn listed(count: usize, twice: bool) -> Vec<u8> {
    let mut names: Vec<u8> = (0..count).flat_map(|i| [(i / 180) as u8 + 40, (i % 180) as u8 + 40, 32]).collect();
    if twice {
        names.extend_from_within(..2);
    }
    [b".model m\n.inputs ", names.as_slice(), b"\n.end\n"].concat()
}

#[test]
fn the_bound_is_enough_for_the_longest_texts() {
    let importing = || {
        let mut random = Random::new(20260109);
        let caller = Caller { leaves: 6, top: 64, horizon: H.1, table: 64, level: 1 };
        let mut met = [0; 12];
        let mut import_in = |text: &[u8], room: usize| met[import(text, &caller, &mut vec![0; room]).number as usize] += 1;
        for _ in 0..20 {
            let whole = greatest(&mut random);
            let nodes = whole.nodes.into_iter().map(|node| if node.operands.is_empty() { input() } else { table(node.output, &node.operands) });
            let text = abc(&mut random, &Sheet { nodes: nodes.collect(), differences: Vec::new(), ..whole });
            import_in(&text, 13_000);
            import_in(&text, 0);
        }
        for count in [2, 255, 256, 257, 5_000, 21_000] {
            import_in(&listed(count, false), 13_000);
            import_in(&listed(count, true), 13_000);
        }
        // As many words as a text can have, and as many lines.
        import_in(&[b".model m\n.inputs".as_slice(), &b" a".repeat(32_758)].concat(), 0);
        import_in(&b"\n".repeat(65_536), 0);
        met
    };
    let met = within_the_bound("maps_import", importing);
    println!("texts by number: {met:?}");
    assert_eq!(met, [23, 0, 0, 0, 0, 0, 0, 0, 20, 1, 7, 3]);
}
