//! The chosen cut of the proved library against every cone, on small graphs made to have many: reconvergent paths, repeated operands, nodes that
//! must be inside below nodes that may be leaves, ties among the least cuts.
use maps_tests::cones::{chosen, cuts};
use maps_tests::library::{chosen_cut, has_cut};
use maps_tests::made::{numbers, spelled};
use maps_tests::random::Random;
use maps_tests::reader::{Node, Sheet};

const SEED: u64 = 20260102;

/// What the list holds before a call.
const BEFORE: [u32; 8] = [11, 22, 33, 44, 55, 66, 77, u32::MAX];

/// The answer about the cut `found`, and all eight numbers of the list after it.
fn answer(found: Option<&[u32]>, k: u32) -> (u32, [u32; 8]) {
    let Some(leaves) = found else {
        return (k + 1, BEFORE);
    };
    let mut list = [0; 8];
    list[..leaves.len()].copy_from_slice(leaves);
    (leaves.len() as u32, list)
}

/// A graph of mostly logic nodes whose operands stand close below them.
fn graph(random: &mut Random, n: u32) -> Sheet {
    let nodes = (0..n)
        .map(|own| {
            let kind = if own < 2 { 0 } else if random.once_in(6) { 2 * random.within(0, 1) } else { 1 };
            let reach = random.within(2, 6).min(own.max(1));
            let count = if kind == 0 { 0 } else { random.within(1, 4) };
            let operands = (0..count).map(|_| own - random.within(1, reach)).collect();
            Node { kind, output: false, delay: u32::from(kind == 1), latency: 0, clock_to_q: 0, operands }
        })
        .collect();
    Sheet { leaves: 2, top: 1, horizon: 0, nodes, ..Sheet::default() }
}

#[test]
fn chosen_cuts_are_those_of_every_cone() {
    println!("seed {SEED}");
    let mut random = Random::new(SEED);
    let (mut asked, mut without, mut ties) = (0, 0, 0);
    for _ in 0..3000 {
        let size = random.within(4, 13);
        let sheet = graph(&mut random, size);
        let bytes = spelled(&numbers(&sheet));
        for _ in 0..4 {
            let density = random.within(1, 4);
            let allowed: Vec<bool> = (0..256).map(|_| !random.once_in(density + 1)).collect();
            for v in (0..sheet.nodes.len()).filter(|&v| sheet.nodes[v].kind == 1) {
                let fitting: Vec<Vec<u32>> = cuts(&sheet, v).into_iter().filter(|c| c.iter().all(|&u| allowed[u as usize])).collect();
                let best = chosen(fitting.iter().cloned());
                if let Some(best) = &best {
                    let mut equal: Vec<&Vec<u32>> = fitting.iter().filter(|c| c.len() == best.len()).collect();
                    equal.dedup();
                    ties += u32::from(equal.iter().any(|c| *c != best));
                }
                let k = random.within(0, 6);
                let expected = best.filter(|c| c.len() <= k as usize);
                without += u32::from(expected.is_none());
                assert_eq!(has_cut(&bytes, &allowed, v as u32, k), Some(expected.is_some()), "{sheet:?} {v} {k}");
                assert_eq!(chosen_cut(&bytes, &allowed, v as u32, k, BEFORE), answer(expected.as_deref(), k), "{sheet:?} {v} {k}");
                asked += 1;
            }
        }
    }
    println!("{asked} questions, {without} without a cut, {ties} with ties");
    assert!(asked > 50_000 && without > 5_000 && ties > 5_000);
}

#[test]
fn questions_outside_the_sheet_are_not_answered() {
    let mut random = Random::new(SEED + 1);
    let sheet = graph(&mut random, 8);
    let bytes = spelled(&numbers(&sheet));
    let allowed = vec![true; 256];
    for v in (0..300).filter(|&v| sheet.nodes.get(v).map_or(true, |node| node.kind != 1)) {
        assert_eq!(chosen_cut(&bytes, &allowed, v as u32, 6, BEFORE), (255, BEFORE));
        assert_eq!(has_cut(&bytes, &allowed, v as u32, 6), None);
    }
    for (bytes, k) in [(&bytes[..], 7), (&bytes[1..], 6)] {
        assert_eq!(chosen_cut(bytes, &allowed, 7, k, BEFORE), (255, BEFORE));
        assert_eq!(has_cut(bytes, &allowed, 7, k), None);
    }
}
