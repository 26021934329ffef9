//! Times questions about cuts on sheets of 256 nodes with six operands each: whether a cut has at most six leaves, and the chosen one. The time of
//! reading the sheet, which each call begins with, is taken off: that of the same call with K = 7, which is answered after reading.
use maps_tests::library::{chosen_cut, has_cut};
use maps_tests::made::{numbers, spelled};
use maps_tests::random::Random;
use maps_tests::reader::{Node, Sheet};
use std::hint::black_box;
use std::time::Instant;

/// How much longer the least of several runs of `work` takes than that of `base`, in microseconds. The two take turns.
fn beyond(mut work: impl FnMut(), mut base: impl FnMut()) -> f64 {
    let mut best = [f64::INFINITY; 2];
    for _ in 0..20 {
        let start = Instant::now();
        work();
        let middle = Instant::now();
        base();
        best[0] = best[0].min((middle - start).as_secs_f64() * 1e6);
        best[1] = best[1].min(middle.elapsed().as_secs_f64() * 1e6);
    }
    best[0] - best[1]
}

/// 256 nodes, of which the first `inputs` are inputs; a table reads six of the `reach` nodes below it.
fn sheet(random: &mut Random, inputs: u32, reach: u32) -> Sheet {
    let nodes = (0..256u32)
        .map(|own| {
            if own < inputs {
                return Node { kind: 0, output: false, delay: 0, latency: 0, clock_to_q: 0, operands: Vec::new() };
            }
            let operands = (0..6).map(|_| own - random.within(1, reach.min(own))).collect();
            Node { kind: 1, output: own > 250, delay: 1, latency: 0, clock_to_q: 0, operands }
        })
        .collect();
    Sheet { leaves: 6, top: 8, horizon: 100, nodes, ..Sheet::default() }
}

fn main() {
    println!("{:<44} {:>22} {:>22}", "sheet, allowed leaves", "has a cut: mean, worst", "chosen: mean, worst");
    for (inputs, reach) in [(6, 6), (6, 12), (6, 40), (6, 255), (12, 12), (40, 40)] {
        for density in [1, 2, 8] {
            let mut random = Random::new(inputs as u64 * 1000 + reach as u64);
            let bytes = spelled(&numbers(&sheet(&mut random, inputs, reach)));
            let allowed: Vec<bool> = (0..256).map(|u| u < inputs || (density > 1 && random.once_in(density))).collect();
            let mut figures = Vec::new();
            for chosen in [false, true] {
                let (mut sum, mut worst, mut count) = (0.0f64, 0.0f64, 0);
                for v in (inputs..256).step_by(5) {
                    let ask = |k| {
                        if chosen {
                            black_box(chosen_cut(&bytes, &allowed, v, k, [0; 8]));
                        } else {
                            black_box(has_cut(&bytes, &allowed, v, k));
                        }
                    };
                    let one = beyond(|| ask(6), || ask(7));
                    sum += one;
                    worst = worst.max(one);
                    count += 1;
                }
                figures.push((sum / count as f64, worst));
            }
            let leaves = if density == 1 { "inputs".to_string() } else { format!("inputs and one in {density}") };
            println!(
                "{:<44} {:>9.1} {:>9.1} us {:>9.1} {:>9.1} us",
                format!("{inputs} inputs, reach {reach}, {leaves}"),
                figures[0].0, figures[0].1, figures[1].0, figures[1].1
            );
        }
    }
}
