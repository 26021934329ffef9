//! Times the proved sheet writer beside the independent one, and beside the proved reader on the same sheet, on sheets of growing size and on the
//! greatest.
#![cfg_attr(not(planner), allow(dead_code, unused_imports))]
use maps_tests::library::{read, Tables};
use maps_tests::limits::{H, W};
use maps_tests::made::{greatest_up_to, numbers, nearly, spelled};
use maps_tests::random::Random;
use maps_tests::reader::Sheet;
use maps_tests::writer::{outcome, Records, Rows};
use std::hint::black_box;
use std::time::Instant;

/// A room that no sheet exceeds.
const AMPLE: usize = 13_000;

/// How often each work is timed, and how many calls are one timing.
const RUNS: usize = 200;
const CALLS: u32 = 10;

/// The least time of each work, in microseconds for a call. They take turns, and each goes first as often.
fn times(works: &mut [&mut dyn FnMut()]) -> Vec<f64> {
    let mut best = vec![f64::INFINITY; works.len()];
    for run in 0..RUNS {
        for turn in 0..works.len() {
            let i = (run + turn) % works.len();
            let start = Instant::now();
            for _ in 0..CALLS {
                works[i]();
            }
            best[i] = best[i].min(start.elapsed().as_secs_f64() * 1e6 / f64::from(CALLS));
        }
    }
    best
}

/// One line: the sheet's bytes, then the times of the writer, the independent writer and the reader, with the ratio of the writer's to each.
#[cfg(planner)]
fn row(name: &str, sheet: &Sheet, room: usize) {
    let bytes = spelled(&numbers(sheet));
    let records = Records::from(sheet);
    let rows = Rows::from(&records);
    let (mut buffer, mut tables) = (vec![0; room], Tables::filled_with(0));
    let mut ours = || {
        black_box(maps_tests::library::write(black_box(&rows), &mut buffer));
    };
    let mut theirs = || {
        black_box(outcome(black_box(&records), room));
    };
    let mut reading = || {
        black_box(read(black_box(&bytes), &mut tables));
    };
    let best = times(&mut [&mut ours, &mut theirs, &mut reading]);
    print!("{name:<26} {:>6} bytes  {:>7.2} us", bytes.len(), best[0]);
    for (other, time) in ["independent writer", "reading it"].iter().zip(&best[1..]) {
        print!("  {other} {time:>7.2} us  ratio {:.2}", best[0] / time);
    }
    println!();
}

#[cfg(not(planner))]
fn row(name: &str, _: &Sheet, _: usize) {
    println!("{name}: the planning library is not built");
}

fn main() {
    let mut random = Random::new(7);
    for most in [16, 64, 128, 256] {
        let whole = nearly(&mut random, most, 4_095);
        row(&format!("up to {most} nodes"), &whole, AMPLE);
    }
    for far in [4_095, H.1] {
        let mut whole = greatest_up_to(&mut random, far);
        row(&format!("the greatest, H = {far}"), &whole, AMPLE);
        row("the same, no buffer", &whole, 0);
        whole.differences.last_mut().unwrap().weight = W as i32 + 1;
        row("the same, last w wrong", &whole, AMPLE);
    }
}
