//! Times the proved reader beside the independent one, on sheets of growing size and on the greatest.
use maps_tests::library::{read, Tables};
use maps_tests::limits::H;
use maps_tests::made::{greatest_up_to, numbers, nearly, spelled};
use maps_tests::random::Random;
use maps_tests::reader;
use std::hint::black_box;
use std::time::Instant;

/// The least time of several runs, in microseconds.
fn time(mut work: impl FnMut()) -> f64 {
    let mut best = f64::INFINITY;
    for _ in 0..200 {
        let start = Instant::now();
        for _ in 0..10 {
            work();
        }
        best = best.min(start.elapsed().as_secs_f64() * 1e5);
    }
    best
}

fn row(name: &str, bytes: &[u8]) {
    let mut tables = Tables::filled_with(0);
    let ours = time(|| {
        black_box(read(black_box(bytes), &mut tables));
    });
    let theirs = time(|| {
        black_box(reader::read(black_box(bytes)).is_ok());
    });
    println!("{name:<24} {:>6} bytes  {ours:>7.2} us  independent reader {theirs:>7.2} us  ratio {:.2}", bytes.len(), ours / theirs);
}

fn main() {
    let mut random = Random::new(7);
    for most in [16, 64, 128, 256] {
        let whole = nearly(&mut random, most, 4_095);
        row(&format!("up to {most} nodes"), &spelled(&numbers(&whole)));
    }
    for far in [4_095, H.1] {
        let bytes = spelled(&numbers(&greatest_up_to(&mut random, far)));
        row(&format!("the greatest, H = {far}"), &bytes);
        row("the same, cut short", &bytes[..bytes.len() - 1]);
    }
}
