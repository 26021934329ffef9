//! The planning call against the planner by brute force: number, place and every byte of the buffer.
use crate::buffer::{after, lent};
use crate::library::{plan, Answer};
use crate::made::{numbers, spelled};
use crate::plan::{refusal_line, Plan};
use crate::planner::{self, outcome};
use crate::random::Random;
use crate::reader::{self, Refusal, Sheet};

/// How often each number from 0 to 12 is met.
pub type Met = [u32; 13];

/// The numbers that the planning call gives.
pub const NUMBERS: [usize; 10] = [0, 1, 2, 3, 4, 5, 6, 7, 8, 12];

/// Plans into `room` bytes between strips of known bytes. Gives the answer and the room's bytes.
pub fn planned(bytes: &[u8], room: usize) -> (Answer, Vec<u8>) {
    lent(room, |buffer| plan(bytes, buffer))
}

/// Compares the library in one room with what brute force gives, and gives number and place.
pub fn compare_in(bytes: &[u8], brute: &Result<Vec<u8>, Refusal>, room: usize) -> (u64, u64) {
    let (number, place, plan) = outcome(brute, room);
    let (answer, buffer) = planned(bytes, room);
    assert_eq!(answer, Answer { number, place }, "{bytes:?} in {room}");
    assert!(buffer == after(plan.unwrap_or_default(), room), "buffer of {bytes:?} in {room}: {buffer:?}");
    (number, place)
}

/// Compares with the planner by brute force in several rooms and counts the numbers met: ample, none and, for an accepted sheet, exact, one short and
/// one more, for a refused one a few bytes, fewer than any plan has. Gives what brute force gives.
pub fn compare(bytes: &[u8], met: &mut Met) -> Result<Vec<u8>, Refusal> {
    let brute = planner::planned(bytes);
    let (number, place) = compare_in(bytes, &brute, 5000);
    met[number as usize] += 1;
    met[compare_in(bytes, &brute, 0).0 as usize] += 1;
    if number == 0 {
        let length = place as usize;
        for (room, expected) in [(length, 0), (length - 1, 8), (length + 1, 0)] {
            assert_eq!(compare_in(bytes, &brute, room), (expected, place));
            met[expected as usize] += 1;
        }
    } else {
        assert_eq!(compare_in(bytes, &brute, 4), (number, place));
    }
    brute
}

/// Compares on as many sheets as `rounds`, which `bytes` makes from the seed and the round, and counts the numbers met.
pub fn compare_all(seed: u64, rounds: u32, mut bytes: impl FnMut(&mut Random, u32) -> Vec<u8>) -> Met {
    println!("seed {seed}");
    let mut random = Random::new(seed);
    let mut met = Met::default();
    for round in 0..rounds {
        let _ = compare(&bytes(&mut random, round), &mut met);
    }
    println!("calls by number: {met:?}");
    met
}

/// The plan of a sheet of any size, or its refusal, which writes nothing. Of the plan all is checked that can be told without brute force; its latency
/// is within H.
pub fn found(sheet: &Sheet) -> Result<Plan, Refusal> {
    let (answer, buffer) = planned(&spelled(&numbers(sheet)), 5000);
    if answer.number != 0 {
        assert!(buffer == after(&[], 5000), "a refusal wrote: {sheet:?}");
        return Err((answer.number, answer.place));
    }
    let plan = Plan::decoded(sheet.nodes.len(), &buffer[..answer.place as usize]);
    plan.check(sheet);
    assert!(plan.latency <= sheet.horizon, "{sheet:?}");
    Ok(plan)
}

/// The listing of what the library gives, also held against the planner by brute force.
pub fn listing(bytes: &[u8]) -> String {
    let _ = compare(bytes, &mut Met::default());
    let (answer, buffer) = planned(bytes, 5000);
    if answer.number != 0 {
        return refusal_line(answer.number, answer.place);
    }
    let sheet = reader::read(bytes).expect("an accepted sheet reads");
    let plan = Plan::decoded(sheet.nodes.len(), &buffer[..answer.place as usize]);
    plan.check(&sheet);
    plan.listing()
}
