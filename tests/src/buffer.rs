//! A buffer between two strips of known bytes, lent to a call.
use crate::library::Answer;

/// The width of the strips of known bytes before and behind the buffer.
const STRIP: usize = 24;

/// The byte that stands at a place before the call.
fn known(at: usize) -> u8 {
    (at as u8).wrapping_mul(37) ^ 0xa5
}

/// Makes a call on `room` bytes between two strips. Gives the answer and the room's bytes; the strips keep theirs.
pub fn lent(room: usize, call: impl FnOnce(&mut [u8]) -> Answer) -> (Answer, Vec<u8>) {
    let mut whole: Vec<u8> = (0..room + 2 * STRIP).map(known).collect();
    let answer = call(&mut whole[STRIP..STRIP + room]);
    let kept = |at: usize| whole[at] == known(at);
    assert!((0..STRIP).all(kept) && (STRIP + room..room + 2 * STRIP).all(kept), "bytes outside a buffer of {room}: {answer:?}");
    (answer, whole[STRIP..STRIP + room].to_vec())
}

/// The bytes of a buffer of `room` bytes after a call that writes `written` at its front.
pub fn after(written: &[u8], room: usize) -> Vec<u8> {
    (0..room).map(|i| written.get(i).copied().unwrap_or(known(STRIP + i))).collect()
}
