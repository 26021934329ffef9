//! The proved library, called through its C interface.
#[cfg(planner)]
use crate::blif::Caller;
#[cfg(planner)]
use crate::buffer::{after, lent};
use crate::reader::{Node, Sheet};
#[cfg(planner)]
use crate::writer::Rows;

/// What a call answers: number and place.
#[repr(C)]
#[derive(Clone, Copy, Debug, PartialEq)]
pub struct Answer {
    pub number: u64,
    pub place: u64,
}

extern "C" {
    fn maps_has_cut(sheet: *const u8, length: usize, allowed: *const [u8; 256], v: u32, k: u32) -> u32;
    fn maps_cut(sheet: *const u8, length: usize, allowed: *const [u8; 256], v: u32, k: u32, list: *mut [u32; 8]) -> u32;
    fn maps_read(sheet: *const u8, length: usize, graph: *mut [u32; 4096], differences: *mut [u32; 4096]) -> Answer;
}

#[cfg(planner)]
extern "C" {
    fn maps_plan(sheet: *const u8, sheet_len: usize, plan: *mut u8, plan_len: usize) -> Answer;
    fn maps_write_rows(
        leaves: u32,
        top: u32,
        horizon: u32,
        nodes: *const u32,
        nodes_len: usize,
        operands: *const u32,
        operands_len: usize,
        differences: *const u32,
        differences_len: usize,
        period: u32,
        windows: *const u32,
        windows_len: usize,
        sheet: *mut u8,
        sheet_len: usize,
    ) -> Answer;
    fn maps_import(
        text: *const u8,
        text_len: usize,
        leaves: u32,
        top: u32,
        horizon: u32,
        table_ps: u32,
        level_ps: u32,
        sheet: *mut u8,
        sheet_len: usize,
    ) -> Answer;
}

/// The two tables that a sheet is read into.
#[derive(Clone, PartialEq)]
pub struct Tables {
    pub graph: [u32; 4096],
    pub differences: [u32; 4096],
}

impl Tables {
    pub fn filled_with(value: u32) -> Tables {
        Tables { graph: [value; 4096], differences: [value; 4096] }
    }

    /// The tables as the crate `sheet` lays them down: sixteen numbers for a node (kind, mark, d, lat, q, operand count, operands; from and to of its
    /// window at 12 and 13), four for a difference, 0 elsewhere.
    pub fn of(sheet: &Sheet) -> Tables {
        let mut tables = Tables::filled_with(0);
        for (row, node) in tables.graph.chunks_mut(16).zip(&sheet.nodes) {
            let Node { kind, output, delay, latency, clock_to_q, ref operands } = *node;
            row[..6].copy_from_slice(&[kind, output as u32, delay, latency, clock_to_q, operands.len() as u32]);
            row[6..6 + operands.len()].copy_from_slice(operands);
        }
        for window in &sheet.windows {
            let row = 16 * window.id as usize;
            tables.graph[row + 12..row + 14].copy_from_slice(&[window.from, window.to]);
        }
        for (row, difference) in tables.differences.chunks_mut(4).zip(&sheet.differences) {
            let w = difference.weight;
            row.copy_from_slice(&[difference.from, difference.to, w.max(0) as u32, (-w).max(0) as u32]);
        }
        tables
    }
}

pub fn read(sheet: &[u8], tables: &mut Tables) -> Answer {
    unsafe { maps_read(sheet.as_ptr(), sheet.len(), &mut tables.graph, &mut tables.differences) }
}

/// A byte for each node: 1 where it is allowed.
fn marks(allowed: &[bool]) -> [u8; 256] {
    let mut marks = [0u8; 256];
    for (mark, &may) in marks.iter_mut().zip(allowed) {
        *mark = u8::from(may);
    }
    marks
}

/// Whether v has a cut of at most k leaves, all of them allowed; None where the question is outside the sheet.
pub fn has_cut(sheet: &[u8], allowed: &[bool], v: u32, k: u32) -> Option<bool> {
    match unsafe { maps_has_cut(sheet.as_ptr(), sheet.len(), &marks(allowed), v, k) } {
        0 => Some(false),
        1 => Some(true),
        255 => None,
        other => panic!("{other} is no answer"),
    }
}

/// The answer about the chosen one of these cuts, and the list after the call, which holds `list` before it.
pub fn chosen_cut(sheet: &[u8], allowed: &[bool], v: u32, k: u32, mut list: [u32; 8]) -> (u32, [u32; 8]) {
    let count = unsafe { maps_cut(sheet.as_ptr(), sheet.len(), &marks(allowed), v, k, &mut list) };
    (count, list)
}

/// Plans a sheet into a buffer.
#[cfg(planner)]
pub fn plan(sheet: &[u8], buffer: &mut [u8]) -> Answer {
    unsafe { maps_plan(sheet.as_ptr(), sheet.len(), buffer.as_mut_ptr(), buffer.len()) }
}

/// Writes the sheet of records into a buffer.
#[cfg(planner)]
pub fn write(rows: &Rows, buffer: &mut [u8]) -> Answer {
    let Rows { leaves, top, horizon, nodes, operands, differences, period, windows } = rows;
    unsafe {
        maps_write_rows(
            *leaves,
            *top,
            *horizon,
            nodes.as_ptr(),
            nodes.len(),
            operands.as_ptr(),
            operands.len(),
            differences.as_ptr(),
            differences.len(),
            *period,
            windows.as_ptr(),
            windows.len(),
            buffer.as_mut_ptr(),
            buffer.len(),
        )
    }
}

/// Imports a BLIF text into a buffer.
#[cfg(planner)]
pub fn import(text: &[u8], caller: &Caller, buffer: &mut [u8]) -> Answer {
    let Caller { leaves, top, horizon, table, level } = *caller;
    unsafe { maps_import(text.as_ptr(), text.len(), leaves, top, horizon, table, level, buffer.as_mut_ptr(), buffer.len()) }
}

/// Imports a BLIF text into a buffer of `room` bytes. Gives the answer and what was written; every other byte keeps its value, of the buffer and on
/// both sides of it, and so do all of them on a refusal.
#[cfg(planner)]
pub fn imported(text: &[u8], caller: &Caller, room: usize) -> (Answer, Vec<u8>) {
    let (answer, buffer) = lent(room, |buffer| import(text, caller, buffer));
    let length = if answer.number == 0 { answer.place as usize } else { 0 };
    assert!(length <= room, "{length} bytes written into {room}: {answer:?}");
    let written = buffer[..length].to_vec();
    assert!(buffer == after(&written, room), "bytes that keep their values in a buffer of {room}: {answer:?}");
    (answer, written)
}
