//! Writing a sheet as documents 01 and 02 say, from records whose fields may have any value, or the number and place of the refusal.
use crate::limits::{clock_to_q, fields, window_from, window_to, Range, H, K, KIND, M, MARK, N, P, T, W};
use crate::made::spelled;
use crate::reader::{self, Difference, Refusal, Sheet, Window};

/// A node as it is given.
#[derive(Clone, Debug, PartialEq)]
pub struct Node {
    pub kind: u32,
    pub output: u32,
    pub delay: u32,
    pub latency: u32,
    pub clock_to_q: u32,
    pub operands: Vec<u32>,
}

impl From<&reader::Node> for Node {
    fn from(node: &reader::Node) -> Node {
        let reader::Node { kind, output, delay, latency, clock_to_q, ref operands } = *node;
        Node { kind, output: u32::from(output), delay, latency, clock_to_q, operands: operands.clone() }
    }
}

/// Header, nodes, differences, P and windows as they are given.
#[derive(Clone, Debug, PartialEq)]
pub struct Records {
    pub leaves: u32,
    pub top: u32,
    pub horizon: u32,
    pub nodes: Vec<Node>,
    pub differences: Vec<Difference>,
    pub period: u32,
    pub windows: Vec<Window>,
}

impl Default for Records {
    /// Those of the sheet of nothing.
    fn default() -> Records {
        Records::from(&Sheet::default())
    }
}

impl From<&Sheet> for Records {
    fn from(sheet: &Sheet) -> Records {
        let nodes = sheet.nodes.iter().map(Node::from).collect();
        let Sheet { leaves, top, horizon, period, .. } = *sheet;
        Records { leaves, top, horizon, nodes, differences: sheet.differences.clone(), period, windows: sheet.windows.clone() }
    }
}

/// The numbers of a sheet that have been found right so far.
#[derive(Default)]
struct Numbers(Vec<u32>);

impl Numbers {
    /// The refusal at the next number.
    fn refusal(&self, number: u64) -> Refusal {
        (number, self.0.len() as u64)
    }

    fn ranged(&mut self, value: u32, (low, high): Range) -> Result<(), Refusal> {
        if value < low || value > high {
            return Err(self.refusal(3));
        }
        self.0.push(value);
        Ok(())
    }

    /// A count of what was given, however much that is.
    fn count(&mut self, count: usize, range: Range) -> Result<(), Refusal> {
        self.ranged(count.try_into().unwrap_or(u32::MAX), range)
    }

    fn operand(&mut self, id: u32, own: usize) -> Result<(), Refusal> {
        if id as usize >= own {
            return Err(self.refusal(4));
        }
        self.0.push(id);
        Ok(())
    }

    /// The id of a box that is not below `least`.
    fn box_id(&mut self, id: u32, least: u32, nodes: &[Node]) -> Result<(), Refusal> {
        if id < least || nodes.get(id as usize).map(|node| node.kind) != Some(2) {
            return Err(self.refusal(3));
        }
        self.0.push(id);
        Ok(())
    }

    /// w, judged as w and then coded.
    fn weight(&mut self, w: i32) -> Result<(), Refusal> {
        if w.unsigned_abs() > W {
            return Err(self.refusal(3));
        }
        self.0.push(if w >= 0 { 2 * w } else { -2 * w - 1 } as u32);
        Ok(())
    }
}

/// The numbers of the sheet of these records, or 3 or 4 at the first that reading would refuse.
pub fn numbers(records: &Records) -> Result<Vec<u32>, Refusal> {
    let mut numbers = Numbers::default();
    numbers.ranged(records.leaves, K)?;
    numbers.ranged(records.top, T)?;
    numbers.ranged(records.horizon, H)?;
    numbers.count(records.nodes.len(), N)?;
    numbers.count(records.differences.len(), M)?;
    for (own, node) in records.nodes.iter().enumerate() {
        numbers.ranged(node.kind, KIND)?;
        numbers.ranged(node.output, MARK)?;
        let fields = fields(node.kind, records.top);
        numbers.ranged(node.delay, fields.delay)?;
        numbers.ranged(node.latency, fields.latency)?;
        numbers.ranged(node.clock_to_q, clock_to_q(node.kind, node.latency, records.top))?;
        numbers.count(node.operands.len(), fields.operands)?;
        for &id in &node.operands {
            numbers.operand(id, own)?;
        }
    }
    let ids = (0, records.nodes.len() as u32 - 1);
    for difference in &records.differences {
        numbers.ranged(difference.from, ids)?;
        numbers.ranged(difference.to, ids)?;
        numbers.weight(difference.weight)?;
    }
    numbers.ranged(records.period, P)?;
    numbers.count(records.windows.len(), (0, records.nodes.len() as u32))?;
    let mut least = 0;
    for &Window { id, from, to } in &records.windows {
        numbers.box_id(id, least, &records.nodes)?;
        numbers.ranged(from, window_from(records.period))?;
        numbers.ranged(to, window_to(from, records.period))?;
        least = id + 1;
    }
    Ok(numbers.0)
}

/// Number, place and what is written, if anything is, for a buffer of `room` bytes.
pub fn outcome(records: &Records, room: usize) -> (u64, u64, Option<Vec<u8>>) {
    match numbers(records).map(|numbers| spelled(&numbers)) {
        Err((number, place)) => (number, place, None),
        Ok(bytes) if bytes.len() > room => (8, bytes.len() as u64, None),
        Ok(bytes) => (0, bytes.len() as u64, Some(bytes)),
    }
}

/// Records as the library's call takes them: six numbers for a node (kind, mark, d, lat, the end of its operands, q), three for a difference (u, v,
/// the bits of w) and three for a window (the box, from, to).
#[derive(Clone, Debug, PartialEq)]
pub struct Rows {
    pub leaves: u32,
    pub top: u32,
    pub horizon: u32,
    pub nodes: Vec<u32>,
    pub operands: Vec<u32>,
    pub differences: Vec<u32>,
    pub period: u32,
    pub windows: Vec<u32>,
}

impl From<&Records> for Rows {
    fn from(records: &Records) -> Rows {
        let (mut nodes, mut operands) = (Vec::new(), Vec::new());
        for node in &records.nodes {
            operands.extend(&node.operands);
            nodes.extend([node.kind, node.output, node.delay, node.latency, operands.len() as u32, node.clock_to_q]);
        }
        let differences = records.differences.iter().flat_map(|d| [d.from, d.to, d.weight as u32]).collect();
        let windows = records.windows.iter().flat_map(|window| [window.id, window.from, window.to]).collect();
        let Records { leaves, top, horizon, period, .. } = *records;
        Rows { leaves, top, horizon, nodes, operands, differences, period, windows }
    }
}

impl Rows {
    /// The records that any rows stand for. A node's operands go from the end of the node before to its own end, as far as the array goes; there are
    /// none where that end does not come after the start. A row that is not complete is none.
    pub fn records(&self) -> Records {
        let mut start = 0;
        let nodes = self.nodes.chunks_exact(6).map(|row| {
            let end = row[4] as usize;
            let operands = (start..end).map_while(|i| self.operands.get(i).copied()).collect();
            start = end;
            Node { kind: row[0], output: row[1], delay: row[2], latency: row[3], clock_to_q: row[5], operands }
        });
        let nodes = nodes.collect();
        let differences = self.differences.chunks_exact(3).map(|row| Difference { from: row[0], to: row[1], weight: row[2] as i32 }).collect();
        let windows = self.windows.chunks_exact(3).map(|row| Window { id: row[0], from: row[1], to: row[2] }).collect();
        let Rows { leaves, top, horizon, period, .. } = *self;
        Records { leaves, top, horizon, nodes, differences, period, windows }
    }
}
