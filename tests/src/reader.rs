//! Reading a sheet as documents 01 and 02 say, or the number and place of the first of grounds 1 to 5.
use crate::limits::{clock_to_q, fields, window_from, window_to, Range, CODE, H, K, KIND, M, MARK, N, P, T};

#[derive(Clone, Debug, PartialEq)]
pub struct Node {
    pub kind: u32,
    pub output: bool,
    pub delay: u32,
    pub latency: u32,
    /// q, the level at which a box with a latency delivers, so many steps on; 0 for every other node.
    pub clock_to_q: u32,
    pub operands: Vec<u32>,
}

#[derive(Clone, Debug, PartialEq)]
pub struct Difference {
    pub from: u32,
    pub to: u32,
    pub weight: i32,
}

/// An entry of the windows (U8): this box may start in step s only if the remainder of s by P is at least `from` and below `to`.
#[derive(Clone, Debug, PartialEq)]
pub struct Window {
    pub id: u32,
    pub from: u32,
    pub to: u32,
}

#[derive(Clone, Debug, PartialEq)]
pub struct Sheet {
    pub leaves: u32,
    pub top: u32,
    pub horizon: u32,
    pub nodes: Vec<Node>,
    pub differences: Vec<Difference>,
    /// P.
    pub period: u32,
    pub windows: Vec<Window>,
}

impl Default for Sheet {
    /// K, T and H at their least, no nodes, no differences, P = 1 and no windows.
    fn default() -> Sheet {
        Sheet { leaves: K.0, top: T.0, horizon: H.0, nodes: Vec::new(), differences: Vec::new(), period: P.0, windows: Vec::new() }
    }
}

pub type Refusal = (u64, u64);

struct Source<'a> {
    bytes: &'a [u8],
    at: usize,
}

impl Source<'_> {
    /// The next byte of a number.
    fn byte(&mut self) -> Result<u32, Refusal> {
        let byte = *self.bytes.get(self.at).ok_or((1, self.bytes.len() as u64))?;
        self.at += 1;
        Ok(u32::from(byte))
    }

    /// The next number and the place of its first byte.
    fn number(&mut self) -> Result<(u32, u64), Refusal> {
        let place = self.at as u64;
        let first = self.byte()?;
        if first < 128 {
            return Ok((first, place));
        }
        let second = self.byte()?;
        if second == 0 {
            return Err((2, place));
        }
        if second < 128 {
            return Ok((first - 128 + 128 * second, place));
        }
        let third = self.byte()?;
        if third == 0 || third > 127 {
            return Err((2, place));
        }
        Ok((first - 128 + 128 * (second - 128) + 16_384 * third, place))
    }

    fn ranged(&mut self, (low, high): Range) -> Result<u32, Refusal> {
        let (value, place) = self.number()?;
        if value < low || value > high {
            return Err((3, place));
        }
        Ok(value)
    }
}

pub fn read(bytes: &[u8]) -> Result<Sheet, Refusal> {
    let mut source = Source { bytes, at: 0 };
    let leaves = source.ranged(K)?;
    let top = source.ranged(T)?;
    let horizon = source.ranged(H)?;
    let n = source.ranged(N)?;
    let m = source.ranged(M)?;
    let mut nodes = Vec::new();
    for own in 0..n {
        let kind = source.ranged(KIND)?;
        let output = source.ranged(MARK)? == 1;
        let fields = fields(kind, top);
        let delay = source.ranged(fields.delay)?;
        let latency = source.ranged(fields.latency)?;
        let clock_to_q = source.ranged(clock_to_q(kind, latency, top))?;
        let count = source.ranged(fields.operands)?;
        let mut operands = Vec::new();
        for _ in 0..count {
            let (id, place) = source.number()?;
            if id >= own {
                return Err((4, place));
            }
            operands.push(id);
        }
        nodes.push(Node { kind, output, delay, latency, clock_to_q, operands });
    }
    let mut differences = Vec::new();
    for _ in 0..m {
        let from = source.ranged((0, n - 1))?;
        let to = source.ranged((0, n - 1))?;
        let code = source.ranged(CODE)? as i32;
        let weight = if code % 2 == 0 { code / 2 } else { -(code + 1) / 2 };
        differences.push(Difference { from, to, weight });
    }
    let period = source.ranged(P)?;
    let count = source.ranged((0, n))?;
    let mut windows: Vec<Window> = Vec::new();
    for _ in 0..count {
        let (id, place) = source.number()?;
        let is_box = nodes.get(id as usize).is_some_and(|node: &Node| node.kind == 2);
        if !is_box || windows.last().is_some_and(|before| id <= before.id) {
            return Err((3, place));
        }
        let from = source.ranged(window_from(period))?;
        let to = source.ranged(window_to(from, period))?;
        windows.push(Window { id, from, to });
    }
    if source.at < bytes.len() {
        return Err((5, source.at as u64));
    }
    Ok(Sheet { leaves, top, horizon, nodes, differences, period, windows })
}
