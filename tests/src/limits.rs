//! The ranges of document 01's section "The sheet", with the H, w and numbers of document 02 (U2), its q (U5) and its windows (U8), each from its least
//! to its greatest value, for the tests' own reader and for the test of each limit.

/// From the least to the greatest value.
pub type Range = (u32, u32);

pub const K: Range = (2, 6);
pub const T: Range = (1, 64);
pub const H: Range = (0, 65_535);
pub const N: Range = (1, 256);
pub const M: Range = (0, 1_024);
pub const KIND: Range = (0, 2);
pub const MARK: Range = (0, 1);
/// P, the period of the windows.
pub const P: Range = (1, 64);
/// w lies in −W to W.
pub const W: u32 = 65_535;
/// The code of w: 2w or −2w − 1.
pub const CODE: Range = (0, 2 * W);
/// The numbers of one, of two and of three bytes.
pub const SIZES: [Range; 3] = [(0, 127), (128, 16_383), (16_384, 2_097_151)];
/// The greatest number that has a spelling.
pub const NUMBER: u32 = SIZES[2].1;

/// How many bytes the spelling of a number has.
pub fn width(value: u32) -> usize {
    1 + SIZES.iter().position(|&(low, high)| (low..=high).contains(&value)).expect("a number that has a spelling")
}

/// The row of a kind in the table of fields: d, lat and the count of operands.
pub struct Fields {
    pub delay: Range,
    pub latency: Range,
    pub operands: Range,
}

/// The table of fields by kind, for a sheet whose T is `top`.
pub const fn fields(kind: u32, top: u32) -> Fields {
    match kind {
        0 => Fields { delay: (0, 0), latency: (0, 0), operands: (0, 0) },
        1 => Fields { delay: (1, top), latency: (0, 0), operands: (1, 6) },
        _ => Fields { delay: (0, top), latency: (0, 255), operands: (0, 6) },
    }
}

/// q, which stands after lat (U5): 0 to T for a box with lat of 1 or more, 0 for all others.
pub const fn clock_to_q(kind: u32, latency: u32, top: u32) -> Range {
    match (kind, latency) {
        (2, 1..) => (0, top),
        _ => (0, 0),
    }
}

/// `from` of a window, P being `period` (U8).
pub const fn window_from(period: u32) -> Range {
    (0, period - 1)
}

/// `to` of a window that begins at `from`.
pub const fn window_to(from: u32, period: u32) -> Range {
    (from + 1, period)
}
