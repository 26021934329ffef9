//! A plan taken apart, what documents 01 and 02 say of it, and its listing.
use crate::labels::{latency, open, plus, ready, Label};
use crate::reader::Sheet;

/// A plan taken apart.
pub struct Plan {
    pub latency: u32,
    pub labels: Vec<Label>,
    pub used: Vec<bool>,
    pub leaves: Vec<Vec<u32>>,
}

impl Plan {
    /// The plan of so many nodes that these bytes spell, all of them.
    pub fn decoded(nodes: usize, bytes: &[u8]) -> Plan {
        let mut rest = bytes.iter().map(|&byte| u32::from(byte));
        let mut number = || {
            let mut value = 0;
            for unit in [1, 128, 16_384] {
                let byte = rest.next().expect("a number, or the rest of one");
                assert!(byte > 0 || unit == 1, "a last byte of 0");
                value += byte % 128 * unit;
                if byte < 128 {
                    return value;
                }
            }
            panic!("a third byte above 127")
        };
        let mut plan = Plan { latency: number(), labels: Vec::new(), used: Vec::new(), leaves: Vec::new() };
        for _ in 0..nodes {
            plan.labels.push((number(), number()));
            let used = number();
            assert!(used <= 1, "a used mark");
            plan.used.push(used == 1);
            let count = number();
            plan.leaves.push((0..count).map(|_| number()).collect());
        }
        assert_eq!(rest.next(), None, "bytes after the plan");
        plan
    }

    /// The nodes that a walk down from v meets before the leaves of v, and the leaves that it meets.
    fn cone(&self, sheet: &Sheet, v: usize) -> (Vec<usize>, Vec<u32>) {
        let (mut members, mut met, mut next) = (vec![v], Vec::new(), 0);
        while next < members.len() {
            for &u in &sheet.nodes[members[next]].operands {
                if self.leaves[v].contains(&u) {
                    met.push(u);
                } else if !members.contains(&(u as usize)) {
                    members.push(u as usize);
                }
            }
            next += 1;
        }
        met.sort_unstable();
        met.dedup();
        (members, met)
    }

    /// Checks what the documents say of a plan, apart from which labels are least and which cut is chosen.
    pub fn check(&self, sheet: &Sheet) {
        let ready_at = |u: u32| ready(&sheet.nodes[u as usize], self.labels[u as usize]);
        let mut used = vec![false; sheet.nodes.len()];
        for (v, node) in sheet.nodes.iter().enumerate().rev() {
            let label = self.labels[v];
            let carried = |leaves: &[u32]| leaves.iter().all(|&u| plus(ready_at(u), node.delay, sheet.top) <= label);
            assert!(node.delay <= label.1 && label.1 <= sheet.top, "level of {v}");
            assert!(label.0 + node.latency <= sheet.horizon, "horizon at {v}");
            assert!(open(sheet, v, label.0), "window of {v}");
            assert!(node.operands.iter().all(|&u| ready_at(u).0 <= label.0), "operands' steps of {v}");
            used[v] |= node.output || node.kind == 2;
            if node.kind == 2 {
                assert!(carried(&node.operands), "arrival at box {v}");
                node.operands.iter().for_each(|&u| used[u as usize] = true);
            }
            let leaves = &self.leaves[v];
            if node.kind != 1 || !used[v] {
                assert!(leaves.is_empty(), "leaves of {v}");
                continue;
            }
            assert!((1..=sheet.leaves as usize).contains(&leaves.len()), "leaf count of {v}");
            assert!(leaves.windows(2).all(|pair| pair[0] < pair[1]) && leaves.iter().all(|&u| (u as usize) < v), "leaves of {v}");
            assert!(carried(leaves), "leaves of {v} carry its label");
            let (members, met) = self.cone(sheet, v);
            assert!(members.iter().all(|&u| sheet.nodes[u].kind == 1) && met == *leaves, "leaves of {v} are the cut of a cone");
            leaves.iter().for_each(|&u| used[u as usize] = true);
        }
        assert_eq!(self.used, used, "used marks");
        for d in &sheet.differences {
            let (from, to) = (self.labels[d.from as usize].0 as i32, self.labels[d.to as usize].0 as i32);
            assert!(to >= from + d.weight, "{d:?}");
        }
        assert_eq!(self.latency, latency(sheet, &self.labels), "latency");
    }

    /// The listing: latency first, then id, step, level, `used` or `idle`, leaves.
    pub fn listing(&self) -> String {
        let mut text = format!("latency {}\n", self.latency);
        for (v, (s, l)) in self.labels.iter().enumerate() {
            text += &format!("{v} {s} {l} {}", if self.used[v] { "used" } else { "idle" });
            self.leaves[v].iter().for_each(|u| text += &format!(" {u}"));
            text += "\n";
        }
        text
    }
}

/// What the listing program prints of a refusal: number, then place.
pub fn refusal_line(number: u64, place: u64) -> String {
    format!("refused {number} {place}\n")
}
