//! The constants of the C header.
use crate::programs::root;

/// The number that the header defines for a name.
pub fn defined(name: &str) -> u64 {
    let path = root().join("include/maps.h");
    let header = std::fs::read_to_string(path).expect("the header");
    let value = header.lines().find_map(|line| line.strip_prefix(&format!("#define {name} "))).unwrap_or_else(|| panic!("no {name}"));
    value.trim().parse().expect("a number")
}
