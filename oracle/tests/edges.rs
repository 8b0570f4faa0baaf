//! Both sides of each edge of document 01: the lines worked out by hand are those that both forms print.

mod common;

use common::printed;
use oracle::generate::edges::{edges, COUNT};

#[test]
fn each_edge_has_its_lines() {
    for edge in edges() {
        assert_eq!(printed(&edge.bytes), edge.lines, "{}", edge.name);
    }
}

#[test]
fn all_are_counted() {
    assert_eq!(edges().len(), COUNT);
}
