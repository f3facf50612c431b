//! No call takes more stack than docs/EMBEDDING.md says.

use host_tests::compare::ask_loader;
use host_tests::memory::{Memory, SIZES};
use host_tests::painted::stack_used;
use host_tests::requests::{generated, Request};
use std::collections::BTreeMap;

/// `| Stack | section and type 1,000, body .. |` of the integrator's sheet, in bytes by what is asked.
fn on_the_page(asked: &str) -> usize {
    let page = concat!(env!("CARGO_MANIFEST_DIR"), "/../../docs/EMBEDDING.md");
    let page = std::fs::read_to_string(page).expect("the page");
    let start = format!("| Stack of a call about {asked} |");
    let row = page.lines().find(|line| line.starts_with(&start)).expect("the row");
    let bytes = row[start.len()..].trim_start().split(' ').next().expect("the figure");
    bytes.replace(',', "").parse().expect("a number")
}

/// The loader on a painted stack, with the wrapper's own frames.
fn used_by(request: &Request, memory: &mut Memory) -> usize {
    let mut lent = memory.lent();
    stack_used(&mut || {
        let _ = std::hint::black_box(ask_loader(request, &mut lent));
    })
}

#[test]
fn no_call_takes_more_than_the_page_says() {
    let mut memory = Memory::filled(SIZES, 0);
    let mut most: BTreeMap<&str, usize> = BTreeMap::new();
    // The first call of all finds memset for the program, which takes stack of its own.
    let requests: Vec<Request> = generated(14).take(6_000).collect();
    used_by(&requests[0], &mut memory);
    for request in &requests {
        let used = used_by(request, &mut memory);
        let seen = most.entry(request.kind()).or_default();
        *seen = used.max(*seen);
    }
    println!("{most:?}");
    for (kind, used) in most {
        let said = on_the_page(kind);
        assert!(used <= said, "{kind}: {used} bytes, and the page says {said}");
        assert!(used > said / 3, "{kind}: {used} bytes, and the page says as much as {said}");
    }
}
