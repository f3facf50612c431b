//! Some ten thousand pairs for each float operation; `host_tests floats SEED COUNT` takes as many as asked for.

use host_tests::floats::{compare, OPERATIONS};

const SEED: u64 = 20260101;
const COUNT: usize = 10_000;

#[test]
fn the_loader_and_the_processor_agree() {
    for operation in &OPERATIONS {
        if let Err(difference) = compare(operation, SEED, COUNT) {
            panic!("{difference}");
        }
    }
}
