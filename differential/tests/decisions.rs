//! Every example of `docs/DECISIONS.md`, run by the product. The test has a main of its own, so that the count is printed in any case.

use differential::product;
use second::decisions;
use std::process::ExitCode;

fn main() -> ExitCode {
    decisions::test(concat!(env!("CARGO_MANIFEST_DIR"), "/../docs/DECISIONS.md"), &product::jobs())
}
