//! Every example of `docs/DECISIONS.md`, run by this library. The test has a main of its own, so that the count is printed in any case.

use second::decisions;
use second::generator::law::Jobs;
use std::process::ExitCode;

fn main() -> ExitCode {
    decisions::test(concat!(env!("CARGO_MANIFEST_DIR"), "/../docs/DECISIONS.md"), &Jobs::library())
}
