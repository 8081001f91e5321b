//! Times the proved library beside plain Rust: `cargo bench --offline --bench ratio`, after `tools/archive voltamar_c`
//! at the top of the repository. For each call it prints the nanoseconds of both (of the bench, those of a sample),
//! their ratio, and the least and the greatest ratio of five rounds; then which calls are above 1.0. A round's time is
//! the median of its turns, and what is printed the median of the rounds. Every turn has new inputs, made outside the
//! timed part, on which both sides run, now one first and now the other. Answers are compared on every input.
mod boundary;
mod expert;
mod long;
mod programme;
mod short;
mod timing;

use plain::make::Random;
use timing::Row;

fn main() {
    if cfg!(debug_assertions) {
        eprintln!("ratio: run it with `cargo bench`, which builds for release");
        std::process::exit(2);
    }
    println!("release build; buffers not cleared on either side");
    Row::print_head();
    let mut random = Random(1);
    let mut rows = long::rows(&mut random);
    rows.extend(short::rows(&mut random));
    Row::print_above(&rows);
}
