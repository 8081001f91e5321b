//! Writes the sample files into a folder: `cargo run --offline -p plain --bin sample_files -- ../examples`.
use std::process::ExitCode;

fn main() -> ExitCode {
    let words: Vec<String> = std::env::args().skip(1).collect();
    let [folder] = words.as_slice() else {
        eprintln!("usage: sample_files FOLDER");
        return ExitCode::from(2);
    };
    for (name, bytes) in plain::examples::files() {
        if let Err(error) = std::fs::write(format!("{folder}/{name}"), bytes) {
            eprintln!("{folder}/{name}: {error}");
            return ExitCode::from(1);
        }
    }
    ExitCode::SUCCESS
}
