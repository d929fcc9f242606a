//! Reads a study from standard input and prints its report.

use std::io::{Read, Write};

fn main() -> std::io::Result<()> {
    let mut bytes = Vec::new();
    std::io::stdin().lock().read_to_end(&mut bytes)?;
    std::io::stdout().write_all(second_desk::report_text(&bytes).as_bytes())
}
