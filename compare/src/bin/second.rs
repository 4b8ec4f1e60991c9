//! `second linerun` and `second syncs`: the second program's outputs for a line
//! file on standard input.

use compare::reference::linefile;
use std::io::{Read, Write};

fn main() -> std::io::Result<()> {
    let mut file = Vec::new();
    std::io::stdin().take(linefile::FILE_BYTES as u64 + 1).read_to_end(&mut file)?;
    let result = match std::env::args().nth(1).as_deref() {
        Some("linerun") => linefile::linerun(&file),
        Some("syncs") => linefile::syncs(&file).map(String::into_bytes),
        _ => {
            eprintln!("usage: second linerun|syncs <FILE");
            std::process::exit(2);
        }
    };
    let output = result.unwrap_or_else(|refusal| linefile::refused(refusal).into_bytes());
    let mut stdout = std::io::stdout();
    stdout.write_all(&output)?;
    stdout.flush()
}
