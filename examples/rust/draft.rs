//! Fills in a scan for the book on standard input, a field at a time, and says after each how many names are still to fill, as a screen would; then files it.
//!
//!   (cd crates/recfile && rt lib --cpu=x86-64) && mkdir -p target
//!   rustc --edition 2021 -O examples/rust/draft.rs -L crates/recfile/out -l static=recfile -o target/draft-rust
//!   target/draft-rust < samples/receipts.rec

mod recfile;

use recfile::{kind, File, Refused, Request};
use std::io::Read;

fn main() -> Result<(), Refused> {
    // a byte more than a file may have: a longer book is refused (1), not cut
    let room = recfile::MAX_FILE + 1;
    let mut book = Vec::new();
    let used = std::io::stdin().take(room as u64).read_to_end(&mut book).expect("standard input");
    book.resize(room, 0);
    let mut file = File::new(&mut book, used);

    let mut room = [0u8; 256];
    let mut request = Request::new(&mut room, kind::INSERT, "Scan");
    for (name, value) in [("Note", "torn"), ("Page", "front"), ("Page", "back"), ("Id", "2")] {
        request = request.pair(name, value);
        let draft = request.bytes().expect("a request of at most 256 bytes");
        println!("{}: {} to fill", name, file.to_fill(draft)?);
    }
    file.edit(request.bytes().expect("a request of at most 256 bytes"))?;
    println!("filed, {} bytes", file.used());
    Ok(())
}
