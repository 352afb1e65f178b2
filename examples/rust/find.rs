//! Prints the records of the set Bill, in the book on standard input, that an expression finds: `Amount > 20 && Paid = 'no'`, or the one that is given.
//!
//!   (cd crates/recfile && rt lib --cpu=x86-64) && mkdir -p target
//!   rustc --edition 2021 -O examples/rust/find.rs -L crates/recfile/out -l static=recfile -o target/find-rust
//!   target/find-rust "Amount > 20 && Paid = 'no'" < samples/bills.rec

mod recfile;

use recfile::{File, Refused};
use std::io::Read;

fn main() -> Result<(), Refused> {
    let expression = std::env::args().nth(1).unwrap_or("Amount > 20 && Paid = 'no'".to_string());
    // a byte more than a file may have: a longer book is refused (1), not cut
    let room = recfile::MAX_FILE + 1;
    let mut book = Vec::new();
    let used = std::io::stdin().take(room as u64).read_to_end(&mut book).expect("standard input");
    book.resize(room, 0);
    let file = File::new(&mut book, used);

    // as many as any file has records
    let mut records = vec![0; 16384];
    let count = file.find(b"Bill", expression.as_bytes(), &mut records)?;
    println!("{} found", count);
    for record in &records[..count] {
        print!("\n{}", String::from_utf8_lossy(file.view(b"Bill", *record)?));
    }
    Ok(())
}
