//! Files a scan in the book on standard input, which gives it an Id, looks that up and prints the record, and then sends two requests in one call; a
//! directory of the book's sets is kept beside it.
//!
//!   (cd crates/recfile && rt lib --cpu=x86-64) && mkdir -p target
//!   rustc --edition 2021 -O examples/rust/scan.rs -L crates/recfile/out -l static=recfile -o target/scan-rust
//!   target/scan-rust < samples/numbered.rec

mod recfile;

use recfile::{kind, Entry, File, Refused, Request, Run};
use std::io::Read;

fn main() -> Result<(), Refused> {
    // a byte more than a file may have: of a longer book more than MAX_FILE bytes are read, and it is refused (1), not cut
    let room = recfile::MAX_FILE + 1;
    let mut book = Vec::new();
    let used = std::io::stdin().take(room as u64).read_to_end(&mut book).expect("standard input");
    book.resize(room, 0);
    let mut file = File::new(&mut book, used);
    file.check()?;

    let mut directory = [Entry::default(); recfile::MAX_SETS];
    let sets = file.fill(&mut directory)?;

    // without an Id the scan gets the next one, as the book's %auto says
    let mut room = [0u8; 256];
    let request = Request::new(&mut room, kind::INSERT, "Scan").pair("Page", "front");
    let insert = request.bytes().expect("a request of at most 256 bytes");
    file.edit_listed(insert, &mut directory)?;

    let count = file.count(b"Scan")?;
    println!("{} scans, {} bytes", count, file.used());

    // the same count without a look at the file: the default set is at 0, Scan behind it
    println!("in the directory of {} sets: {}", sets, recfile::count_at(&directory[..sets], 1)?);

    let mut value = [0u8; 64];
    let n = file.fetch(b"Scan", count - 1, b"Id", 0, &mut value)?;
    let id = String::from_utf8_lossy(&value[..n]);
    println!("the last one's Id: {}", id);
    print!("{}", String::from_utf8_lossy(file.view(b"Scan", count - 1)?));

    let mut line = [0u8; 256];
    let n = recfile::write(insert, &mut line)?;
    println!("its text without the numbers has {} bytes", n);

    // two requests in one call: the same scan again, which gets the next Id, and one with the Id that is there (113, question 13 of the result)
    let mut next = [0u8; 256];
    let request = Request::new(&mut next, kind::INSERT, "Scan").pair("Id", &id).pair("Page", "back");
    let another = request.bytes().expect("a request of at most 256 bytes");
    let mut space = [0u8; 520];
    let run = Run::new(&mut space).request(insert).request(another);
    let mut answers = [0u32; 2];
    file.edit_run(run.bytes().expect("a run of at most 520 bytes"), &mut answers)?;
    println!("the same scan again, and one with its Id: {} and {}, {} bytes", answers[0], answers[1], file.used());
    Ok(())
}
