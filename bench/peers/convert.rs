//! For `bench/convert.sh`: converts a column in plain Rust, to compare `pzic convert` with. Reads
//! the column from standard input and uses the files of a tree. Fields may be in double quotes,
//! with no comma, quote or line end inside. At a record with a fault it prints the kind of the
//! fault, but not the record's number, and ends. Needs an x86-64 processor.
//!
//! Records go in batches of some 200 through five short loops, each over one column of the batch:
//! line ends, instants, zones, local time types, text. In a short loop the processor works on many
//! records at a time, and no loop has a branch on what usually differs between records. Unusual
//! records are done one by one (`general.rs`), or made plain first if there are many (`plain.rs`).
//!
//! usage: convert TREE WORKERS

mod batch;
mod calendar;
mod converter;
mod crew;
mod cutter;
mod footer;
mod footer_text;
mod footer_years;
mod general;
mod input;
mod instants;
mod line_ends;
mod local_time_types;
mod lookup;
mod names;
mod plain;
mod quick_hash;
mod rows;
mod slots;
mod tables;
mod text;
mod tree;
mod vectors;
mod zone;

use crew::Crew;
use input::Input;
use std::fs::File;
use std::io::Write;
use std::os::fd::{AsFd, BorrowedFd};
use std::path::Path;
use tables::Tables;

/// Ends the program at a record with a fault.
fn refuse(kind: &str) -> ! {
    eprintln!("{kind}");
    std::process::exit(1)
}

/// Returns the file of a descriptor: the buffers of `Stdin` and `Stdout` would cost copies.
fn file(descriptor: BorrowedFd<'_>) -> File {
    File::from(descriptor.try_clone_to_owned().unwrap())
}

fn main() {
    let [tree, workers] = [1, 2].map(|word| std::env::args().nth(word).expect("TREE WORKERS"));
    let workers = workers.parse().expect("WORKERS");
    let tables = Tables::new(tree::read(Path::new(&tree), workers));
    let mut crew = Crew::new(workers, &tables);
    let mut input = Input::new(file(std::io::stdin().as_fd()), workers);
    let mut output = file(std::io::stdout().as_fd());
    while let Some(round) = input.next_round() {
        crew.convert(round);
        for text in crew.texts() {
            output.write_all(text).unwrap();
        }
    }
}
