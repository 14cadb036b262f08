//! The files of a tree.

use std::fs;
use std::path::Path;
use std::thread;

pub struct ZoneFile {
    /// The path below the tree.
    pub name: String,
    pub octets: Vec<u8>,
}

/// Reads all files of a tree, with several workers.
pub fn read(tree: &Path, workers: usize) -> Vec<ZoneFile> {
    let mut names = Vec::new();
    list(tree, "", &mut names);
    let read_part =
        |names: &[String]| names.iter().map(|name| read_file(tree, name)).collect::<Vec<_>>();
    thread::scope(|scope| {
        let mut parts = names.chunks(names.len().div_ceil(workers).max(1));
        let first = parts.next().unwrap_or_default();
        let others = parts.map(|part| scope.spawn(move || read_part(part))).collect::<Vec<_>>();
        let mut files = read_part(first);
        files.extend(others.into_iter().flat_map(|other| other.join().unwrap()));
        files
    })
}

fn read_file(tree: &Path, name: &str) -> ZoneFile {
    ZoneFile { name: name.to_owned(), octets: fs::read(tree.join(name)).unwrap() }
}

/// Lists the names of all files below a folder.
fn list(folder: &Path, prefix: &str, names: &mut Vec<String>) {
    for entry in fs::read_dir(folder).unwrap() {
        let entry = entry.unwrap();
        let name = format!("{prefix}{}", entry.file_name().to_str().unwrap());
        if entry.file_type().unwrap().is_dir() {
            list(&entry.path(), &format!("{name}/"), names);
        } else {
            names.push(name);
        }
    }
}
