// For `bench/source.sh`: the least work that a reader of source text does. It finds the lines,
// splits them at white space, and counts the lines by their second field. It doesn't parse any
// field.
use std::collections::HashMap;
use std::io::Read;

fn main() {
    let times: u32 = std::env::args().nth(1).map_or(1, |word| word.parse().unwrap());
    let mut text = Vec::new();
    std::io::stdin().read_to_end(&mut text).unwrap();
    let mut total = 0;
    for _ in 0..times {
        let mut counts: HashMap<&[u8], usize> = HashMap::new();
        let mut fields: Vec<&[u8]> = Vec::new();
        for line in text.split(|byte| *byte == b'\n') {
            if line.is_empty() || line[0] == b'#' {
                continue;
            }
            fields.clear();
            let parts = line.split(|byte| byte.is_ascii_whitespace());
            fields.extend(parts.filter(|part| !part.is_empty()));
            if let Some(name) = fields.get(1) {
                *counts.entry(name).or_insert(0) += 1;
            }
            total += fields.len();
        }
        total += counts.len();
    }
    println!("{total}");
}
