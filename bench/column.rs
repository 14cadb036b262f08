//! For `bench/convert.sh`: prints a column of ROWS rows. Standard input names the zones, one on a
//! line.
//!
//! usage: column KIND ROWS
//!
//! - `random`: random zones, random instants from 1970 to 2037.
//! - `rising`: the first zone, instants that rise evenly through the same years.
//! - `footer`: as `random`, from 2040 to 2400.
//! - `quoted`: as `random`, with both fields in double quotes.
//! - `wide`: as `random`, in records of ten fields, of which the third is the zone and the sixth the
//!   instant.
//!
//! The seed is fixed, so the same call prints the same column.

use std::io::{BufWriter, Read, Write};

const YEAR_2038: u64 = 2_145_916_800;
const YEAR_2040: u64 = 2_208_988_800;
const YEAR_2401: u64 = 13_601_088_000;

/// Returns the next number of xorshift64*.
fn next(seed: &mut u64) -> u64 {
    *seed ^= *seed >> 12;
    *seed ^= *seed << 25;
    *seed ^= *seed >> 27;
    seed.wrapping_mul(0x2545_f491_4f6c_dd1d)
}

/// Maps a random number to a number below a limit.
fn below(limit: u64, number: u64) -> u64 {
    (u128::from(limit) * u128::from(number) >> 64) as u64
}

fn main() {
    let [kind, rows] = [1, 2].map(|word| std::env::args().nth(word).expect("KIND ROWS"));
    let rows = rows.parse::<u64>().expect("ROWS");
    let mut text = String::new();
    std::io::stdin().read_to_string(&mut text).unwrap();
    let names = text.lines().collect::<Vec<_>>();
    let (first, end) = if kind == "footer" { (YEAR_2040, YEAR_2401) } else { (0, YEAR_2038) };
    let mut seed = 1;
    let mut out = BufWriter::with_capacity(1 << 16, std::io::stdout().lock());
    for row in 0..rows {
        let (name, instant) = if kind == "rising" {
            (0, (u128::from(row) * u128::from(end) / u128::from(rows)) as u64)
        } else {
            (below(names.len() as u64, next(&mut seed)) as usize, first + below(end - first, next(&mut seed)))
        };
        if kind == "quoted" {
            writeln!(out, "\"{}\",\"{instant}\"", names[name]).unwrap();
        } else if kind == "wide" {
            let zone = names[name];
            writeln!(out, "{row},login,{zone},10.1.2.3,ok,{instant},web,42,some words,").unwrap();
        } else {
            writeln!(out, "{},{instant}", names[name]).unwrap();
        }
    }
}
