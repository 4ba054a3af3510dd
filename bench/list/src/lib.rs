//! The list of sheets over which question 3 is measured: certificates that the independent implementation makes from points of odd order, drawn with a fixed
//! seed, so that everybody has the same ones. A folder holds them as files, one a sheet.

use std::fs;
use std::io;
use std::path::{Path, PathBuf};

use reference::generate;
use reference::random::Random;
use reference::sheet::{self, Certificate};

pub const SEED: u64 = 8;
/// The primes are spread evenly over the sizes, in bits, from that of 11 to that of the largest.
pub const LEAST: u32 = 4;
pub const MOST: u32 = sheet::VALUE_BITS;
/// Sheets for each size.
pub const EACH: usize = 40;
/// As far as the prime allows them.
pub const DEGREES: [u64; 7] = [3, 5, 7, 9, 11, 13, 15];

fn prime(random: &mut Random, bits: u32) -> u64 {
    let half = 1 << (bits - 1);
    loop {
        let p = half + random.below(half);
        if sheet::ask_prime(p).is_ok() {
            return p;
        }
    }
}

fn certificate(random: &mut Random, bits: u32) -> Certificate {
    let p = prime(random, bits);
    let lawful = DEGREES
        .into_iter()
        .filter(|&l| sheet::ask_degree(l, p).is_ok());
    let l = *random.pick(&lawful.collect::<Vec<u64>>());
    let mut found = generate::from_points(random, p, &[l], 20_000);
    found.pop().expect("some curve has a point of this order")
}

/// The certificates, no two alike, one size of prime after the other and from the first again.
pub fn certificates() -> Vec<Certificate> {
    let mut random = Random::new(SEED);
    let mut list = Vec::new();
    for _ in 0..EACH {
        for bits in LEAST..=MOST {
            let next = loop {
                let drawn = certificate(&mut random, bits);
                if !list.contains(&drawn) {
                    break drawn;
                }
            };
            list.push(next);
        }
    }
    list
}

/// A new folder with the certificates, each a file of its bytes.
pub fn write(folder: &Path, certificates: &[Certificate]) -> io::Result<()> {
    fs::create_dir(folder)?;
    for (i, certificate) in certificates.iter().enumerate() {
        fs::write(folder.join(format!("{i:03}.bin")), certificate.bytes())?;
    }
    Ok(())
}

/// The sheets of a folder in the order of their names, or that of a file.
pub fn read(path: &Path) -> io::Result<Vec<(PathBuf, Vec<u8>)>> {
    let mut names = vec![path.to_path_buf()];
    if path.is_dir() {
        let entries = fs::read_dir(path)?.map(|entry| Ok(entry?.path()));
        names = entries.collect::<io::Result<Vec<PathBuf>>>()?;
        names.sort();
    }
    let sheets = names.into_iter().map(|name| {
        let bytes = fs::read(&name)?;
        Ok((name, bytes))
    });
    sheets.collect()
}

/// The p of a certificate in bytes, or the number of question 2, where that refuses it.
pub fn prime_of(bytes: &[u8]) -> Result<u32, u32> {
    let words = sheet::words_of(bytes)?;
    let [p, ..] = sheet::ask_head(&words, sheet::QUESTION_HEAD)?;
    Ok(p as u32)
}
