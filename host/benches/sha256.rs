//! How long the library and the reference need for SHA-256, side by side.

#[path = "../tests/reference/mod.rs"]
mod reference;
mod timing;

use fordtrumpet::{Sha256, MAX_BLOCK};
use std::hint::black_box;
use timing::{best_time, compare, heading, heading_of, keep};

/// What a packet holds of a stream.
const PACKET: usize = 1_460;

type Hash = fn(&[u8]) -> [u8; 32];

fn main() {
    let data: Vec<u8> = (0..MAX_BLOCK).map(|at| (at * 167) as u8).collect();
    let (library, by_reference): (Hash, Hash) = black_box((fordtrumpet::sha256, reference::sha256));

    heading();
    for (what, len) in [
        ("SHA-256 of 5 bytes", 5),
        ("SHA-256 of 64 bytes", 64),
        ("SHA-256 of 131,072 bytes", MAX_BLOCK),
    ] {
        compare_hashes(what, &data[..len], library, by_reference);
    }
    let what = "SHA-256 of 131,072 bytes in runs of 1,460";
    compare_hashes(
        what,
        &data,
        black_box(in_runs),
        black_box(in_runs_by_reference),
    );

    println!();
    heading_of("of 131,072 bytes", "library MB/s", "reference");
    let of = |hash: Hash| {
        let time = best_time(&mut [], |_| keep(&hash(black_box(&data))));
        data.len() as f64 * 1e3 / time
    };
    timing::print("SHA-256", of(library), of(by_reference));
}

fn compare_hashes(what: &str, data: &[u8], library: Hash, by_reference: Hash) {
    assert_eq!(library(data), by_reference(data));
    compare(
        what,
        &mut [],
        |_| keep(&library(black_box(data))),
        |_| keep(&by_reference(black_box(data))),
    );
}

fn in_runs(data: &[u8]) -> [u8; 32] {
    let update: fn(&mut Sha256, &[u8]) = black_box(Sha256::update);
    let mut hash = Sha256::new();
    data.chunks(PACKET).for_each(|run| update(&mut hash, run));
    hash.finish()
}

fn in_runs_by_reference(data: &[u8]) -> [u8; 32] {
    let update: fn(&mut reference::Sha256, &[u8]) = black_box(reference::Sha256::update);
    let mut hash = reference::Sha256::new();
    data.chunks(PACKET).for_each(|run| update(&mut hash, run));
    hash.finish()
}
