//! Takes the Rust file from WAL_RUST_SOURCE as it is, adds the line that names its child module `peek`,
//! and leaves the result in OUT_DIR.

use std::path::Path;
use std::{env, fs};

const SHA256: &str = "6f6ac2fd02504b8f7cec1248325d05f7e11420e225dcf59ec5cd99ce47b73393";

fn main() {
    println!("cargo:rerun-if-env-changed=WAL_RUST_SOURCE");
    let source = env::var("WAL_RUST_SOURCE").expect("WAL_RUST_SOURCE names shared_wal_coordination.rs");
    println!("cargo:rerun-if-changed={source}");
    let bytes = fs::read(&source).unwrap_or_else(|error| panic!("{source}: {error}"));
    assert_eq!(sha256(&bytes), SHA256, "{source} is not the file that document 01 is about");

    let out = env::var("OUT_DIR").unwrap();
    let own = env::var("CARGO_MANIFEST_DIR").unwrap();
    let copy = Path::new(&out).join("shared_wal_coordination.rs");
    let line = format!("#[path = {:?}] pub(crate) mod peek;\n", Path::new(&own).join("../oracle/src/peek.rs"));
    fs::write(&copy, [&bytes[..], line.as_bytes()].concat()).unwrap();
    let written = fs::read(&copy).unwrap();
    assert_eq!(sha256(&written[..bytes.len()]), SHA256, "the file is compiled unchanged");
    assert_eq!(&written[bytes.len()..], line.as_bytes(), "one line is added");
    fs::write(
        Path::new(&out).join("source.rs"),
        format!("#[allow(warnings)]\n#[path = {copy:?}]\nmod shared_wal_coordination;\n"),
    )
    .unwrap();
}

/// SHA-256, FIPS 180-4.
fn sha256(message: &[u8]) -> String {
    let primes: Vec<u32> = (2..312).filter(|n| (2..*n).all(|d| n % d != 0)).take(64).collect();
    // The first 32 bits of the fraction of a root, of 64 for the constants and of 8 for the start.
    let fraction = |root: f64| ((root - root.floor()) * 4_294_967_296.0) as u32;
    let constants: Vec<u32> = primes.iter().map(|&p| fraction(f64::from(p).cbrt())).collect();
    let mut state: Vec<u32> = primes[..8].iter().map(|&p| fraction(f64::from(p).sqrt())).collect();

    let mut padded = message.to_vec();
    padded.push(0x80);
    padded.resize(padded.len().next_multiple_of(64), 0);
    if (message.len() % 64) >= 56 {
        padded.resize(padded.len() + 64, 0);
    }
    let end = padded.len();
    padded[end - 8..].copy_from_slice(&(message.len() as u64 * 8).to_be_bytes());

    for chunk in padded.chunks(64) {
        let mut w: Vec<u32> = chunk.chunks(4).map(|b| u32::from_be_bytes(b.try_into().unwrap())).collect();
        for i in 16..64 {
            let s0 = w[i - 15].rotate_right(7) ^ w[i - 15].rotate_right(18) ^ (w[i - 15] >> 3);
            let s1 = w[i - 2].rotate_right(17) ^ w[i - 2].rotate_right(19) ^ (w[i - 2] >> 10);
            w.push(w[i - 16].wrapping_add(s0).wrapping_add(w[i - 7]).wrapping_add(s1));
        }
        let mut v = state.clone();
        for i in 0..64 {
            let s1 = v[4].rotate_right(6) ^ v[4].rotate_right(11) ^ v[4].rotate_right(25);
            let choice = (v[4] & v[5]) ^ (!v[4] & v[6]);
            let t1 = v[7].wrapping_add(s1).wrapping_add(choice).wrapping_add(constants[i]).wrapping_add(w[i]);
            let s0 = v[0].rotate_right(2) ^ v[0].rotate_right(13) ^ v[0].rotate_right(22);
            let majority = (v[0] & v[1]) ^ (v[0] & v[2]) ^ (v[1] & v[2]);
            v.rotate_right(1);
            v[4] = v[4].wrapping_add(t1);
            v[0] = t1.wrapping_add(s0).wrapping_add(majority);
        }
        for (s, v) in state.iter_mut().zip(v) {
            *s = s.wrapping_add(v);
        }
    }
    state.iter().map(|word| format!("{word:08x}")).collect()
}
