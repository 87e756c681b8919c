//! Compiles the plain C beside which the port is measured.

use std::path::Path;
use std::process::Command;
use std::{env, fs};

fn main() {
    let own = env::var("CARGO_MANIFEST_DIR").expect("cargo sets it");
    let out = env::var("OUT_DIR").expect("cargo sets it");
    let (own, out) = (Path::new(&own), Path::new(&out));
    let (headers, library) = (own.join("../../c"), out.join("libplain.a"));
    println!("cargo:rerun-if-changed={}", headers.join("wal_coordination.h").display());
    // `ar` adds to an archive that is there.
    let _ = fs::remove_file(&library);
    for (name, flags) in [("plain", &[][..]), ("plain_searches", &["-falign-functions=64", "-falign-loops=64"])] {
        let (source, object) = (own.join("src").join(name).with_extension("c"), out.join(name).with_extension("o"));
        println!("cargo:rerun-if-changed={}", source.display());
        let mut gcc = Command::new("gcc");
        gcc.args(["-O2", "-std=c11", "-Wall", "-Wextra", "-Werror"]).args(flags).arg("-I").arg(&headers);
        run(gcc.arg("-c").arg(source).arg("-o").arg(&object));
        run(Command::new("ar").arg("crs").arg(&library).arg(object));
    }
    let out = out.display();
    println!("cargo:rustc-link-search=native={out}");
    println!("cargo:rustc-link-lib=static=plain");
}

fn run(command: &mut Command) {
    let status = command.status().unwrap_or_else(|error| panic!("{command:?}: {error}"));
    assert!(status.success(), "{command:?}: {status}");
}
