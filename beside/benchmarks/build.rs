//! Compiles the walk in C, with gcc as a firmware's maker would, and links it.
use std::path::{Path, PathBuf};
use std::process::{self, Command};
use std::{env, io};

const FLAGS: [&str; 7] = ["-O2", "-std=c99", "-Wall", "-Wextra", "-Wpedantic", "-Werror", "-c"];

fn run(command: &mut Command) -> io::Result<()> {
    match command.status()? {
        done if done.success() => Ok(()),
        failed => Err(io::Error::other(format!("{command:?}: {failed}"))),
    }
}

fn build(here: &Path, out: &Path) -> io::Result<()> {
    let object = out.join("walk.o");
    run(Command::new("gcc").args(FLAGS).arg("-I").arg(here.join("../../include")).arg(here.join("walk.c")).arg("-o").arg(&object))?;
    run(Command::new("ar").arg("rcs").arg(out.join("libbench_walk.a")).arg(&object))
}

fn main() {
    let folder = |name| env::var_os(name).map(PathBuf::from).unwrap_or_default();
    let (here, out) = (folder("CARGO_MANIFEST_DIR"), folder("OUT_DIR"));
    println!("cargo:rerun-if-changed=walk.c");
    println!("cargo:rerun-if-changed=../../include/hop.h");
    if let Err(error) = build(&here, &out) {
        eprintln!("the walk in C cannot be built: {error}");
        process::exit(1);
    }
    println!("cargo:rustc-link-search=native={}", out.display());
    println!("cargo:rustc-link-lib=static=bench_walk");
}
