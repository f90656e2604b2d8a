//! Compiles the plain C interpreter with the host's C compiler and links it.
use std::env;
use std::path::{Path, PathBuf};
use std::process::Command;

const FLAGS: [&str; 6] = [
    "-O2",
    "-Wall",
    "-Wextra",
    "-pedantic",
    "-Werror",
    "-std=c11",
];

fn run(command: &mut Command) {
    let done = command.status().expect("the C compiler and ar are there");
    assert!(done.success(), "{command:?} failed");
}

fn compile(sources: &Path, include: &Path, out: &Path) {
    let compiler = env::var_os("CC").unwrap_or_else(|| "cc".into());
    let mut archive = Command::new("ar");
    archive.arg("crs").arg(out.join("libplain.a"));
    for name in ["plain", "processor_time"] {
        let object = out.join(name).with_extension("o");
        run(Command::new(&compiler)
            .args(FLAGS)
            .arg("-I")
            .arg(include)
            .args(["-fPIC", "-c"])
            .arg(sources.join(name).with_extension("c"))
            .arg("-o")
            .arg(&object));
        archive.arg(object);
    }
    run(&mut archive);
}

fn main() {
    let package = PathBuf::from(env::var("CARGO_MANIFEST_DIR").expect("cargo names the package"));
    let out = PathBuf::from(env::var("OUT_DIR").expect("cargo names the output folder"));
    let include = package.join("../../include");
    compile(&package.join("plain"), &include, &out);
    println!("cargo:rustc-link-search=native={}", out.display());
    println!("cargo:rustc-link-lib=static=plain");
    println!("cargo:rerun-if-changed=plain");
    println!("cargo:rerun-if-changed={}", include.display());
    println!("cargo:rerun-if-env-changed=CC");
}
