//! Finds the static libraries: in the folder that FUGNADRI_LIB names (a whole path), or in ../target/staticlib.

use std::{env, path::PathBuf, process::exit};

const LIBRARIES: &[&str] = &[
    "fugnadri_room",
    "fugnadri_oversampled_told",
    "fugnadri_oversampled",
    "fugnadri_stretches",
    "fugnadri_told",
    "fugnadri_aiff",
    "fugnadri_wav",
    "fugnadri_wav_write",
    "fugnadri_residual",
    "fugnadri_bank",
    "fugnadri_tables",
    "fugnadri_wander",
    "fugnadri_numbers",
    "fugnadri",
];

fn main() {
    println!("cargo:rerun-if-env-changed=FUGNADRI_LIB");
    let target = env::var("TARGET").unwrap_or_default();
    if !target.starts_with("x86_64-") || !target.contains("-linux-") {
        refuse(&format!("the static libraries are x86-64 code for Linux and this build is for {target}: build with --target x86_64-unknown-linux-gnu"));
    }
    let folder = match env::var_os("FUGNADRI_LIB") {
        Some(named) if PathBuf::from(&named).is_absolute() => PathBuf::from(named),
        Some(named) => {
            refuse(&format!("FUGNADRI_LIB is {}: give the folder's whole path, from / on", named.to_string_lossy()))
        }
        None => PathBuf::from(env::var_os("CARGO_MANIFEST_DIR").expect("cargo names the package's folder"))
            .join("../target/staticlib"),
    };
    for library in LIBRARIES {
        let file = folder.join(format!("lib{library}.a"));
        println!("cargo:rerun-if-changed={}", file.display());
        if !file.is_file() {
            refuse(&format!("there is no {}: make it with host/libraries in the repository, or set FUGNADRI_LIB to the folder that has it", file.display()));
        }
        println!("cargo:rustc-link-lib=static={library}");
    }
    println!("cargo:rustc-link-search=native={}", folder.display());
}

fn refuse(why: &str) -> ! {
    eprintln!("fugnadri-host: {why}");
    exit(1)
}
