//! Links the archive that the variable TRENCH_ARCHIVE names (default: what `rt lib` writes in crates/trench), and the plain C
//! planner and reader of `bench/`, which `cc` compiles at -O3, the planner plain and tuned.

use std::env;
use std::path::{Path, PathBuf};
use std::process::Command;

fn main() {
    let here = PathBuf::from(env::var("CARGO_MANIFEST_DIR").expect("cargo sets it"));
    let out = PathBuf::from(env::var("OUT_DIR").expect("cargo sets it"));
    println!("cargo:rerun-if-env-changed=TRENCH_ARCHIVE");
    let archive =
        env::var("TRENCH_ARCHIVE").map_or_else(|_| here.join("../../crates/trench/out/libtrench.a"), PathBuf::from);
    let archive = archive.canonicalize().unwrap_or_else(|error| panic!("the archive {}: {error}", archive.display()));
    let copy = out.join("libtrench_archive_under_test.a");
    std::fs::copy(&archive, &copy).expect("the archive can be copied");
    println!("cargo:rerun-if-changed={}", archive.display());
    println!("cargo:rustc-link-lib=static=trench_archive_under_test");
    println!("cargo:rustc-env=TRENCH_ARCHIVE_COPY={}", copy.display());
    let tuned =
        ["-DTUNED", "-Dtable_plan_in=tuned_plan_in", "-Dtable_frame=tuned_frame", "-Dtable_rounds=tuned_rounds"];
    let asked = ["-Dplain_read=trench_read", "-Dplain_places=trench_places", "-Dplain_route=trench_route"];
    let rounds = ["-Dplain_read_rounds=archive_read_rounds", "-Dplain_ask_rounds=archive_ask_rounds"];
    let asked = [&asked[..], &["-Dplain_corner=trench_corner"], &rounds].concat();
    for (source, name, words) in [
        ("../bench/table.c", "trench_table", &[][..]),
        ("../bench/table.c", "trench_tuned", &tuned),
        ("../bench/ask.c", "trench_plain_ask", &[]),
        ("../bench/ask.c", "trench_archive_ask", &asked),
        ("../bench/read.c", "trench_plain_read", &[]),
        ("c/stray.c", "trench_stray", &[]),
    ] {
        compile(&here.join(source), &out, name, words);
        println!("cargo:rustc-link-lib=static={name}");
    }
    println!("cargo:rustc-link-search=native={}", out.display());
    println!("cargo:rerun-if-changed=../bench");
    println!("cargo:rerun-if-changed=c");
}

fn compile(source: &Path, out: &Path, name: &str, words: &[&str]) {
    let object = out.join(format!("{name}.o"));
    let library = out.join(format!("lib{name}.a"));
    let warnings = ["-std=c99", "-O3", "-fPIC", "-Wall", "-Wextra", "-Wpedantic", "-Werror", "-c"];
    run(Command::new("cc").args(warnings).args(words).arg(source).arg("-o").arg(&object));
    let _ = std::fs::remove_file(&library);
    run(Command::new("ar").arg("rcs").arg(&library).arg(&object));
}

fn run(command: &mut Command) {
    let status = command.status().unwrap_or_else(|error| panic!("{command:?}: {error}"));
    assert!(status.success(), "{command:?} failed");
}
