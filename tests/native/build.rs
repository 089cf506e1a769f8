//! Names the folder of libbpcc.a to the linker where the feature `library` asks for it, and makes the wrong simple recoveries: each is
//! docs/src/recovery.rs with one edit.

mod mutants;

use mutants::MUTANTS;
use std::fmt::Write;
use std::path::Path;

const SIMPLE: &str = "../../docs/src/recovery.rs";

fn main() {
    println!("cargo:rerun-if-env-changed=BPCC_ARCHIVE_DIR");
    if std::env::var_os("CARGO_FEATURE_LIBRARY").is_some() {
        let folder = std::env::var("BPCC_ARCHIVE_DIR").expect("BPCC_ARCHIVE_DIR names the folder of libbpcc.a");
        println!("cargo:rustc-link-search=native={folder}");
        println!("cargo:rerun-if-changed={folder}/libbpcc.a");
    }
    for file in [SIMPLE, "build.rs", "mutants.rs"] {
        println!("cargo:rerun-if-changed={file}");
    }
    let simple = std::fs::read_to_string(SIMPLE).unwrap_or_else(|e| panic!("{SIMPLE} cannot be read: {e}"));
    let out = std::env::var("OUT_DIR").expect("cargo names a folder for what is made");
    std::fs::write(Path::new(&out).join("mutants.rs"), mutated(&simple)).expect("the folder for what is made can be written");
}

/// A module for each mutant, and the list of all with the families that each is wrong for.
fn mutated(simple: &str) -> String {
    let (mut modules, mut list) = (String::new(), String::new());
    for (name, families, right, wrong) in MUTANTS {
        let times = simple.matches(right).count();
        assert!(times == 1, "the mutant {name} replaces what stands once in {SIMPLE}; {right:?} stands {times} times");
        let text = simple.replacen(right, wrong, 1);
        writeln!(modules, "#[allow(unused)]\nmod {name} {{\n{text}}}").unwrap();
        writeln!(list, "    ({name:?}, &{families:?}, |a| recovered!({name}, a)),").unwrap();
    }
    format!("{modules}\n/// Every mutant: its name, the words of the records for which it is wrong, and its recovery.\npub const MUTANTS: &[(&str, &[usize], Recovery)] = &[\n{list}];\n")
}
