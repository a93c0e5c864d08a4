//! Links the archive, and makes a module of each slip (see slips.rs), for the test that shows that the histories find it.

use std::fmt::Write;
use std::{env, fs, path::Path};

include!("slips.rs");

fn main() {
    let archive = fs::canonicalize("../../crates/capi/out/libcapi.a").expect("made by `rt lib` in crates/capi");
    println!("cargo:rerun-if-changed={}", archive.display());
    println!("cargo:rustc-link-search=native={}", archive.parent().expect("a folder").display());
    for file in ["src/model.rs", "slips.rs", "build.rs"] {
        println!("cargo:rerun-if-changed={file}");
    }
    let model = fs::read_to_string("src/model.rs").expect("the model");
    // A module inside another file has no inner remarks, and finds the trait in the library.
    let model = model.replace("//!", "//").replace("use crate::", "use comparison::");
    let mut modules = String::new();
    let mut list = String::new();
    for (number, (name, pieces)) in SLIPS.iter().enumerate() {
        let mut text = model.clone();
        for (right, wrong) in *pieces {
            assert_eq!(model.matches(right).count(), 1, "{name}: stands once in the model: {right}");
            text = text.replace(right, wrong);
        }
        assert_ne!(text, model, "{name}");
        writeln!(modules, "#[allow(warnings)]\nmod slip_{number} {{\n{text}}}").unwrap();
        writeln!(list, "({name:?}, &|| Box::new(slip_{number}::Model::factory())),").unwrap();
    }
    writeln!(modules, "const SLIPS: &[(&str, Make)] = &[\n{list}];").unwrap();
    let out = env::var("OUT_DIR").expect("set by cargo");
    fs::write(Path::new(&out).join("slips.rs"), modules).expect("writable");
}
