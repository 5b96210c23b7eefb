//! Two small duties, both only when asked for by a feature:
//! - `library`: tell the linker where libc_api.a lies (GUST_LIB_DIR);
//! - `faults`: make the copies of src/model.rs with one planted fault each.

use std::{env, fs, path::Path};

fn main() {
    println!("cargo:rerun-if-changed=build.rs");
    if env::var_os("CARGO_FEATURE_LIBRARY").is_some() {
        println!("cargo:rerun-if-env-changed=GUST_LIB_DIR");
        let dir = env::var("GUST_LIB_DIR").expect("GUST_LIB_DIR names the directory of libc_api.a");
        println!("cargo:rustc-link-search=native={dir}");
        println!("cargo:rustc-link-lib=static=c_api");
        println!("cargo:rerun-if-changed={dir}/libc_api.a");
    }
    if env::var_os("CARGO_FEATURE_FAULTS").is_some() {
        plant();
    }
}

/// Reads faults.txt: paragraphs of `# NAME: what is wrong`, then lines with `-` (the text that
/// stands in the model, exactly once) and lines with `+` (what the copy has instead).
fn plant() {
    println!("cargo:rerun-if-changed=faults.txt");
    println!("cargo:rerun-if-changed=src/model.rs");
    let out = env::var("OUT_DIR").unwrap();
    let model = fs::read_to_string("src/model.rs").unwrap();
    let list = fs::read_to_string("faults.txt").unwrap();
    let mut modules = String::new();
    let mut table =
        String::from("pub fn all() -> Vec<(&'static str, &'static str, Box<dyn crate::store::Store>)> {\n    vec![\n");
    let mut planted = 0;
    for paragraph in list.split("\n\n").filter(|p| p.trim_start().starts_with('#')) {
        let paragraph = paragraph.trim();
        let (head, body) = paragraph.split_once('\n').expect("a fault has lines");
        let (name, what) = head[1..].split_once(':').expect("# NAME: WHAT");
        let (name, what) = (name.trim(), what.trim());
        // one or more changes: each a run of - lines and the run of + lines after it
        let mut copy = model.clone();
        let (mut old, mut new) = (Vec::new(), Vec::new());
        let mut apply = |old: &mut Vec<&str>, new: &mut Vec<&str>| {
            if old.is_empty() {
                return;
            }
            let (o, n) = (old.join("\n"), new.join("\n"));
            assert_eq!(copy.matches(&o).count(), 1, "fault {name}: this text must stand once:\n{o}");
            copy = copy.replace(&o, &n);
            old.clear();
            new.clear();
        };
        for line in body.lines() {
            if let Some(text) = line.strip_prefix('-') {
                if !new.is_empty() {
                    apply(&mut old, &mut new);
                }
                old.push(text);
            } else if let Some(text) = line.strip_prefix('+') {
                new.push(text);
            } else {
                panic!("fault {name}: a line with neither - nor +: {line}");
            }
        }
        apply(&mut old, &mut new);
        let file = Path::new(&out).join(format!("{name}.rs"));
        fs::write(&file, copy).unwrap();
        modules += &format!("#[path = {file:?}]\n#[allow(warnings)]\npub mod {name};\n");
        table += &format!("        ({name:?}, {what:?}, Box::new({name}::Model::new())),\n");
        planted += 1;
    }
    table += "    ]\n}\n";
    assert!(planted > 0, "faults.txt holds no fault");
    fs::write(Path::new(&out).join("faults.rs"), modules + &table).unwrap();
}
