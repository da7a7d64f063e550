//! The declarations of include/novlizeb.h and of src/native.rs against the exports in crates/novlizeb/src: names, and order, name and width of parameters.
use std::collections::BTreeMap;
use std::fs;
use std::path::{Path, PathBuf};

/// A parameter: its name and its type, as `const u8*`, `u32*`, `usize`, `f64` and so on.
type Signature = (Vec<(String, String)>, String);

fn project() -> PathBuf {
    Path::new(env!("CARGO_MANIFEST_DIR")).join("../..")
}

fn text(path: &Path) -> String {
    fs::read_to_string(path).unwrap_or_else(|wrong| panic!("{}: {wrong}", path.display()))
}

/// A slice is a pointer and a length.
fn slice(name: &str, element: &str, mutable: bool) -> [(String, String); 2] {
    [(name.into(), format!("{}{element}*", if mutable { "" } else { "const " })), (format!("{name}_length"), "usize".into())]
}

/// The exports of the library, by name.
fn exports() -> BTreeMap<String, Signature> {
    let mut all = BTreeMap::new();
    for file in fs::read_dir(project().join("crates/novlizeb/src")).unwrap() {
        let source = text(&file.unwrap().path());
        for part in source.split("#[unsafe(no_mangle)]").skip(1) {
            let part = part.split("extern \"C\" fn ").nth(1).unwrap();
            let (name, rest) = part.split_once('(').unwrap();
            let (list, rest) = rest.split_once(')').unwrap();
            let answer = rest.split_once("->").unwrap().1.split_whitespace().next().unwrap();
            let mut parameters = Vec::new();
            for one in list.split(',').map(str::trim).filter(|p| !p.is_empty()) {
                let (name, kind) = one.split_once(':').unwrap();
                match kind.trim() {
                    k if k.starts_with("&mut [") => parameters.extend(slice(name, &k[6..k.len() - 1], true)),
                    k if k.starts_with("&[") => parameters.extend(slice(name, &k[2..k.len() - 1], false)),
                    k => parameters.push((name.into(), k.into())),
                }
            }
            all.insert(name.to_owned(), (parameters, answer.to_owned()));
        }
    }
    all
}

/// The header's declarations, by name; its inline functions are left out.
fn declared_in_c() -> BTreeMap<String, Signature> {
    let source = text(&project().join("include/novlizeb.h"));
    let mut plain = String::new();
    let mut rest = source.as_str();
    while let Some((before, after)) = rest.split_once("/*") {
        plain.push_str(before);
        rest = after.split_once("*/").unwrap().1;
    }
    plain.push_str(rest);
    let plain = plain.replace('\n', " ");
    let c_type = |t: &str| t.replace("uint8_t", "u8").replace("uint32_t", "u32").replace("int32_t", "i32").replace("uint64_t", "u64").replace("size_t", "usize").replace("double", "f64");
    let mut all = BTreeMap::new();
    for statement in plain.split([';', '{', '}']).filter(|s| s.trim_end().ends_with(')') && !s.contains("static inline") && s.contains(" novlizeb_")) {
        let (head, list) = statement.split_once('(').unwrap();
        let head: Vec<&str> = head.split_whitespace().collect();
        let [.., answer, name] = head[..] else { continue };
        if !name.starts_with("novlizeb_") || answer == "return" {
            continue;
        }
        let mut parameters = Vec::new();
        for one in list.trim_end().trim_end_matches(')').split(',') {
            let one = one.split_whitespace().collect::<Vec<_>>().join(" ");
            let cut = one.rfind([' ', '*']).unwrap() + 1;
            parameters.push((one[cut..].to_owned(), c_type(one[..cut].replace(" *", "*").trim())));
        }
        all.insert(name.to_owned(), (parameters, c_type(answer)));
    }
    all
}

/// The crate's own declarations, by name.
fn declared_in_rust() -> BTreeMap<String, Signature> {
    let source = text(&Path::new(env!("CARGO_MANIFEST_DIR")).join("src/native.rs")).replace('\n', " ");
    let list = source.split_once("names! {").unwrap().1.split_once("    }").unwrap().0;
    let mut all = BTreeMap::new();
    for statement in list.split(';').map(str::trim).filter(|s| !s.is_empty()) {
        let (name, rest) = statement.split_once('(').unwrap();
        let (parameters, answer) = rest.split_once(')').unwrap();
        let parameters = parameters.split(',').map(|one| {
            let (name, kind) = one.split_once(':').unwrap();
            let kind = kind.trim();
            let kind = kind.strip_prefix("*const ").map(|k| format!("const {k}*")).or_else(|| kind.strip_prefix("*mut ").map(|k| format!("{k}*"))).unwrap_or_else(|| kind.to_owned());
            (name.trim().to_owned(), kind)
        });
        all.insert(name.to_owned(), (parameters.collect(), answer.trim_start_matches([' ', '-', '>']).to_owned()));
    }
    all
}

#[test]
fn header_and_crate_declare_what_is_exported() {
    let exports = exports();
    assert_eq!(exports.len(), 20);
    for (name, signature) in &exports {
        assert_eq!(declared_in_c().get(name), Some(signature), "the header's {name}");
        assert_eq!(declared_in_rust().get(name), Some(signature), "the crate's {name}");
    }
    assert_eq!(declared_in_c().len(), exports.len());
    assert_eq!(declared_in_rust().len(), exports.len());
}
