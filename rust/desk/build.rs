//! Links the desk's static library, from the folder that DESK_LIB_DIR names by its full path or from
//! the repository's own target folder; and takes the refusals and the version over from the C
//! headers, so that their words stand in one place.

use std::env;
use std::fs;
use std::path::{Path, PathBuf};

fn main() {
    link_the_library();
    let include = PathBuf::from(env!("CARGO_MANIFEST_DIR")).join("../../include");
    let desk = header(&include.join("desk.h"));
    let refusals = header(&include.join("desk_refusals.h"));
    for (header, name) in [
        (&desk, "DESK_VERSION"),
        (&refusals, "DESK_UNKNOWN_WRONG"),
        (&refusals, "DESK_UNKNOWN_MEND"),
    ] {
        println!("cargo:rustc-env={name}={}", defined(header, name));
    }
    let out = PathBuf::from(env::var_os("OUT_DIR").expect("cargo names OUT_DIR"));
    fs::write(out.join("refusals.rs"), rows(&refusals)).expect("cargo's OUT_DIR can be written");
}

fn link_the_library() {
    println!("cargo:rerun-if-env-changed=DESK_LIB_DIR");
    let folder = match env::var_os("DESK_LIB_DIR") {
        Some(folder) => PathBuf::from(folder),
        None => PathBuf::from(env!("CARGO_MANIFEST_DIR")).join("../../target/staticlib"),
    };
    let archive = folder.join("libdesk.a");
    println!("cargo:rerun-if-changed={}", archive.display());
    if !archive.exists() {
        panic!(
            "no {}: build the static library first, or set DESK_LIB_DIR to its folder",
            archive.display()
        );
    }
    println!("cargo:rustc-link-search=native={}", folder.display());
    println!("cargo:rustc-link-lib=static=desk");
}

/// The text of a header. Cargo runs this program again once it has changed.
fn header(path: &Path) -> String {
    println!("cargo:rerun-if-changed={}", path.display());
    fs::read_to_string(path).unwrap_or_else(|error| panic!("{}: {error}", path.display()))
}

/// The text that a header defines by a line `#define NAME "text"`.
fn defined<'a>(header: &'a str, name: &str) -> &'a str {
    let beginning = format!("#define {name} \"");
    header
        .lines()
        .find_map(|line| line.strip_prefix(&beginning)?.strip_suffix('"'))
        .unwrap_or_else(|| panic!("no line of the header defines {name}"))
}

/// The refusals as the macro `reasons!` of `src/refusals.rs` takes them.
fn rows(header: &str) -> String {
    let rows: String = header
        .lines()
        .filter_map(|line| line.trim_start().strip_prefix("REFUSAL("))
        .map(|line| row(line).unwrap_or_else(|| panic!("not a refusal: {line}")))
        .collect();
    assert!(!rows.is_empty(), "the header has no refusals");
    format!("reasons! {{\n{rows}}}\n")
}

/// A refusal from the rest of its line, `number, NAME, "what is wrong", "what to mend") \`. Its name in
/// Rust is put beside that in C: `NameUsed` for `NAME_USED`.
fn row(line: &str) -> Option<String> {
    let (number, rest) = line.split_once(", ")?;
    let (name, rest) = rest.split_once(", \"")?;
    let (wrong, rest) = rest.split_once("\", \"")?;
    let (mend, _) = rest.split_once("\")")?;
    let variant: String = name
        .split('_')
        .map(|word| word[..1].to_string() + &word[1..].to_lowercase())
        .collect();
    Some(format!(
        "    {number} {variant} {name:?} {wrong:?} {mend:?};\n"
    ))
}
