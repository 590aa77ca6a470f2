//! The registers of the examples folder: seats as the paper's tables print them, and the
//! listings and refusals beside them.

use reference::*;
use std::fs;
use std::path::PathBuf;

fn example(file: &str) -> Vec<u8> {
    let folder = PathBuf::from(env!("CARGO_MANIFEST_DIR")).join("../../examples");
    fs::read(folder.join(file)).expect(file)
}

/// A register's seats in the form of a `.seats` file.
fn seats_of(bytes: &[u8]) -> String {
    let register = read(bytes).unwrap();
    let mut seats = vec![0; register.populations.len()];
    allot(
        register.method,
        register.house,
        &register.populations,
        &mut seats,
    )
    .unwrap();
    let line = |(name, a): (&&[u8], &u64)| format!("{},{a}\n", String::from_utf8_lossy(name));
    register.names.iter().zip(&seats).map(line).collect()
}

#[test]
fn seats_are_those_of_the_tables() {
    for name in [
        "five-states",
        "hungary-counties",
        "hungary-regions",
        "united-states",
        "united-states-hill",
    ] {
        let printed = String::from_utf8(example(&format!("{name}.seats"))).unwrap();
        assert_eq!(
            seats_of(&example(&format!("{name}.register"))),
            printed,
            "{name}"
        );
    }
}

#[test]
fn listings_are_those_beside_the_registers() {
    for name in ["five-states", "cut-short", "false-total", "name-twice"] {
        let printed = match listing(&example(&format!("{name}.register"))) {
            Ok(listing) => listing,
            Err(r) => format!("refused,{},{}\n", r.number, r.line).into_bytes(),
        };
        assert_eq!(printed, example(&format!("{name}.listing")), "{name}");
    }
}
