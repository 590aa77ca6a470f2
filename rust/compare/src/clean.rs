//! Clean copies, as laws about what was handed back: a copy is accepted and reads as its register
//! does, its own copy is the same bytes, and two registers have equal copies exactly where they say
//! the same. None looks at how a copy came about.

use reference::{Refusal, Register};

/// The copy is accepted, and what is read from it is what was read from its register, names
/// included. An error says what is not.
pub fn reads_alike(register: &Register, copy: &Result<Register, Refusal>) -> Result<(), String> {
    match copy {
        Err(Refusal { number, line }) => Err(format!(
            "clean copy: it is refused {number} on line {line}, and its register is not"
        )),
        Ok(copy) => match difference(register, copy) {
            Some(what) => Err(format!("clean copy: it and its register have {what}")),
            None => Ok(()),
        },
    }
}

/// The copy of a copy is the same bytes. An error says where it is not.
pub fn stays(copy: &[u8], again: &Result<Vec<u8>, Refusal>) -> Result<(), String> {
    match again {
        Err(Refusal { number, line }) => Err(format!(
            "clean copy: cleaned again, it is refused {number} on line {line}"
        )),
        Ok(again) if again != copy => Err(format!(
            "clean copy: cleaned again, it is another from byte {} on",
            first_apart(copy, again)
        )),
        Ok(_) => Ok(()),
    }
}

/// Two registers have equal copies exactly where method, house, names and populations agree in
/// order: hands back whether they do. An error says why they should have them, or should not.
pub fn equal_where_same(registers: [&Register; 2], copies: [&[u8]; 2]) -> Result<bool, String> {
    match (
        difference(registers[0], registers[1]),
        copies[0] == copies[1],
    ) {
        (None, true) => Ok(true),
        (Some(_), false) => Ok(false),
        (Some(what), true) => Err(format!(
            "clean copies: they are equal, and the registers have {what}"
        )),
        (None, false) => Err(format!(
            "clean copies: they part at byte {}, and the registers say the same",
            first_apart(copies[0], copies[1])
        )),
    }
}

/// The first thing in which two registers as read are not the same, if there is one.
fn difference(one: &Register, other: &Register) -> Option<String> {
    if one.method != other.method {
        return Some(format!("methods {:?} and {:?}", one.method, other.method));
    }
    if one.house != other.house {
        return Some(format!("houses {} and {}", one.house, other.house));
    }
    let (n, m) = (one.populations.len(), other.populations.len());
    if n != m {
        return Some(format!("{n} states and {m}"));
    }
    let populations = one.populations.iter().zip(&other.populations).enumerate();
    for (place, (p, q)) in populations {
        if p != q {
            return Some(format!("populations {p} and {q} at place {place}"));
        }
    }
    if one.total != other.total {
        return Some(format!("totals {} and {}", one.total, other.total));
    }
    if one.names.len() != other.names.len() {
        let (n, m) = (one.names.len(), other.names.len());
        return Some(format!("{n} names and {m}"));
    }
    let names = one.names.iter().zip(&other.names);
    for (a, b) in names {
        if a != b {
            let text = String::from_utf8_lossy;
            return Some(format!("names {:?} and {:?}", text(a), text(b)));
        }
    }
    None
}

/// The first place at which two lists of bytes part.
fn first_apart(one: &[u8], other: &[u8]) -> usize {
    let pairs = one.iter().zip(other);
    pairs.take_while(|(a, b)| a == b).count()
}

#[cfg(test)]
mod tests {
    use super::*;
    use reference::read;

    const REGISTER: &[u8] = b"register,hill,20,2\nNorth,7\nSouth,13\ntotal,20\n";

    /// Registers that say something else than that one, and what is told of the first difference.
    const OTHERS: [(&[u8], &str); 8] = [
        (
            b"register,dean,20,2\nNorth,7\nSouth,13\ntotal,20\n",
            "methods Hill and Dean",
        ),
        (
            b"register,hill,2,2\nNorth,7\nSouth,13\ntotal,20\n",
            "houses 20 and 2",
        ),
        (
            b"register,hill,20,1\nNorth,20\ntotal,20\n",
            "2 states and 1",
        ),
        (
            b"register,hill,20,3\nNorth,7\nSouth,12\nEast,1\ntotal,20\n",
            "2 states and 3",
        ),
        (
            b"register,hill,20,2\nNorth,7\nSouth,12\ntotal,19\n",
            "populations 13 and 12 at place 1",
        ),
        (
            b"register,hill,20,2\nNorth,13\nSouth,7\ntotal,20\n",
            "populations 7 and 13 at place 0",
        ),
        (
            b"register,hill,20,2\nSouth,7\nNorth,13\ntotal,20\n",
            "names \"North\" and \"South\"",
        ),
        (
            b"register,hill,20,2\nNorth,7\nsouth,13\ntotal,20\n",
            "names \"South\" and \"south\"",
        ),
    ];

    #[test]
    fn a_copy_that_reads_otherwise_is_told() {
        let register = read(REGISTER).unwrap();
        let typed = read(b"register,hill,020,02\r\nNorth,07\nSouth,13\r\ntotal,20\n");
        assert_eq!(reads_alike(&register, &typed), Ok(()));
        for (other, telling) in OTHERS {
            let text = reads_alike(&register, &read(other)).unwrap_err();
            assert!(text.contains(telling), "{text}");
        }
        let text = reads_alike(&register, &read(b"register,hill,20,2\nNorth,7\n")).unwrap_err();
        assert!(text.contains("refused 2 on line 3"), "{text}");
        // A copy of which fewer names were asked for is none that reads alike.
        let mut fewer = register.clone();
        fewer.names.pop();
        assert!(reads_alike(&register, &Ok(fewer)).is_err());
    }

    #[test]
    fn a_copy_that_does_not_stay_is_told() {
        assert_eq!(stays(REGISTER, &Ok(REGISTER.to_vec())), Ok(()));
        let text = stays(REGISTER, &Ok(b"register,Hill".to_vec())).unwrap_err();
        assert!(text.contains("from byte 9 on"), "{text}");
        for again in [&REGISTER[..20], b"", &[REGISTER, b"\n"].concat()] {
            assert!(stays(REGISTER, &Ok(again.to_vec())).is_err());
        }
        let refusal = Refusal { number: 7, line: 4 };
        let text = stays(REGISTER, &Err(refusal)).unwrap_err();
        assert!(text.contains("refused 7 on line 4"), "{text}");
    }

    #[test]
    fn copies_have_to_be_equal_where_registers_say_the_same() {
        let register = read(REGISTER).unwrap();
        let same = [&register, &register];
        assert_eq!(equal_where_same(same, [b"one", b"one"]), Ok(true));
        let text = equal_where_same(same, [b"one", b"other"]).unwrap_err();
        assert!(text.contains("part at byte 1"), "{text}");
        assert!(equal_where_same(same, [b"one", b"on"]).is_err());
    }

    #[test]
    fn copies_must_not_be_equal_where_registers_do_not_say_the_same() {
        let register = read(REGISTER).unwrap();
        for (other, telling) in OTHERS {
            let other = read(other).unwrap();
            for registers in [[&register, &other], [&other, &register]] {
                assert_eq!(equal_where_same(registers, [b"one", b"other"]), Ok(false));
                assert!(equal_where_same(registers, [b"one", b"one"]).is_err());
            }
            let text = equal_where_same([&register, &other], [b"one", b"one"]).unwrap_err();
            assert!(text.contains(telling), "{text}");
        }
    }
}
