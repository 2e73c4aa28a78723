//! Lines: keys are the scope's own (P8 to P10), and a part is a part of the caller's line.
use lichenbrooch::{code_key, code_part, Code, Key};

/// The part is these bytes of the line itself, not of a copy.
fn part_is(line: &[u8], start: usize, length: usize) {
    let part = code_part(line);
    assert_eq!((part.as_ptr(), part.len()), (line[start..].as_ptr(), length), "{line:?}");
}

#[test]
fn keys_of_the_scope() {
    assert_eq!(code_key(b"0"), Ok(Key(177917621779460413)));
    assert_eq!(code_key(b"A"), Ok(Key(1957093839574064543)));
    for line in [&b"Ab"[..], b"aB", b" AB "] {
        assert_eq!(code_key(line), Ok(Key(2014796852043078731)));
    }
    assert_eq!(code_key(b"ZZZZZZZZZZZZ"), Ok(Key(6582952005840035280)));
}

#[test]
fn refused_lines() {
    let lines = [
        &b""[..],
        b" ",
        b"     ",
        b"ZZZZZZZZZZZZZ",
        b"A B",
        b"A\tB",
        b"A\n",
        b"A-B",
        b"\xC4B",
        b"@",
        b"[",
        b"`",
        b"{",
        b"/",
        b":",
    ];
    for line in lines {
        assert_eq!(code_key(line), Err(Code::BadCode), "{line:?}");
        assert!(code_part(line).is_empty(), "{line:?}");
    }
}

#[test]
fn parts_are_parts_of_the_line() {
    part_is(b"Ab12", 0, 4);
    part_is(b"   Ab12", 3, 4);
    part_is(b"Ab12  ", 0, 4);
    part_is(b" x ", 1, 1);
    part_is(b"      ABCDEFGHIJKL      ", 6, 12);
    let mut long = vec![b' '; 70_000];
    long[66_000] = b'q';
    part_is(&long, 66_000, 1);
}
