//! Plans as text: the forms of a line, the limits, and the way there and back.

use peer::text::{parse, read, text, walk_text, write, MAX_TEXT};
use peer::Refusal;

fn refused(number: u8, place: u16) -> Result<Vec<u8>, Refusal> {
    Err(Refusal { number, place })
}

#[test]
fn lines() {
    let plans: [(&[u8], &[u8]); 8] = [
        (b"", b""),
        (b"(a0)\n", b"\x00"),
        (b"(a255)\n(a256)\n(a999)\n", b"\xff\xff\xff"),
        (b";\n", b""),
        (b"; (a1\n(a1)\n;;\0\r\n(a2)\n", b"\x01\x02"),
        (b"(a10)\n(a254)\n", b"\x0a\xfe"),
        (b"(a18446744073709551617)\n", b"\xff"),
        (b";no step\n;\n", b""),
    ];
    for (text, plan) in plans {
        assert_eq!(parse(text), Ok(plan.to_vec()), "{text:?}");
    }
    let faulty: [(&[u8], u16); 20] = [
        (b"\n", 0),
        (b"(a)\n", 0),
        (b"(a01)\n", 0),
        (b"(a00)\n", 0),
        (b"(a1)", 0),
        (b";", 0),
        (b"(a1)\n;end", 1),
        (b";\n;\n(a1)\n(a 1)\n", 3),
        (b" (a1)\n", 0),
        (b"(a1) \n", 0),
        (b"\t(a1)\n", 0),
        (b"(a1)\r\n", 0),
        (b"(A1)\n", 0),
        (b"(a1) ;x\n", 0),
        (b"(a1;)\n", 0),
        (b"(a1\0)\n", 0),
        (b"(a-1)\n", 0),
        (b"(a+1)\n", 0),
        (b"(a1)\n(a2)\n\n", 2),
        (b"(a1)(a2)\n", 0),
    ];
    for (text, place) in faulty {
        assert_eq!(parse(text), refused(12, place), "{text:?}");
    }
}

#[test]
fn limits() {
    let longest = [b";".repeat(MAX_TEXT - 1), b"\n".to_vec()].concat();
    assert_eq!(parse(&longest), Ok(vec![]));
    assert_eq!(parse(&[b";".to_vec(), longest].concat()), refused(12, 0));
    let digits = [b"(a".to_vec(), b"9".repeat(60_000), b")\n".to_vec()].concat();
    assert_eq!(parse(&digits), Ok(vec![255]));
    let full = b"(a7)\n".repeat(2_048);
    assert_eq!(read(&full, 2_048), Ok(vec![7; 2_048]));
    assert_eq!(read(&full, 2_047), refused(9, 0));
    let over = b"(a7)\n".repeat(2_049);
    assert_eq!(read(&over, 0), refused(10, 0));
    assert_eq!(
        read(&[over, b"\n".to_vec()].concat(), 0),
        refused(12, 2_049)
    );
    assert_eq!(write(&[7; 2_049], 0), refused(10, 0));
    assert_eq!(write(&[7, 42], 10), refused(9, 0));
    assert_eq!(write(&[7, 42], 11), Ok(b"(a7)\n(a42)\n".to_vec()));
}

#[test]
fn there_and_back() {
    for seed in 0..2_000 {
        if let Ok(plan) = read(&text(seed), 2_048) {
            assert_eq!(parse(&write(&plan, MAX_TEXT).expect("a text")), Ok(plan));
        }
    }
}

#[test]
fn a_faulty_file_comes_first() {
    assert_eq!(
        walk_text(b"", b"("),
        Err(Refusal {
            number: 1,
            place: 0
        })
    );
}
