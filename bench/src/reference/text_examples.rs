//! Texts whose reading was worked out by hand.

use super::{name_range, read_text, CellarText, TextFault, LONGEST_NAME, MOST_BYTES};
use crate::generator::FAULTY_SPELLINGS;

/// The program's input line by line.
const LINES: [&str; 4] = [
    "V1;V2\n",
    "0:0;0:500000\n",
    "500000:500000;0:0\n",
    "3000000:3000000;0:0\n",
];

/// The input with another line of that number.
fn with_line(number: usize, line: &str) -> String {
    let mut lines = LINES;
    lines[number - 1] = line;
    lines.concat()
}

/// One vat whose share has this lower end.
fn with_lower(lower: &str) -> String {
    format!("a\n{lower}:9999999999\n0:0\n")
}

/// Lines that do not hold two values as described.
#[rustfmt::skip]
const FAULTY_LINES: [&str; 19] = [
    "\n", "0:0\n", "0:0;\n", ";0:0\n", "0:0;0:0;\n", ";0:0;0:0\n", "0:0;;0:0\n", "0:0;0:0;0:0\n",
    "0:0,0:0\n", "0:0;0\n", "0:0;0:\n", "0:0;:0\n", "0:0;:\n", "0:0;0:0:0\n", "0:0;0::0\n",
    "0:0;0:0 \n", "0:0;0:0\r\n", "0:0 ;0:0\n", "0:0; 0:0\n",
];

/// The line of the first fault, 0 for a text that is too long.
fn fault(text: &[u8]) -> Option<u64> {
    let fault = read_text(text).err();
    fault.map(|fault| {
        let outcome = fault.outcome();
        assert_eq!((outcome.number, outcome.count), (8, 0));
        outcome.place
    })
}

fn one_vat(name: &str) -> String {
    format!("{name}\n0:0\n0:0\n")
}

fn vats(names: &[String]) -> String {
    let line = vec!["0:0"; names.len()].join(";") + "\n";
    names.join(";") + "\n" + &line.repeat(names.len() + 1)
}

#[test]
fn a_text_as_described_is_read() {
    let read = CellarText {
        names_line: b"V1;V2",
        n: 2,
        matrix: vec![0, 0, 0, 500_000, 500_000, 500_000, 0, 0],
        right_side: vec![3_000_000, 3_000_000, 0, 0],
    };
    assert_eq!(read_text(LINES.concat().as_bytes()), Ok(read));
}

#[test]
fn numbers_are_written_in_one_way_only() {
    let good = [
        ("0", 0),
        ("7", 7),
        ("-1", -1),
        ("10", 10),
        ("-2000000000", -2_000_000_000),
        ("2000000001", 2_000_000_001),
        ("9999999999", 9_999_999_999),
        ("-9999999999", -9_999_999_999),
    ];
    for (written, number) in good {
        let text = with_lower(written);
        let read = read_text(text.as_bytes()).unwrap();
        assert_eq!(read.matrix, [number, 9_999_999_999], "{written}");
    }
    for written in FAULTY_SPELLINGS {
        assert_eq!(fault(with_lower(written).as_bytes()), Some(2), "{written}");
    }
}

#[test]
fn a_line_holds_exactly_n_values() {
    for line in FAULTY_LINES {
        for number in [2, 3, 4] {
            let text = with_line(number, line);
            assert_eq!(fault(text.as_bytes()), Some(number as u64), "{line:?}");
        }
    }
}

#[test]
fn a_name_has_1_to_16_bytes_of_four_kinds() {
    let longest = "Z".repeat(LONGEST_NAME);
    for name in ["A", "z", "0", "9", "-", "--", "a-Z-09", &longest] {
        assert_eq!(fault(one_vat(name).as_bytes()), None, "{name}");
    }
    let too_long = "Z".repeat(LONGEST_NAME + 1);
    let faulty = [
        "", " ", "a b", "a ", " a", "a\r", "a\0", "a\t", "a_b", "a.b", "a:b", "a/b", "a@b", "a[b",
        "a`b", "a{b", "a+b", "a,b", "ä", ";", "a;", ";a", "a;;b", &too_long,
    ];
    for name in faulty {
        assert_eq!(fault(one_vat(name).as_bytes()), Some(1), "{name:?}");
    }
    assert_eq!(fault(b"\xff\n0:0\n0:0\n"), Some(1));
}

#[test]
fn names_are_all_different_as_bytes() {
    let fault_of = |line: &str| fault(with_line(1, line).as_bytes());
    assert_eq!(fault_of("a;A\n"), None);
    assert_eq!(fault_of("a;a-\n"), None);
    assert_eq!(fault_of("a;a\n"), Some(1));
    let mut names: Vec<_> = (1..=32).map(|i| format!("v{i}")).collect();
    assert_eq!(fault(vats(&names).as_bytes()), None);
    names[31] = "v1".to_string();
    assert_eq!(fault(vats(&names).as_bytes()), Some(1));
}

#[test]
fn more_than_32_names_are_a_fault_of_line_1() {
    let names: Vec<_> = (1..=33).map(|i| format!("v{i}")).collect();
    assert_eq!(fault(vats(&names[..32]).as_bytes()), None);
    assert_eq!(fault(vats(&names).as_bytes()), Some(1));
}

#[test]
fn the_first_missing_line_is_named() {
    assert_eq!(fault(b""), Some(1));
    for lines in 1..LINES.len() {
        let text = LINES[..lines].concat();
        assert_eq!(fault(text.as_bytes()), Some(lines as u64 + 1));
    }
    assert_eq!(fault(b"\n"), Some(1));
    assert_eq!(fault(b"V1;V2;\n"), Some(1));
}

#[test]
fn an_unended_line_is_faulty() {
    for number in 1..=LINES.len() {
        let text = LINES[..number].concat();
        let unended = &text.as_bytes()[..text.len() - 1];
        assert_eq!(fault(unended), Some(number as u64));
    }
}

#[test]
fn any_byte_after_the_last_line_is_a_surplus_line() {
    let text = LINES.concat();
    assert_eq!(fault(text.as_bytes()), None);
    for surplus in ["\n", " ", "\0", "0:0;0:0\n", "0:0;0:0", "\n\n", "\r\n"] {
        let longer = text.clone() + surplus;
        assert_eq!(fault(longer.as_bytes()), Some(5), "{surplus:?}");
    }
}

#[test]
fn the_first_faulty_line_is_named() {
    assert_eq!(fault(b"V1;V2\n0:0;0:00\nx\n"), Some(2));
    assert_eq!(fault(b"V1;V2\n0:0;0:0\nx\n"), Some(3));
    assert_eq!(fault(b"V1;V2\r\n0:0;0:0\r\n"), Some(1));
    let crossed = with_line(2, "1:0;9999999999:0\n");
    assert_eq!(fault(crossed.as_bytes()), None);
}

#[test]
fn above_65536_bytes_no_line_is_judged() {
    let good = LINES.concat().into_bytes();
    let filled = |length: usize| {
        let mut text = good.clone();
        text.resize(length, b'\n');
        text
    };
    assert_eq!(fault(&filled(MOST_BYTES)), Some(5));
    assert_eq!(fault(&filled(MOST_BYTES + 1)), Some(0));
    assert_eq!(fault(&vec![0; MOST_BYTES]), Some(1));
    assert_eq!(read_text(&vec![0; MOST_BYTES + 1]), Err(TextFault::TooLong));
}

#[test]
fn a_name_is_found_where_it_was_read() {
    let text = b"V1;-;abc\nthe rest does not matter";
    assert_eq!(name_range(text, 1), 0..2);
    assert_eq!(name_range(text, 2), 3..4);
    assert_eq!(name_range(text, 3), 5..8);
    for vat in [0, 4, 33, usize::MAX] {
        assert!(name_range(text, vat).is_empty(), "{vat}");
    }
}

#[test]
fn a_faulty_line_1_has_no_names() {
    let faulty: [&[u8]; 7] = [b"", b"\n", b"V1", b"V1;V1\n", b"V1;\n", b"V1\r\n", b"V_1\n"];
    for text in faulty {
        assert!(name_range(text, 1).is_empty(), "{text:?}");
    }
    let mut long = b"V1\n".to_vec();
    long.resize(MOST_BYTES, b'\n');
    assert_eq!(name_range(&long, 1), 0..2);
    long.push(b'\n');
    assert!(name_range(&long, 1).is_empty());
}
