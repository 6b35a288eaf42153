//! Fields that are nearly as described.

/// Ends of values in the one form in which they may be written, through all
/// lengths; those of ten digits are mostly out of the range.
#[rustfmt::skip]
pub const WELL_FORMED: [i64; 45] = [
    0, 1, -1, 9, -9, 10, -10, 99, -99, 101, -101, 1_000, -4_321, 99_999, -10_000, 100_000, -123_456,
    500_000, 999_999, 1_000_000, -1_000_000, 1_000_001, 10_000_000, -98_765_432, 100_000_000,
    -100_000_000, 999_999_999, -999_999_999, 1_000_000_000, -1_000_000_000, 1_999_999_999,
    -1_999_999_999, 2_000_000_000, -2_000_000_000, 2_000_000_001, -2_000_000_001, 2_147_483_648,
    -2_147_483_649, 4_294_967_295, 4_294_967_296, -4_294_967_296, 4_294_967_301, 9_999_999_999,
    -9_999_999_999, 9_000_000_000,
];

/// Ends that no value may have. Read leniently, some would be 0, 1 or far off.
#[rustfmt::skip]
pub const FAULTY_ENDS: [&str; 38] = [
    "", "-", "--1", "-0", "00", "01", "-01", "-00", "000", "0000000000", "00000000000",
    "00000000001", "-0000000001", "+0", "+1", "+-1", " 1", "1 ", "1\t", "1\r", "1\0", "\x0b1", "1-",
    "1.0", "1e0", "0x1", "1_0", "1,0", "a", "/", "1/", "10000000000", "-10000000000", "12345678901",
    "18446744073709551616", "18446744073709551617", "100000000000000000000", "99999999999999999999",
];

/// Fields that are no value as a whole.
pub const FAULTY_VALUES: [&str; 14] = [
    "", "0", "5", "0:", ":0", ":", "::", "0::0", "0:0:0", ":0:0", "0:0:", "0-0", "0 : 0", "0:0\r",
];

/// Fields that are no name.
#[rustfmt::skip]
pub const FAULTY_NAMES: [&[u8]; 30] = [
    b"", b" ", b" a", b"a ", b"a b", b"a_b", b"a.b", b"a:b", b"a/b", b"/", b":", b"@", b"a@", b"[",
    b"a[", b"`", b"a`", b"{", b"a{", b",", b"a,b", b"a\r", b"a\t", b"a\0", b"\0", b"\x7f", b"\x80",
    b"v\xc3\xa4t", b"\xff", b"\x2e",
];

#[cfg(test)]
mod tests {
    use crate::reference::{read_text, sheet};

    use super::*;

    #[test]
    fn well_formed_ends_are_read() {
        for end in WELL_FORMED {
            let text = format!("a\n{end}:{end}\n0:0\n");
            assert_eq!(read_text(text.as_bytes()).unwrap().matrix, [end, end]);
        }
    }

    #[test]
    fn faulty_fields_are_faulty() {
        let faulty = |line: u64| format!("refused 8 {line}\n").into_bytes();
        for end in FAULTY_ENDS {
            let text = format!("a\n{end}:5\n0:0\n");
            assert_eq!(sheet(text.as_bytes()), faulty(2), "{end:?}");
        }
        for value in FAULTY_VALUES {
            let text = format!("a\n0:0\n{value}\n");
            assert_eq!(sheet(text.as_bytes()), faulty(3), "{value:?}");
        }
        for name in FAULTY_NAMES {
            let text = [name, b"\n0:0\n0:0\n"].concat();
            assert_eq!(sheet(&text), faulty(1), "{name:?}");
        }
    }
}
