//! The search for a byte.

/// The place of the first such byte from a place on, which need not lie in the slice.
pub fn first_byte(bytes: &[u8], from: usize, sought: u8) -> Option<usize> {
    (from..bytes.len()).find(|place| bytes[*place] == sought)
}

#[cfg(test)]
mod tests {
    use super::*;

    #[test]
    fn the_first_from_the_start_on_counts() {
        let places = [0, 1, 2, 3, 4, 5, usize::MAX].map(|from| first_byte(b"a;b;", from, b';'));
        let (one, three) = (Some(1), Some(3));
        assert_eq!(places, [one, one, three, three, None, None, None]);
        assert_eq!(first_byte(b"a;b;", 0, b':'), None);
        assert_eq!(first_byte(b"", 0, 0), None);
    }
}
