//! Words as little-endian bytes: how the C service lends its memory (document
//! 01, end of "State, desk, events").

/// The words of `bytes`, or nothing if a part word is left over.
pub fn from_bytes(bytes: &[u8]) -> Option<Vec<u32>> {
    if !bytes.len().is_multiple_of(4) {
        return None;
    }
    Some(whole_words(bytes))
}

/// The whole words of `bytes`; a part word at the end is dropped.
pub fn whole_words(bytes: &[u8]) -> Vec<u32> {
    bytes
        .chunks_exact(4)
        .map(|b| u32::from_le_bytes([b[0], b[1], b[2], b[3]]))
        .collect()
}

/// The bytes of `words`.
pub fn to_bytes(words: &[u32]) -> Vec<u8> {
    words.iter().flat_map(|word| word.to_le_bytes()).collect()
}

/// `words` followed by zeros to `length` words.
pub fn padded(words: &[u32], length: usize) -> Vec<u32> {
    let mut all = words.to_vec();
    all.resize(length, 0);
    all
}

#[cfg(test)]
mod tests {
    use super::*;

    #[test]
    fn bytes_and_words() {
        assert_eq!(to_bytes(&[258]), vec![2, 1, 0, 0]);
        assert_eq!(from_bytes(&[2, 1, 0, 0]), Some(vec![258]));
        assert_eq!(from_bytes(&[2, 1, 0, 0, 9]), None);
        assert_eq!(whole_words(&[2, 1, 0, 0, 9]), vec![258]);
    }
}
