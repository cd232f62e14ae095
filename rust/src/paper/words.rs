//! The 4-byte little-endian words that both files are made of (01, "The two files").

/// The whole words of a file; up to three bytes at its end make none.
pub(super) fn words_of(file: &[u8]) -> Vec<u32> {
    file.as_chunks().0.iter().map(|&word| u32::from_le_bytes(word)).collect()
}

/// The bytes of the words.
pub(super) fn bytes_of(words: &[u32]) -> Vec<u8> {
    words.iter().flat_map(|word| word.to_le_bytes()).collect()
}
