//! The byte search of the reference.

/// "A line ending is held where there is a CR or LF": where the first of
/// `needles` stands in `bytes`, from `from` on, or the length of `bytes`.
pub(crate) fn find_any<const N: usize>(bytes: &[u8], from: usize, needles: [u8; N]) -> usize {
    bytes[from..]
        .iter()
        .position(|byte| needles.contains(byte))
        .map_or(bytes.len(), |at| from + at)
}
