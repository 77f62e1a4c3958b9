use crate::Error;

/// Bytes of a word in a file or a message.
pub const WORD_BYTES: usize = 8;

/// Writes words as bytes, little-endian: a schema, a table or a delta as files and messages have it.
///
/// Refusal: [`Error::LengthOrIndex`] if there are not [`WORD_BYTES`] bytes for each word.
///
/// ```
/// use herd::{words_from_bytes, words_to_bytes, Delta, Error, DELTA_WORDS, WORD_BYTES};
///
/// let mut message = [0; DELTA_WORDS * WORD_BYTES];
/// words_to_bytes(Delta::new().words(), &mut message)?;
///
/// let mut received = [0; DELTA_WORDS];
/// words_from_bytes(&message, &mut received)?;
/// # Ok::<(), Error>(())
/// ```
pub fn words_to_bytes(words: &[u64], bytes: &mut [u8]) -> Result<(), Error> {
    check(words, bytes)?;
    for (word, place) in words.iter().zip(bytes.chunks_exact_mut(WORD_BYTES)) {
        place.copy_from_slice(&word.to_le_bytes());
    }
    Ok(())
}

/// Reads words from bytes, little-endian.
///
/// Refusal: [`Error::LengthOrIndex`] if there are not [`WORD_BYTES`] bytes for each word.
pub fn words_from_bytes(bytes: &[u8], words: &mut [u64]) -> Result<(), Error> {
    check(words, bytes)?;
    for (word, place) in words.iter_mut().zip(bytes.chunks_exact(WORD_BYTES)) {
        *word = place.iter().rev().fold(0, |sum, byte| sum << 8 | *byte as u64);
    }
    Ok(())
}

fn check(words: &[u64], bytes: &[u8]) -> Result<(), Error> {
    let fits = bytes.len() % WORD_BYTES == 0 && bytes.len() / WORD_BYTES == words.len();
    if fits {
        Ok(())
    } else {
        Err(Error::LengthOrIndex)
    }
}
