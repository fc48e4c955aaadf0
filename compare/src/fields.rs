//! What all listings share: "One-byte tag, two-byte length, little-endian throughout, numbers in two
//! bytes unless said."

/// "input over 32,768 bytes" is refused.
pub const LONGEST_INPUT: usize = 32_768;

/// "Listings open with field 00: edition 1".
pub const OPENING: [u8; 4] = [0, 1, 0, 1];

pub fn number(number: usize) -> [u8; 2] {
    u16::try_from(number).expect("a number of two bytes").to_le_bytes()
}

/// Appends a field, whose content is joined from parts.
pub fn put(listing: &mut Vec<u8>, tag: u8, content: &[&[u8]]) {
    listing.push(tag);
    listing.extend(number(content.iter().map(|part| part.len()).sum()));
    content.iter().for_each(|part| listing.extend_from_slice(part));
}
