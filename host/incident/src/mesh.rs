//! The header of a binary STL file: 80 bytes of text, then the number of facets, little-endian.

const TITLE: &[u8] = b"bracket, second revision";
const TITLE_BYTES: usize = 80;
const COUNT_BYTES: usize = 4;

/// A file that claims that many facets and has none.
pub fn file_claiming(facets: u32) -> Vec<u8> {
    let mut file = vec![0; TITLE_BYTES];
    file[..TITLE.len()].copy_from_slice(TITLE);
    file.extend(facets.to_le_bytes());
    file
}

/// The facets that the header claims; none where the file is too short to have one.
pub fn facets_claimed(file: &[u8]) -> Option<u32> {
    let count = file.get(TITLE_BYTES..TITLE_BYTES + COUNT_BYTES)?;
    Some(u32::from_le_bytes(count.try_into().ok()?))
}
