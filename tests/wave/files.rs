//! Files made of chunks.

/// A chunk with its padding.
pub fn chunk(id: &[u8; 4], body: &[u8]) -> Vec<u8> {
    let padding = [0xee];
    [&sized(id, body.len() as u32, body), &padding[..body.len() % 2]].concat()
}

/// A chunk that claims a size, without padding.
pub fn sized(id: &[u8; 4], size: u32, body: &[u8]) -> Vec<u8> {
    [&id[..], &size.to_le_bytes(), body].concat()
}

/// The first 16 bytes of a fmt chunk, with a byte rate and a block size that are not right.
pub fn fields(tag: u16, channels: u16, rate: u32, bits: u16) -> Vec<u8> {
    [&tag.to_le_bytes()[..], &channels.to_le_bytes(), &rate.to_le_bytes(), &[0xfe; 6], &bits.to_le_bytes()].concat()
}

/// A fmt chunk of 16 bytes.
pub fn format(tag: u16, channels: u16, rate: u32, bits: u16) -> Vec<u8> {
    chunk(b"fmt ", &fields(tag, channels, rate, bits))
}

/// A file of chunks behind RIFF, a size that is not right, and WAVE.
pub fn riff(chunks: &[Vec<u8>]) -> Vec<u8> {
    [b"RIFF\x05\0\0\0WAVE".to_vec(), chunks.concat()].concat()
}

/// The file of which each byte is changed and each beginning is read: chunks before and behind, a fmt chunk of 18 bytes, and one of odd size.
pub fn small() -> Vec<u8> {
    let format = chunk(b"fmt ", &[fields(1, 2, 44_100, 16), vec![0, 0]].concat());
    let list = chunk(b"LIST", b"INFOISFT\x02\0\0\0ab");
    riff(&[list.clone(), format, chunk(b"odd ", b"12345"), chunk(b"data", &[1, 2, 3, 4, 5, 6, 7, 8, 9]), list])
}
