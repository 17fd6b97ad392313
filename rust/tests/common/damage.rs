//! Bytes of an image changed from outside, each block's check mended.
use dzomrelig::{FileName, BLOCK, TABLE};

const PAYLOAD: usize = 480;
/// Where a record has its fields.
pub const SIZE: usize = 0;
pub const TYPE: usize = 8;
pub const LINKS: usize = 14;
pub const BLOCKS: usize = 16;
pub const FILE: usize = 80;
/// Where the superblock has its fields.
pub const MAGIC: usize = 0;
pub const UNUSED: usize = 8;
pub const GROUPS: usize = 12;

/// The check over a block: the sum of (i + 1) x byte i.
pub fn seal(block: &mut [u8]) {
    let sum: u32 = (1..).zip(&block[..508]).map(|(i, &b)| i * u32::from(b)).sum();
    block[508..].copy_from_slice(&sum.to_le_bytes());
}

fn is_of(block: &[u8], tag: u8, file: Option<FileName>, number: usize) -> bool {
    block[0] == tag
        && block[1] == u8::from(file.is_some())
        && block[4..20] == file.map_or([0; 16], |f| f.0)
        && (tag == 1 || block[20..24] == (number as u32).to_le_bytes())
}

/// Writes into a file; no name is the metadata file. The blocks must be there.
pub fn write(image: &mut [u8], file: Option<FileName>, at: usize, data: &[u8]) {
    for (place, &byte) in (at..).zip(data) {
        let block = image.chunks_exact_mut(BLOCK).find(|b| is_of(b, 2, file, place / PAYLOAD)).unwrap();
        block[24 + place % PAYLOAD] = byte;
        seal(block);
    }
}

/// A block of a file becomes a free one.
pub fn take_block(image: &mut [u8], file: Option<FileName>, number: usize) {
    image.chunks_exact_mut(BLOCK).find(|b| is_of(b, 2, file, number)).unwrap().fill(0);
}

/// Sets a file's length.
pub fn set_length(image: &mut [u8], file: Option<FileName>, length: u32) {
    let head = image.chunks_exact_mut(BLOCK).find(|b| is_of(b, 1, file, 0)).unwrap();
    head[20..24].copy_from_slice(&length.to_le_bytes());
    seal(head);
}

/// Writes into a node's record.
pub fn record(image: &mut [u8], id: usize, field: usize, data: &[u8]) {
    write(image, None, 128 * id + field, data);
}

/// Sets a number of the superblock.
pub fn superblock(image: &mut [u8], field: usize, value: u32) {
    write(image, None, field, &value.to_le_bytes());
}

/// The empty table with a next stamp.
pub fn table(next: u64) -> [u8; TABLE] {
    let mut table = [0; TABLE];
    table[TABLE - 8..].copy_from_slice(&next.to_le_bytes());
    table
}
