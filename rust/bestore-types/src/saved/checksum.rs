//! Checksums of a file's rows, as described in docs/KEPT.md.

use crc32fast::Hasher;

/// A column of a row other than the checksum.
pub(super) enum Column<'a> {
    Number(u64),
    Bytes(&'a [u8]),
}

/// Returns the CRC-32 of these columns. A number is encoded as 8 bytes, little-endian. A text or blob is encoded as its length, in the same
/// form, followed by its bytes.
pub(super) fn checksum(columns: &[Column<'_>]) -> u32 {
    let mut hasher = Hasher::new();
    for column in columns {
        match column {
            Column::Number(number) => hasher.update(&number.to_le_bytes()),
            Column::Bytes(bytes) => {
                hasher.update(&(bytes.len() as u64).to_le_bytes());
                hasher.update(bytes);
            }
        }
    }
    hasher.finalize()
}

#[cfg(test)]
mod tests {
    use super::*;

    #[test]
    fn it_is_that_of_zlib() {
        assert_eq!(checksum(&[]), 0);
        let columns = [Column::Number(0x3938_3736_3534_3332)];
        // zlib.crc32(b"23456789")
        assert_eq!(checksum(&columns), 0x7195_2670);
        // zlib.crc32(b"\x03" + bytes(7) + b"BEB")
        assert_eq!(checksum(&[Column::Bytes(b"BEB")]), 0x94a7_15bf);
    }
}
