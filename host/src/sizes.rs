//! How long messages can be: a buffer of these bytes holds any of its kind.

/// The longest Repository, in bytes.
///
/// ```
/// assert_eq!(fordtrumpet::MAX_REPOSITORY, 64);
/// ```
pub const MAX_REPOSITORY: usize = 64;

/// The longest Name, in bytes.
///
/// ```
/// assert_eq!(fordtrumpet::MAX_NAME, 255);
/// ```
pub const MAX_NAME: usize = 255;

/// The most files in an Index or IndexUpdate.
///
/// ```
/// assert_eq!(fordtrumpet::MAX_FILES, 512);
/// ```
pub const MAX_FILES: usize = 512;

/// The most blocks of a file.
///
/// ```
/// assert_eq!(fordtrumpet::MAX_BLOCKS, 1024);
/// ```
pub const MAX_BLOCKS: usize = 1024;

/// The longest block, in bytes, and so the most data of a Response.
///
/// ```
/// assert_eq!(fordtrumpet::MAX_BLOCK, 131_072);
/// ```
pub const MAX_BLOCK: usize = 131_072;

/// The longest Index or IndexUpdate: some 21 MB. One of a good table takes at most [`MAX_TABLE_INDEX`].
///
/// ```
/// assert_eq!(fordtrumpet::MAX_INDEX, 21_114_956);
/// ```
pub const MAX_INDEX: usize = HEADER + string(MAX_REPOSITORY) + 4 + MAX_FILES * MAX_RECORD;

/// The longest Index or IndexUpdate that has the records of a good table.
///
/// ```
/// assert_eq!(fordtrumpet::MAX_TABLE_INDEX, 65_608);
/// ```
pub const MAX_TABLE_INDEX: usize = HEADER + string(MAX_REPOSITORY) + crate::MAX_TABLE;

/// The longest Request.
///
/// ```
/// assert_eq!(fordtrumpet::MAX_REQUEST, 380);
/// ```
pub const MAX_REQUEST: usize =
    HEADER + string(MAX_REPOSITORY) + string(MAX_NAME) + 8 + 4 + string(32);

/// The longest Response.
///
/// ```
/// assert_eq!(fordtrumpet::MAX_RESPONSE, 131_080);
/// ```
pub const MAX_RESPONSE: usize = HEADER + string(MAX_BLOCK);

/// A Ping or a Pong.
///
/// ```
/// assert_eq!(fordtrumpet::PING, 4);
/// ```
pub const PING: usize = HEADER;

/// A Response without data, which is what [`serve`](crate::serve) replies.
///
/// ```
/// assert_eq!(fordtrumpet::REPLY, 8);
/// ```
pub const REPLY: usize = HEADER + string(0);

/// The longest Options.
///
/// ```
/// assert_eq!(fordtrumpet::MAX_OPTIONS, 21_000);
/// ```
pub const MAX_OPTIONS: usize = HEADER + 4 + 64 * (string(64) + string(255));

const HEADER: usize = 4;

const MAX_RECORD: usize = string(MAX_NAME) + 4 + 8 + 4 + 4 + MAX_BLOCKS * (4 + string(32));

/// A length word, the bytes, and their pad.
const fn string(length: usize) -> usize {
    4 + length.next_multiple_of(4)
}

#[cfg(test)]
mod tests {
    use super::*;
    use crate::*;

    #[test]
    fn the_longest_of_each_kind_fills_its_buffer() {
        let (repository, name, hash) = ([b'r'; MAX_REPOSITORY], [b'n'; MAX_NAME], [7; 32]);
        let block = Block {
            length: 131_072,
            hash: &hash,
        };
        let mut out = vec![0; MAX_INDEX];
        let mut files = FilesBuilder::new();
        for _ in 0..MAX_FILES {
            files.push(name, Flags(0), 0, 0, [block; MAX_BLOCKS]);
        }
        let files = files.as_bytes();
        assert_eq!(write_index(1, repository, files, &mut out), Ok(MAX_INDEX));
        let request = write_request(1, repository, name, 0, 131_072, &hash, &mut out);
        assert_eq!(request, Ok(MAX_REQUEST));
        let old = &mut [0; MAX_REQUEST];
        let length = write_old_request(1, name, 0, 131_072, &hash, old).unwrap();
        assert_eq!(length, MAX_REQUEST - 68);
        let turned = upgrade(&old[..length], repository, &mut out);
        assert_eq!(turned, Ok(MAX_REQUEST));
        assert_eq!(
            write_response(1, &[0; MAX_BLOCK], &mut out),
            Ok(MAX_RESPONSE)
        );
        assert_eq!(write_response(1, &[], &mut out), Ok(REPLY));
        assert_eq!(write_ping(1, &mut out), Ok(PING));
        let mut options = OptionsBuilder::new();
        for _ in 0..64 {
            options.push([b'k'; 64], [b'v'; 255]);
        }
        assert_eq!(
            write_options(1, options.as_bytes(), &mut out),
            Ok(MAX_OPTIONS)
        );
    }

    #[test]
    fn four_full_tables_fill_a_request_list() {
        // Two files of the shortest name: no table has more blocks.
        let table = |peer: u8| {
            let hashes: Vec<[u8; 32]> = (0..1636u32)
                .map(|number| {
                    let mut hash = [peer; 32];
                    hash[..4].copy_from_slice(&number.to_be_bytes());
                    hash
                })
                .collect();
            let blocks = |range: std::ops::Range<usize>| {
                hashes[range].iter().map(|hash| Block { length: 1, hash })
            };
            let mut files = FilesBuilder::new();
            files.push([2 * peer], Flags(0), 0, 0, blocks(0..1024));
            files.push([2 * peer + 1], Flags(0), 0, 0, blocks(1024..1636));
            TableBuf::from_files(&files).unwrap()
        };
        let peers = [1, 2, 3, 4].map(table);
        let peers = [0, 1, 2, 3].map(|number| peers[number].as_table());
        let mut out = vec![0; MAX_REQUEST_LIST];
        let list = request_list(Table::EMPTY, peers, &mut out).unwrap();
        assert_eq!(list.as_bytes().len(), MAX_REQUEST_LIST);
    }
}
