//! The rule of names: a name is a plain path below its folder.

/// Whether a name has no zero byte and its parts, which lie between slashes, are neither empty nor `.`
/// nor `..`.
///
/// A slash at the start or the end, or beside another one, has an empty part next to it.
pub fn is_plain_path(name: &[u8]) -> bool {
    !name.contains(&0)
        && name
            .split(|&byte| byte == b'/')
            .all(|part| !matches!(part, b"" | b"." | b".."))
}
