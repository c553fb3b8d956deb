//! Why a call was refused.

use core::error::Error;
use core::fmt;
#[cfg(feature = "std")]
use std::io;

/// Why a call was refused: a case for each number of the protocol's rules.
///
/// The cases up to 13, and 24, hold the place: the first byte of the field at fault, counted from the start of
/// the message that was read or would have been written; of a string or opaque it is the length word.
/// [`Pad`](Refusal::Pad) and [`Text`](Refusal::Text) hold the place of the bad byte itself. A refused call
/// leaves every lent buffer as it was.
///
/// ```
/// use fordtrumpet::Refusal;
///
/// let refusal = fordtrumpet::read(&[0, 1, 1, 0, 0, 0, 0, 1, b'a', 0, 0, 1]).unwrap_err();
/// assert_eq!(refusal, Refusal::Pad(11));
/// assert_eq!((refusal.number(), refusal.place()), (6, 11));
/// assert_eq!(refusal.to_string(), "a pad byte isn't zero (6), at byte 11");
/// ```
#[derive(Clone, Copy, Debug, PartialEq, Eq, Hash)]
#[non_exhaustive]
pub enum Refusal {
    /// 1: the field isn't wholly there.
    Incomplete(usize),
    /// 2: the version isn't 0.
    Version(usize),
    /// 3: the type isn't 1 to 7, of an old message 1 to 6.
    Type(usize),
    /// 4: the reserved bits aren't 0.
    Reserved(usize),
    /// 5: a length or count is above its limit, or a Message ID above 4095.
    AboveLimit(usize),
    /// 6: a pad byte isn't zero. The place is that of the first such byte.
    Pad(usize),
    /// 7: a string isn't UTF-8. The place is where the first sequence that breaks it begins: a byte that
    /// can't lead, or the lead of what is broken or cut off. In the string that is
    /// [`Utf8Error::valid_up_to`](core::str::Utf8Error::valid_up_to).
    ///
    /// ```
    /// use fordtrumpet::{read, Refusal};
    ///
    /// // An Index whose Repository, from byte 8 on, is `clips`, then a slash in another spelling.
    /// let input = b"\0\x01\x01\0\0\0\0\x08clips\xC0\xAFa\0\0\0\0";
    /// let Err(Refusal::Text(place)) = read(input) else { panic!() };
    /// assert_eq!((place, input[place]), (13, 0xC0));
    /// let error = std::str::from_utf8(&input[8..16]).unwrap_err();
    /// assert_eq!(place, 8 + error.valid_up_to());
    /// ```
    Text(usize),
    /// 8: the Name is empty.
    EmptyName(usize),
    /// 9: the hash isn't 32 bytes long.
    HashLength(usize),
    /// 10: the Length of a block or Request is 0 or above 131,072.
    Length(usize),
    /// 11: a reserved flag is set.
    Flag(usize),
    /// 12: a deleted file has blocks.
    DeletedWithBlocks(usize),
    /// 13: a name stands twice in the message.
    RepeatedName(usize),
    /// 14: the answer is longer than the lent buffer.
    NoRoom,
    /// 15: bytes given as a table aren't a good table.
    BadTable,
    /// 16: as many requests are outstanding as the window allows.
    WindowFull,
    /// 17: the bytes outstanding and the Length exceed the allowance.
    AllowanceFull,
    /// 18: the message is of another type than the call takes.
    OtherType,
    /// 19: the resulting table would be above 512 records or 65,536 bytes.
    TableTooLarge,
    /// 20: the Response isn't to the oldest outstanding request, or none is outstanding.
    NotOldest,
    /// 21: the message is for another Repository than the call names.
    OtherRepository,
    /// 22: a window isn't 1 to 16, or the outstanding requests or the feed given aren't sound.
    Unsound,
    /// 23: the number of the peer isn't 1 to 4.
    ///
    /// ```
    /// use fordtrumpet::{Refusal, RequestQueue};
    ///
    /// let mut queue = RequestQueue::open();
    /// assert_eq!(queue.peer(5).drop_link(), Err(Refusal::NoSuchPeer));
    /// ```
    NoSuchPeer,
    /// 24: the Name isn't a plain path below its folder. It begins or ends with a slash, has two
    /// slashes together, a part that is exactly `.` or `..`, or a zero byte.
    UnsafeName(usize),
}

impl Refusal {
    /// The refusal with a number that the library gave, which is none but these. It stays out of the way
    /// of calls that are accepted.
    #[cold]
    pub(crate) fn new(number: u32, place: usize) -> Self {
        match number {
            1 => Refusal::Incomplete(place),
            2 => Refusal::Version(place),
            3 => Refusal::Type(place),
            4 => Refusal::Reserved(place),
            5 => Refusal::AboveLimit(place),
            6 => Refusal::Pad(place),
            7 => Refusal::Text(place),
            8 => Refusal::EmptyName(place),
            9 => Refusal::HashLength(place),
            10 => Refusal::Length(place),
            11 => Refusal::Flag(place),
            12 => Refusal::DeletedWithBlocks(place),
            13 => Refusal::RepeatedName(place),
            14 => Refusal::NoRoom,
            15 => Refusal::BadTable,
            16 => Refusal::WindowFull,
            17 => Refusal::AllowanceFull,
            18 => Refusal::OtherType,
            19 => Refusal::TableTooLarge,
            20 => Refusal::NotOldest,
            21 => Refusal::OtherRepository,
            22 => Refusal::Unsound,
            23 => Refusal::NoSuchPeer,
            24 => Refusal::UnsafeName(place),
            _ => unreachable!("the library has no number {number}"),
        }
    }

    /// The number, the place, and what the number means.
    fn parts(&self) -> (u32, usize, &'static str) {
        match *self {
            Refusal::Incomplete(place) => (1, place, "a field isn't wholly there"),
            Refusal::Version(place) => (2, place, "the version isn't 0"),
            Refusal::Type(place) => (3, place, "the type isn't 1 to 7"),
            Refusal::Reserved(place) => (4, place, "the reserved bits aren't 0"),
            Refusal::AboveLimit(place) => (
                5,
                place,
                "a length, a count or a Message ID is above its limit",
            ),
            Refusal::Pad(place) => (6, place, "a pad byte isn't zero"),
            Refusal::Text(place) => (7, place, "a string isn't UTF-8"),
            Refusal::EmptyName(place) => (8, place, "the Name is empty"),
            Refusal::HashLength(place) => (9, place, "the hash isn't 32 bytes long"),
            Refusal::Length(place) => (10, place, "the Length is 0 or above 131,072"),
            Refusal::Flag(place) => (11, place, "a reserved flag is set"),
            Refusal::DeletedWithBlocks(place) => (12, place, "a deleted file has blocks"),
            Refusal::RepeatedName(place) => (13, place, "a name stands twice in the message"),
            Refusal::NoRoom => (14, 0, "the answer is longer than the lent buffer"),
            Refusal::BadTable => (15, 0, "the bytes aren't a good table"),
            Refusal::WindowFull => (16, 0, "the window is full"),
            Refusal::AllowanceFull => (17, 0, "the byte allowance is exceeded"),
            Refusal::OtherType => (18, 0, "the message is of another type than the call takes"),
            Refusal::TableTooLarge => (
                19,
                0,
                "the resulting table is above 512 records or 65,536 bytes",
            ),
            Refusal::NotOldest => (
                20,
                0,
                "the Response isn't to the oldest outstanding request",
            ),
            Refusal::OtherRepository => (21, 0, "the message is for another Repository"),
            Refusal::Unsound => (
                22,
                0,
                "a window isn't 1 to 16, or the queue or the feed isn't sound",
            ),
            Refusal::NoSuchPeer => (23, 0, "the peer isn't 1 to 4"),
            Refusal::UnsafeName(place) => {
                (24, place, "the Name isn't a plain path below its folder")
            }
        }
    }

    /// The number: 1 to 24.
    ///
    /// ```
    /// assert_eq!(fordtrumpet::Refusal::HashLength(60).number(), 9);
    /// ```
    pub fn number(&self) -> u32 {
        self.parts().0
    }

    /// Where the field at fault begins, for 6 and 7 where the bad byte is; 0 for the numbers 14 to 23.
    ///
    /// ```
    /// use fordtrumpet::Refusal;
    ///
    /// assert_eq!(Refusal::HashLength(60).place(), 60);
    /// assert_eq!(Refusal::NoRoom.place(), 0);
    /// ```
    pub fn place(&self) -> usize {
        self.parts().1
    }

    /// Whether the bytes end before the message does: with more of them, reading may go on.
    ///
    /// ```
    /// assert!(fordtrumpet::read(&[0, 0, 4]).unwrap_err().is_incomplete());
    /// assert!(!fordtrumpet::read(&[0, 0, 8, 0]).unwrap_err().is_incomplete());
    /// ```
    pub fn is_incomplete(&self) -> bool {
        matches!(self, Refusal::Incomplete(_))
    }
}

impl fmt::Display for Refusal {
    fn fmt(&self, f: &mut fmt::Formatter<'_>) -> fmt::Result {
        match self.parts() {
            (number @ 14..=23, _, meaning) => write!(f, "{meaning} ({number})"),
            (number, place, meaning) => write!(f, "{meaning} ({number}), at byte {place}"),
        }
    }
}

impl Error for Refusal {}

/// Bytes that end too early are an unexpected end; other faults of what was read, invalid data; and
/// what a caller handed over, invalid input.
///
/// ```
/// use std::io;
///
/// fn first(input: &[u8]) -> io::Result<u32> {
///     Ok(fordtrumpet::read(input)?.message.id())
/// }
/// assert_eq!(first(&[0, 0, 4]).unwrap_err().kind(), io::ErrorKind::UnexpectedEof);
/// assert_eq!(first(&[0, 0, 8, 0]).unwrap_err().kind(), io::ErrorKind::InvalidData);
/// ```
#[cfg(feature = "std")]
impl From<Refusal> for io::Error {
    fn from(refusal: Refusal) -> Self {
        let kind = match refusal.number() {
            1 => io::ErrorKind::UnexpectedEof,
            2..14 | 18 | 20 | 21 | 24 => io::ErrorKind::InvalidData,
            _ => io::ErrorKind::InvalidInput,
        };
        io::Error::new(kind, refusal)
    }
}

#[cfg(test)]
mod tests {
    use super::*;
    use std::collections::HashSet;

    /// The numbers as document 01 has them in its table, and then those of later requests.
    const TABLE: [(&str, Refusal); 24] = [
        ("the field isn't wholly there", Refusal::Incomplete(12)),
        ("version not 0", Refusal::Version(12)),
        ("type not 1 to 7", Refusal::Type(12)),
        ("reserved not 0", Refusal::Reserved(12)),
        (
            "a length or count is above its limit",
            Refusal::AboveLimit(12),
        ),
        ("a pad byte isn't zero", Refusal::Pad(12)),
        ("text rule broken", Refusal::Text(12)),
        ("empty Name", Refusal::EmptyName(12)),
        ("hash length isn't 32", Refusal::HashLength(12)),
        (
            "the Length of a block or Request is 0 or above 131,072",
            Refusal::Length(12),
        ),
        ("a reserved flag is set", Refusal::Flag(12)),
        (
            "D with a block count above 0",
            Refusal::DeletedWithBlocks(12),
        ),
        (
            "a name stands twice in the message",
            Refusal::RepeatedName(12),
        ),
        ("the answer is longer than the lent buffer", Refusal::NoRoom),
        (
            "bytes given as a table aren't a good table",
            Refusal::BadTable,
        ),
        ("outstanding count equals the window", Refusal::WindowFull),
        (
            "outstanding bytes plus Length exceed the allowance",
            Refusal::AllowanceFull,
        ),
        ("another type than the call takes", Refusal::OtherType),
        (
            "the resulting table is above 512 records or 65,536 bytes",
            Refusal::TableTooLarge,
        ),
        (
            "not the ID of the oldest outstanding request",
            Refusal::NotOldest,
        ),
        (
            "another Repository than the call names",
            Refusal::OtherRepository,
        ),
        (
            "window not 1 to 16, or a desk that isn't sound",
            Refusal::Unsound,
        ),
        ("peer number not 1 to 4", Refusal::NoSuchPeer),
        ("a Name that climbs out", Refusal::UnsafeName(12)),
    ];

    #[test]
    fn each_number_is_a_case_with_a_sentence_of_its_own() {
        let mut sentences = HashSet::new();
        for ((meaning, refusal), number) in TABLE.into_iter().zip(1..) {
            assert_eq!(Refusal::new(number, 12), refusal, "{meaning}");
            assert_eq!(refusal.number(), number);
            let has_place = !(14..=23).contains(&number);
            assert_eq!(refusal.place(), if has_place { 12 } else { 0 });
            let said = refusal.to_string();
            assert!(said.contains(&format!("({number})")));
            assert_eq!(said.ends_with("at byte 12"), has_place);
            sentences.insert(said);
        }
        assert_eq!(sentences.len(), 24);
        let said = |number| Refusal::new(number, 12).to_string();
        assert_eq!(said(8), "the Name is empty (8), at byte 12");
        assert_eq!(said(15), "the bytes aren't a good table (15)");
    }
}
