//! Stored records, read and updated by format buffers: the proved library Lyrecanyon, over slices.
//!
//! A field definition table says which fields a record has; a format buffer, in EBCDIC, names those that a call is about; a record buffer
//! carries their values. Every call takes all inputs and ends: nothing has to be checked before. A [`Refusal`] changes no byte of what was
//! lent.
//!
//! ```
//! // The fields AB (packed, 3 bytes) and MF (unpacked, 2 bytes, multiple values).
//! let table = b"\xE5\xC6\xE3\x00\x01\x02\xC1\xC2\x01\xD7\x03\x00\xD4\xC6\x01\xE4\x02\x01";
//! let empty = lyrecanyon::empty_vec(table)?;
//!
//! // The update `AB,MF.` of 150 and 15, and the read `AB,5,U.` of what it stored.
//! let job = lyrecanyon::update_vec(table, &empty, b"\xC1\xC2\x6B\xD4\xC6\x4B", b"\x00\x15\x0F\xF1\xF5")?;
//! let answer = lyrecanyon::read_vec(table, &job, b"\xC1\xC2\x6B\xF5\x6B\xE4\x4B")?;
//! assert_eq!(answer, b"\xF0\xF0\xF1\xF5\xF0");
//!
//! // The last value of MF, whichever it is: `MFN.`
//! assert_eq!(lyrecanyon::read_vec(table, &job, b"\xD4\xC6\xD5\x4B")?, b"\xF1\xF5");
//! # Ok::<(), lyrecanyon::Refusal>(())
//! ```
//!
//! The functions over slices allocate nothing. All need some stack: `include/lyrecanyon.h` says how much, and a thread of Rust's standard
//! library has more by far.

mod exports;
mod refusal;

pub use refusal::{ReadRefusal, Refusal};

/// The longest that a record can be: a slice of this length has room for every new record.
pub const LONGEST_RECORD: usize = 4096;

/// The longest that the answer of a read can be.
pub const LONGEST_ANSWER: usize = 32_767;

/// Fills the record buffer with the items that the format calls for. The length of the answer is returned; no byte after it is written.
///
/// ```
/// # let table = b"\xE5\xC6\xE3\x00\x01\x01\xC1\xC2\x01\xD7\x03\x00";
/// // `AB.` of the record in which AB is 150, into a buffer of four bytes.
/// let stored = b"\xE5\xD9\xC3\x00\x01\x00\x15\x0F";
/// let mut buffer = [0xAA; 4];
/// assert_eq!(lyrecanyon::read(table, stored, b"\xC1\xC2\x4B", &mut buffer), Ok(3));
/// assert_eq!(buffer, [0x00, 0x15, 0x0F, 0xAA]);
///
/// // 150 does not fit a length of one byte: `AB,1.`
/// let refusal = lyrecanyon::read(table, stored, b"\xC1\xC2\x6B\xF1\x4B", &mut buffer).unwrap_err();
/// assert!(matches!(refusal, lyrecanyon::Refusal::OutOfRange { .. }));
/// assert_eq!(refusal.number(), 9);
/// ```
///
/// [`read_needing`] also says which length such a value needs.
pub fn read(table: &[u8], stored: &[u8], format: &[u8], buffer: &mut [u8]) -> Result<usize, Refusal> {
    answer(exports::read(table, stored, format, buffer))
}

/// [`read`], which also says which length a value needs that does not fit: the smallest from 1 up, in the format in effect, that would
/// have held it.
///
/// ```
/// # let table = b"\xE5\xC6\xE3\x00\x01\x01\xC1\xC2\x01\xD7\x03\x00";
/// // 150 does not fit a length of one byte, `AB,1.`, and needs two.
/// let stored = b"\xE5\xD9\xC3\x00\x01\x00\x15\x0F";
/// let mut buffer = [0xAA; 4];
/// let refused = lyrecanyon::read_needing(table, stored, b"\xC1\xC2\x6B\xF1\x4B", &mut buffer).unwrap_err();
/// assert!(matches!(refused.refusal, lyrecanyon::Refusal::OutOfRange { .. }));
/// assert_eq!(refused.needed, Some(2));
/// assert_eq!(refused.to_string(), "a value is outside the conversion range or does not fit: it needs length 2");
///
/// // With that length it is read: `AB,2.`
/// assert_eq!(lyrecanyon::read_needing(table, stored, b"\xC1\xC2\x6B\xF2\x4B", &mut buffer), Ok(2));
/// assert_eq!(buffer, [0x15, 0x0F, 0xAA, 0xAA]);
///
/// // No length helps where the refusal is another one: `QQ.`
/// let refused = lyrecanyon::read_needing(table, stored, b"\xD8\xD8\x4B", &mut buffer).unwrap_err();
/// assert_eq!((refused.refusal, refused.needed), (lyrecanyon::Refusal::UnknownName, None));
/// ```
pub fn read_needing(table: &[u8], stored: &[u8], format: &[u8], buffer: &mut [u8]) -> Result<usize, ReadRefusal> {
    let (number, used, needed) = exports::read_needing(table, stored, format, buffer);
    ReadRefusal::of(number, needed).map_or(Ok(used), Err)
}

/// Stores the values of the record buffer by the format. The new record is written to the room, and its length is returned.
///
/// ```
/// # let table = b"\xE5\xC6\xE3\x00\x01\x01\xC1\xC2\x01\xD7\x03\x00";
/// let stored = b"\xE5\xD9\xC3\x00\x01\x00\x00\x0F";
/// let mut room = [0; lyrecanyon::LONGEST_RECORD];
/// let length = lyrecanyon::update(table, stored, b"\xC1\xC2\x4B", b"\x00\x15\x0C", &mut room)?;
/// assert_eq!(&room[..length], b"\xE5\xD9\xC3\x00\x01\x00\x15\x0F");
///
/// // The signs A, C, E and F are plus, and B and D minus; F and D are stored.
/// let length = lyrecanyon::update(table, stored, b"\xC1\xC2\x4B", b"\x00\x15\x0B", &mut room)?;
/// assert_eq!(&room[..length], b"\xE5\xD9\xC3\x00\x01\x00\x15\x0D");
/// # Ok::<(), lyrecanyon::Refusal>(())
/// ```
pub fn update(table: &[u8], stored: &[u8], format: &[u8], buffer: &[u8], room: &mut [u8]) -> Result<usize, Refusal> {
    answer(exports::update(table, stored, format, buffer, room))
}

/// Stores the values of the record buffer where the record stands, which is the first `used` bytes of a slice: the new record takes its
/// place, and `used` is its length. After a refusal the slice and `used` are as they were. A `used` beyond the slice means all of it.
///
/// ```
/// # let table = b"\xE5\xC6\xE3\x00\x01\x01\xC1\xC2\x01\xD7\x03\x00";
/// let mut job = [0; lyrecanyon::LONGEST_RECORD];
/// let mut used = lyrecanyon::empty(table, &mut job)?;
/// lyrecanyon::apply(table, &mut job, &mut used, b"\xC1\xC2\x4B", b"\x00\x15\x0F")?;
/// assert_eq!(&job[..used], b"\xE5\xD9\xC3\x00\x01\x00\x15\x0F");
/// # Ok::<(), lyrecanyon::Refusal>(())
/// ```
pub fn apply(table: &[u8], stored: &mut [u8], used: &mut usize, format: &[u8], buffer: &[u8]) -> Result<(), Refusal> {
    Refusal::of(exports::apply(table, stored, used, format, buffer)).map_or(Ok(()), Err)
}

/// Writes the empty record of a table to the room: every value is null and every count 0. Its length is returned.
///
/// ```
/// # let table = b"\xE5\xC6\xE3\x00\x01\x01\xC1\xC2\x01\xD7\x03\x00";
/// let mut room = [0xAA; 9];
/// assert_eq!(lyrecanyon::empty(table, &mut room), Ok(8));
/// assert_eq!(&room, b"\xE5\xD9\xC3\x00\x01\x00\x00\x0F\xAA");
/// assert_eq!(lyrecanyon::empty(table, &mut room[..7]), Err(lyrecanyon::Refusal::NoRoom));
/// ```
pub fn empty(table: &[u8], room: &mut [u8]) -> Result<usize, Refusal> {
    answer(exports::empty(table, room))
}

/// [`read`], with an answer of any length as a vector.
pub fn read_vec(table: &[u8], stored: &[u8], format: &[u8]) -> Result<Vec<u8>, Refusal> {
    in_vec(LONGEST_ANSWER, |buffer| read(table, stored, format, buffer))
}

/// [`update`], with the new record as a vector.
pub fn update_vec(table: &[u8], stored: &[u8], format: &[u8], buffer: &[u8]) -> Result<Vec<u8>, Refusal> {
    in_vec(LONGEST_RECORD, |room| update(table, stored, format, buffer, room))
}

/// [`empty`], with the empty record as a vector.
pub fn empty_vec(table: &[u8]) -> Result<Vec<u8>, Refusal> {
    in_vec(LONGEST_RECORD, |room| empty(table, room))
}

fn answer((number, used): (u8, usize)) -> Result<usize, Refusal> {
    Refusal::of(number).map_or(Ok(used), Err)
}

fn in_vec(longest: usize, call: impl FnOnce(&mut [u8]) -> Result<usize, Refusal>) -> Result<Vec<u8>, Refusal> {
    let mut bytes = vec![0; longest];
    let used = call(&mut bytes)?;
    bytes.truncate(used);
    Ok(bytes)
}
