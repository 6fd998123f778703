//! Reads .bib files by the proved library: strictly, or piece by piece; packs their rows, and
//! unpacks them; resolves literals, fields and all values of a file into chunks; and writes chunks.
//!
//! Each function lends the proved one what its answer can need, and answers with just that, or with
//! the refusal: what is wrong, and where. Refusal 16 means that there was not enough
//! memory to lend. [`check`] says what is wrong in words for the author of a file.
//!
//! ```
//! let rows = bib::read(b"@a{k,}").unwrap();
//! assert_eq!(rows.iter().next().unwrap().kind, bib::Kind::Entry);
//! let refusal = bib::read(b"@a{k}").unwrap_err();
//! assert_eq!(refusal.to_string(), "expected a comma at byte 4 (refusal 7)");
//! ```

pub mod check;
mod chunk;
mod fields;
mod filed;
mod lent;
mod limit;
mod memory;
mod months;
mod refusal;
mod room;
mod row;

pub use chunk::Resolved;
pub use fields::{is_title_field, is_verbatim_field, verbatim_flags, ENGLISH_MONTHS};
pub use filed::{ResolvedFile, ResolvedValue};
pub use lent::{Lending, Lent, LentPlace, LENT};
pub use limit::USUAL_LIMIT;
pub use refusal::{Reason, Refusal};
pub use row::{Kind, Row, Rows};

use std::ops::Range;

use memory::Number;
use months::Months;
use proved::Answer;
use room::Room;
use row::{BYTES, NUMBERS};

/// The most bytes that a file may have; a longer one is refused.
pub const MOST_BYTES: usize = 16_777_215;

/// The most bytes that a literal may have to be resolved; a longer one is refused.
pub const MOST_LITERAL: usize = proved::MOST_LITERAL;

/// Reads a file strictly: all of its rows, or what is wrong first.
pub fn read(file: &[u8]) -> Result<Rows, Refusal> {
    reading(file, proved::read)
}

/// Salvages a file: each piece, from an "@" at the beginning of a line to the next, is read alone,
/// and of a damaged one the damage and its cause remain. Refuses only a file that is too long.
pub fn salvage(file: &[u8]) -> Result<Rows, Refusal> {
    reading(file, proved::salvage)
}

/// Whether strict reading accepts a file. No room is lent, so it takes no memory.
pub fn accepts(file: &[u8]) -> bool {
    let answer = proved::read(file, &mut []);
    answer.number == 0 || answer.number == Reason::NoRoom.number()
}

/// Packs rows, four numbers each, into seven bytes each.
pub fn pack(rows: &[u32]) -> Result<Vec<u8>, Refusal> {
    let most = rows.len() / NUMBERS * BYTES;
    answered(|bytes| proved::pack(rows, bytes), most, 1)
}

/// Unpacks rows, seven bytes each.
pub fn unpack(bytes: &[u8]) -> Result<Rows, Refusal> {
    let most = bytes.len() / BYTES * NUMBERS;
    answered(|rows| proved::unpack(bytes, rows), most, NUMBERS).map(Rows::new)
}

/// Formats chunks verbatim. Their rows are five numbers each: kind (0 Normal, 1 Verbatim, 2 Math),
/// text start and end, which are bytes of the text, and span start and end, which are not looked
/// at.
pub fn format_verbatim(text: &[u8], rows: &[u32]) -> Result<String, Refusal> {
    // A chunk is at most its text and two dollars.
    let most = chunk::most(text, rows, 1);
    answered(|bytes| proved::format_verbatim(text, rows, bytes), most, 1).map(chunk::text)
}

/// Formats chunks in sentence case: what is Normal in lower case, save the first character of the
/// first chunk, which is in upper case; all else as [`format_verbatim`] does. The rows are as there.
///
/// ```
/// let resolved = bib::resolve_literal(b"the {NASA} Archive", 0..18, false).unwrap();
/// let shown = bib::format_sentence(resolved.text.as_bytes(), &resolved.rows).unwrap();
/// assert_eq!(shown, "The NASA archive");
/// ```
pub fn format_sentence(text: &[u8], rows: &[u32]) -> Result<String, Refusal> {
    // A character of two bytes may become three of two bytes each.
    let most = chunk::most(text, rows, 3);
    answered(|bytes| proved::format_sentence(text, rows, bytes), most, 1).map(chunk::text)
}

/// Writes chunks as a BibLaTeX string, for a verbatim field (as `file` or `url`) or another. The
/// rows are as in [`format_verbatim`].
pub fn to_biblatex_string(text: &[u8], rows: &[u32], is_verbatim: bool) -> Result<String, Refusal> {
    let flag = is_verbatim.into();
    let call = |bytes: &mut [u8]| proved::to_biblatex_string(text, rows, flag, bytes);
    // Each byte may get a backslash, and each chunk a mark before and after it.
    answered(call, chunk::most(text, rows, 2), 1).map(chunk::text)
}

/// Resolves the literal that stands at these bytes of a file, of a verbatim field (as `file` or
/// `url`) or another: the rows of its chunks, whose spans are bytes of the file, and their text.
///
/// ```
/// let file = br#"@a{k, t = {G\"odel's {Proof}}}"#;
/// let resolved = bib::resolve_literal(file, 11..28, false).unwrap();
/// assert_eq!(resolved.text, "Gödel's Proof");
/// assert_eq!(resolved.rows, [0, 0, 9, 11, 21, 1, 9, 14, 22, 27]);
/// ```
pub fn resolve_literal(
    file: &[u8],
    span: Range<usize>,
    is_verbatim: bool,
) -> Result<Resolved, Refusal> {
    // A longer literal is refused in any room.
    let room = Room::of_literal(span.len().min(MOST_LITERAL));
    let flag = is_verbatim.into();
    let resolved =
        room.resolve(|lent| proved::resolve_literal(file, span.start, span.end, flag, lent))?;
    resolved.ok_or(Refusal::NO_MEMORY)
}

/// Resolves the value of a field, of a verbatim one (as `file` or `url`) or another: its literals, and
/// its names by their last definitions or, where there is none, by the first of the months, which are
/// words with their texts. The rows are the file's, as [`Rows::numbers`] gives them, and `which` is the
/// number of the value's row.
///
/// ```
/// let file = b"@b{k,t=a#{y}#may}@string{a={x}}";
/// let rows = bib::read(file).unwrap();
/// let which = rows.iter().position(|row| row.kind == bib::Kind::Value).unwrap();
/// let resolved = bib::resolve_field(file, rows.numbers(), which, false, &[("may", "May")]).unwrap();
/// assert_eq!(resolved.text, "xyMay");
/// assert_eq!(resolved.names, 2);
/// ```
pub fn resolve_field(
    file: &[u8],
    rows: &[u32],
    which: usize,
    is_verbatim: bool,
    months: &[(&str, &str)],
) -> Result<Resolved, Refusal> {
    let months = Months::of(months)?;
    let mut room = Room::of(rows, which, file.len());
    let (file, flag) = (months.beside(file, rows), is_verbatim.into());
    loop {
        match room.resolve(|lent| proved::resolve_field(file, which, flag, lent))? {
            Some(resolved) => return Ok(resolved),
            None => room.grow()?,
        }
    }
}

/// Resolves every value of a file, each as [`resolve_field`] does, in one call that checks the file and
/// finds its definitions once. The flags say of each value, in the order of the rows, whether its field
/// is verbatim. A value that is refused has its refusal in the answer and stops no other.
///
/// ```
/// let file = b"@string{a={x}}@b{k,t=a#{y},u=b}";
/// let rows = bib::read(file).unwrap();
/// let resolved = bib::resolve_file(file, rows.numbers(), &[false; 3], &[]).unwrap();
/// let texts: Vec<_> = resolved.iter().map(|value| value.map(|value| value.text)).collect();
/// assert_eq!(texts[..2], [Ok("x"), Ok("xy")]);
/// assert_eq!(texts[2].unwrap_err().reason, bib::Reason::UnknownAbbreviation);
/// ```
pub fn resolve_file(
    file: &[u8],
    rows: &[u32],
    flags: &[bool],
    months: &[(&str, &str)],
) -> Result<ResolvedFile, Refusal> {
    filed::resolve(Months::of(months)?.beside(file, rows), flags)
}

/// The same, but values that would come to more than so many bytes together are not resolved: each has
/// refusal 16, with its place. A name counts as four bytes beside its text.
pub fn resolve_file_within(
    limit: u64,
    file: &[u8],
    rows: &Rows,
    flags: &[bool],
    months: &[(&str, &str)],
) -> Result<ResolvedFile, Refusal> {
    let beyond = limit::beyond(file, rows, limit)?;
    if beyond.is_empty() {
        return resolve_file(file, rows.numbers(), flags, months);
    }
    let rest = limit::without(rows, &beyond)?;
    let mut resolved = resolve_file(file, &rest, flags, months)?;
    resolved.refuse(rows, &beyond);
    Ok(resolved)
}

/// The same, where other files lend definitions: each value is resolved as if these stood before the
/// file, and the places in them, of refusals and chunks, are those from [`LENT`] on. Refused by 1 where
/// the file and the definitions are together longer than a file may be.
///
/// ```
/// let mut lent = bib::Lent::default();
/// lent.add("strings.bib".into(), b"@string{acm = {ACM Press}}".to_vec()).unwrap();
/// let file = b"@book{k, publisher = acm}";
/// let rows = bib::read(file).unwrap();
/// let limit = bib::USUAL_LIMIT;
/// let resolved = bib::resolve_file_lent(limit, &lent, file, &rows, &[false], &[]).unwrap();
/// assert_eq!(resolved.get(0).unwrap().unwrap().text, "ACM Press");
/// ```
pub fn resolve_file_lent(
    limit: u64,
    lent: &Lent,
    file: &[u8],
    rows: &Rows,
    flags: &[bool],
    months: &[(&str, &str)],
) -> Result<ResolvedFile, Refusal> {
    lent.fits(file)?;
    // Where nothing is asked for, nothing need be lent.
    if lent.rows().is_empty() || !rows.iter().any(|row| row.kind == Kind::Name) {
        return resolve_file_within(limit, file, rows, flags, months);
    }
    let (bytes, rows, flags) = lent.before(file, rows, flags)?;
    let resolved = resolve_file_within(limit, &bytes, &rows, &flags, months)?;
    Ok(resolved.behind(lent.values(), lent.text().len() as u32))
}

/// A file of n bytes has at most n + 1 rows (`EnoughRoom` of crates/bib/specs/EnoughRoom.antt).
fn reading(file: &[u8], call: fn(&[u8], &mut [u32]) -> Answer) -> Result<Rows, Refusal> {
    let most = (file.len().min(MOST_BYTES) + 1) * NUMBERS;
    answered(|rows| call(file, rows), most, NUMBERS).map(Rows::new)
}

/// The answer of a call that is lent `most` numbers and counts them by `unit`. Where memory is too
/// short to lend them, that is refusal 16.
fn answered<U>(
    call: impl FnOnce(&mut [U]) -> Answer,
    most: usize,
    unit: usize,
) -> Result<Vec<U>, Refusal>
where
    U: Number,
{
    let mut to = memory::zeros(most)?;
    let answer = call(&mut to);
    if answer.number != 0 {
        return Err(Refusal::of(answer.number, answer.start, answer.end));
    }
    to.truncate(answer.count as usize * unit);
    to.shrink_to_fit();
    Ok(to)
}
