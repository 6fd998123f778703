//! What `bib check` finds in a file, for C: include/bib_check.h says what each part is. Unlike libbib.a,
//! which is proved and allocates nothing, this is Rust that allocates; it stands beside that archive and
//! calls it.

use std::ffi::{c_char, c_void, CStr, CString};
use std::panic::{catch_unwind, AssertUnwindSafe};

use bib::check::{check_reading, Code, Level, Lines, Lints, Reading, Stop};
use bib::{Lending, Lent, Refusal, USUAL_LIMIT};

/// The caller's function wants no more.
const STOPPED: u32 = 101;
/// The check failed in itself.
const FAILED: u32 = 102;

const ERROR: u32 = 1;
const WARNING: u32 = 2;

#[repr(C)]
pub struct Finding {
    number: u32,
    level: u32,
    line: u64,
    column: u64,
    start: u64,
    end: u64,
    lender: u64,
    name: *const c_char,
    message: *const c_char,
    hint: *const c_char,
    key: *const c_char,
}

#[repr(C)]
pub struct Lender {
    name: *const c_char,
    file: *const u8,
    length: usize,
}

#[repr(C)]
pub struct Options {
    name: *const c_char,
    lenders: *const Lender,
    lender_count: usize,
    limit: u64,
    no_resolve: u32,
}

#[repr(C)]
pub struct Counts {
    sound: u64,
    warned: u64,
    unresolved: u64,
    damaged: u64,
}

type Say = unsafe extern "C" fn(context: *mut c_void, finding: *const Finding) -> u32;

/// # Safety
///
/// As include/bib_check.h says: the pointers are to so much as their lengths say, or null where these are
/// 0; options, names, `say` and counts may be null.
#[no_mangle]
pub unsafe extern "C" fn bib_check(
    file: *const u8,
    length: usize,
    options: *const Options,
    say: Option<Say>,
    context: *mut c_void,
    counts: *mut Counts,
) -> u32 {
    // SAFETY: the caller says so.
    let (file, options) = unsafe { (bytes(file, length), options.as_ref()) };
    let hear = |finding: &Finding| match say {
        // SAFETY: it is the caller's function, with the caller's context and a finding that lives as long
        // as the call.
        Some(say) => unsafe { say(context, finding) },
        None => 0,
    };
    // No unwinding reaches the caller.
    let checked = catch_unwind(AssertUnwindSafe(|| checked(file, options, hear)));
    let (status, found) = checked.unwrap_or((FAILED, bib::check::Counts::default()));
    // SAFETY: the caller says so.
    if let Some(counts) = unsafe { counts.as_mut() } {
        *counts = Counts {
            sound: found.sound as u64,
            warned: found.warned as u64,
            unresolved: found.unresolved as u64,
            damaged: found.damaged as u64,
        };
    }
    status
}

/// The status, and how many entries there are of each standing, where it is 0.
fn checked(
    file: &[u8],
    options: Option<&Options>,
    mut hear: impl FnMut(&Finding) -> u32,
) -> (u32, bib::check::Counts) {
    let none = bib::check::Counts::default();
    let lent = match lent(options) {
        Ok(lent) => lent,
        Err(refusal) => return (refusal.reason.number(), none),
    };
    // SAFETY: a name is null or a text that ends in a zero.
    let name = options.and_then(|options| unsafe { text(options.name) });
    let name = name.unwrap_or_else(|| "the file".into());
    let reading = reading(file, options, &lent, &name);
    let say = |finding: &bib::check::Finding, lines: &Lines| match put(finding, lines, &mut hear) {
        0 => Ok(()),
        _ => Err(()),
    };
    match check_reading(file, &reading, Lints::ALL, say) {
        Ok(checked) => (0, checked.counts()),
        Err(Stop::Refused(refusal)) => (refusal.reason.number(), none),
        Err(Stop::Caller(())) => (STOPPED, none),
    }
}

fn reading<'a>(
    file: &[u8],
    options: Option<&Options>,
    lent: &'a Lent,
    to: &'a str,
) -> Result<Reading<'a>, Refusal> {
    if options.is_some_and(|options| options.no_resolve != 0) {
        return Reading::of(file);
    }
    let limit = options.map(|options| options.limit);
    let limit = limit.filter(|limit| *limit > 0).unwrap_or(USUAL_LIMIT);
    match lent.lenders() {
        0 => Reading::resolved_within(limit, file),
        _ => Reading::lent_within(limit, file, Lending { lent, to }),
    }
}

/// The definitions that other files lend.
fn lent(options: Option<&Options>) -> Result<Lent, Refusal> {
    let mut lent = Lent::default();
    let Some(options) = options.filter(|options| options.lender_count > 0) else {
        return Ok(lent);
    };
    // SAFETY: the caller says that there are so many.
    let lenders = unsafe { std::slice::from_raw_parts(options.lenders, options.lender_count) };
    for lender in lenders {
        // SAFETY: the caller says so of each.
        let (name, file) = unsafe { (text(lender.name), bytes(lender.file, lender.length)) };
        let name = name.unwrap_or_else(|| "another file".into());
        lent.add(name, file.to_vec())?;
    }
    Ok(lent)
}

/// Hands a finding over.
fn put(
    finding: &bib::check::Finding,
    lines: &Lines,
    hear: &mut impl FnMut(&Finding) -> u32,
) -> u32 {
    let (number, name) = match finding.code {
        Code::Refusal(reason) => (reason.number(), reason.name()),
        Code::Lint(lint) => (0, lint.name()),
    };
    let (line, column) = lines.line_and_column(finding.mark);
    let [name, message] = [name, &finding.message].map(zero_ended);
    let [hint, key] = [&finding.hint, &finding.key].map(|text| text.as_deref().map(zero_ended));
    let pointer =
        |text: &Option<CString>| text.as_ref().map_or(std::ptr::null(), |text| text.as_ptr());
    hear(&Finding {
        number,
        level: match finding.level() {
            Level::Error => ERROR,
            Level::Warning => WARNING,
        },
        line: line as u64,
        column: column as u64,
        start: finding.start as u64,
        end: finding.end as u64,
        lender: lines.lender().map_or(0, |number| number as u64 + 1),
        name: name.as_ptr(),
        message: message.as_ptr(),
        hint: pointer(&hint),
        key: pointer(&key),
    })
}

/// A text that ends in a zero. Those in it are shown by a sign, as the command shows them.
fn zero_ended(text: &str) -> CString {
    CString::new(text.replace('\0', "\u{2400}")).expect("it has no zeros")
}

/// # Safety
///
/// It is a text that ends in a zero, or null.
unsafe fn text(name: *const c_char) -> Option<String> {
    // SAFETY: the caller says so.
    let name = (!name.is_null()).then(|| unsafe { CStr::from_ptr(name) })?;
    Some(name.to_string_lossy().into_owned())
}

/// # Safety
///
/// So many bytes are there; where there are none, it may be null.
unsafe fn bytes<'a>(bytes: *const u8, length: usize) -> &'a [u8] {
    if length == 0 {
        return &[];
    }
    // SAFETY: the caller says so.
    unsafe { std::slice::from_raw_parts(bytes, length) }
}
