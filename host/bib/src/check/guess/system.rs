//! The C library's `iconv`, for encodings whose tables are too large to stand here.

use std::ffi::{c_char, c_int, c_void, CString};

extern "C" {
    fn iconv_open(to: *const c_char, from: *const c_char) -> *mut c_void;
    fn iconv(
        converter: *mut c_void,
        from: *mut *const c_char,
        from_left: *mut usize,
        to: *mut *mut c_char,
        to_left: *mut usize,
    ) -> usize;
    fn iconv_close(converter: *mut c_void) -> c_int;
}

/// No character has more bytes than this, in an encoding or in UTF-8.
const LONGEST: usize = 4;

/// A converter of the C library, which is closed when it is no longer wanted.
struct Converter(*mut c_void);

impl Converter {
    /// From an encoding to UTF-8; none where the C library does not know it.
    fn from(encoding: &str) -> Option<Self> {
        let encoding = CString::new(encoding).ok()?;
        // SAFETY: both names end in a zero.
        let opened = unsafe { iconv_open(c"UTF-8".as_ptr(), encoding.as_ptr()) };
        // It answers -1 where it does not know one of them.
        (opened as isize != -1).then_some(Self(opened))
    }
}

impl Drop for Converter {
    fn drop(&mut self) {
        // SAFETY: it was opened, and is closed once.
        unsafe { iconv_close(self.0) };
    }
}

/// A text of an encoding in UTF-8, without a character that is cut at its end; none where it is not such a text, or the C library does not
/// know the encoding.
pub(super) fn decoded(encoding: &str, text: &[u8]) -> Option<String> {
    let converter = Converter::from(encoding)?;
    let mut made = vec![0_u8; LONGEST * text.len()];
    let (mut from, mut from_left) = (text.as_ptr().cast::<c_char>(), text.len());
    let (mut to, mut to_left) = (made.as_mut_ptr().cast::<c_char>(), made.len());
    // SAFETY: the pointers lead to as many bytes as the lengths say, and it writes no further.
    unsafe {
        iconv(
            converter.0,
            &mut from,
            &mut from_left,
            &mut to,
            &mut to_left,
        )
    };
    if from_left >= LONGEST {
        return None;
    }
    made.truncate(made.len() - to_left);
    String::from_utf8(made).ok()
}
