//! Memory that may not be had: then there is an answer for it, and no abort.

use std::alloc::{alloc_zeroed, Layout};
use std::collections::TryReserveError;

use crate::Refusal;

/// A number of which all bits zero are a value.
///
/// # Safety
///
/// It must be so.
pub(crate) unsafe trait Number: Copy {}

// SAFETY: zero is a value of both.
unsafe impl Number for u8 {}
unsafe impl Number for u32 {}

/// So many zeros, or the refusal where memory is short. They come from the system as zeros, and take
/// memory only where something is written.
pub(crate) fn zeros<T: Number>(count: usize) -> Result<Vec<T>, Refusal> {
    let layout = Layout::array::<T>(count).map_err(|_| Refusal::NO_MEMORY)?;
    if layout.size() == 0 {
        return Ok(Vec::new());
    }
    // SAFETY: the layout is not empty; what was allocated is of just this layout, and zeros are
    // values of T.
    unsafe {
        let place = alloc_zeroed(layout).cast::<T>();
        match place.is_null() {
            true => Err(Refusal::NO_MEMORY),
            false => Ok(Vec::from_raw_parts(place, count, count)),
        }
    }
}

/// Adds one, or says that memory is short.
pub(crate) fn push<T>(list: &mut Vec<T>, one: T) -> Result<(), TryReserveError> {
    if list.len() == list.capacity() {
        list.try_reserve(1)?;
    }
    list.push(one);
    Ok(())
}
