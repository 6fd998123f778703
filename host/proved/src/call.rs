//! What every wrapper is made of: the answer of a C function, and the call.

/// What an answer's numbers hold before the call, so that one which is not set shows.
pub(crate) const NOT_SET: u64 = 0xDEAD_BEEF_DEAD_BEEF;

/// Declares the answer of functions: 0 or the number of the refusal, the counts of what is written, and the
/// place of the refusal.
macro_rules! answer {
    ($(#[$comment:meta])* $name:ident($($count:ident),*)) => {
        $(#[$comment])*
        #[derive(Debug, Clone, Copy, PartialEq, Eq)]
        pub struct $name {
            pub number: u32,
            $(pub $count: u64,)*
            pub start: u64,
            pub end: u64,
        }

        impl $name {
            pub(crate) const UNSET: Self = Self {
                number: $crate::call::NOT_SET as u32,
                $($count: $crate::call::NOT_SET,)*
                start: $crate::call::NOT_SET,
                end: $crate::call::NOT_SET,
            };

            /// An answer that accepts.
            pub fn accepted($($count: u64),*) -> Self {
                Self { number: 0, $($count,)* start: 0, end: 0 }
            }

            /// A refusal with its place.
            pub fn refused(number: u32, start: u64, end: u64) -> Self {
                Self { number, $($count: 0,)* start, end }
            }
        }
    };
}
pub(crate) use answer;

/// Declares a C function and calls it: with slices that it reads, numbers and more such slices, then with
/// slices that it is lent to write to, then with the counts and the place of its answer. A slice is passed as
/// a pointer and a length.
macro_rules! call {
    ($function:ident(
        reads $($($read:ident).+: $of_read:ty),+;
        $(numbers $($number:ident: $kind:ty),+;)?
        $(reads $($($behind:ident).+: $of_behind:ty),+;)?
        writes $($($lent:ident).+: $of_lent:ty),+;
    ) -> $answer:ident($($count:ident),+)) => {{
        extern "C" {
            fn $function(
                $(_: *const $of_read, _: usize,)+
                $($(_: $kind,)+)?
                $($(_: *const $of_behind, _: usize,)+)?
                $(_: *mut $of_lent, _: usize,)+
                $($count: *mut u64,)+
                start: *mut u64,
                end: *mut u64,
            ) -> u32;
        }
        let mut answer = $answer::UNSET;
        // SAFETY: the pointers are of slices and of numbers that live through the call, each slice
        // with its own length, and the function asks for nothing else.
        answer.number = unsafe {
            $function(
                $($($read).+.as_ptr(), $($read).+.len(),)+
                $($($number,)+)?
                $($($($behind).+.as_ptr(), $($behind).+.len(),)+)?
                $($($lent).+.as_mut_ptr(), $($lent).+.len(),)+
                $(&mut answer.$count,)+
                &mut answer.start,
                &mut answer.end,
            )
        };
        answer
    }};
}
pub(crate) use call;
