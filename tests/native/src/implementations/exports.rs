//! The second implementation under the C library's names.
#![allow(clippy::missing_safety_doc, clippy::too_many_arguments)]

use super::reference::Reference;
use crate::interface::{calls, Arguments, Calls, Family, Name};
use std::ffi::c_void;
use std::slice::{from_raw_parts, from_raw_parts_mut};

/// A buffer that C lends; of length 0 it may be NULL.
trait Lent {
    unsafe fn lent(address: *mut c_void, length: usize) -> Self;
}

impl<T> Lent for &[T] {
    unsafe fn lent(address: *mut c_void, length: usize) -> Self {
        if length == 0 {
            &[]
        } else {
            from_raw_parts(address.cast(), length)
        }
    }
}

impl<T> Lent for &mut [T] {
    unsafe fn lent(address: *mut c_void, length: usize) -> Self {
        if length == 0 {
            &mut []
        } else {
            from_raw_parts_mut(address.cast(), length)
        }
    }
}

/// Defines the calls. The parameters of each are gone through one by one, and two lists grow: those of the C function, where a buffer is
/// an address and a length, and the statements that enter them in the arguments.
macro_rules! export {
    ($($family:ident $name:ident $c:ident ($($parameter:tt),*))*) => {
        $(export! { $family $name $c arguments, from ($($parameter)*) to () () })*
    };
    ($family:ident $name:ident $c:ident $a:ident, from ([$buffer:ident] $($rest:tt)*) to ($($taken:tt)*) ($($entered:tt)*)) => {
        export! {
            $family $name $c $a, from ($($rest)*) to
            ($($taken)* address: *mut c_void, length: usize,)
            ($($entered)* $a.$buffer = Lent::lent(address, length);)
        }
    };
    ($family:ident $name:ident $c:ident $a:ident, from ($number:ident $($rest:tt)*) to ($($taken:tt)*) ($($entered:tt)*)) => {
        export! {
            $family $name $c $a, from ($($rest)*) to
            ($($taken)* $number: u32,)
            ($($entered)* $a.$number = $number;)
        }
    };
    ($family:ident $name:ident $c:ident $a:ident, from () to ($($taken:tt)*) ($($entered:tt)*)) => {
        #[no_mangle]
        pub unsafe extern "C" fn $c($($taken)*) -> u64 {
            let mut $a = Arguments { family: Family::$family, ..Arguments::default() };
            $($entered)*
            Reference.call(Name::$name, &mut $a).to_u64()
        }
    };
}

calls!(export);
