//! The C library through the boundary of include/bpcc.h and include/scc.h.

use crate::interface::{calls, Arguments, Calls, Family, Name, Reply};
use std::ffi::c_void;

/// The static library.
pub struct Library;

/// A buffer's address, as C takes it.
trait Lent {
    fn address(&mut self) -> *mut c_void;
}

impl<T> Lent for &[T] {
    fn address(&mut self) -> *mut c_void {
        self.as_ptr().cast_mut().cast()
    }
}

impl<T> Lent for &mut [T] {
    fn address(&mut self) -> *mut c_void {
        self.as_mut_ptr().cast()
    }
}

/// Declares the calls and makes them: a number is passed as it is, a buffer as its address and its length.
macro_rules! library {
    ($($family:ident $name:ident $c:ident ($($($number:ident)? $([$buffer:ident])?),*))*) => {
        #[link(name = "bpcc", kind = "static")]
        extern "C" {
            $(fn $c($($($number: u32)? $($buffer: *mut c_void, _: usize)?),*) -> u64;)*
        }

        impl Calls for Library {
            fn call(&self, name: Name, arguments: &mut Arguments) -> Reply {
                // SAFETY: a Rust slice is really there, as long as its length, aligned for its type, and no two slices of one call overlap.
                Reply::from_u64(match (arguments.family, name) {
                    $((Family::$family, Name::$name) => unsafe {
                        $c($($(arguments.$number)? $(arguments.$buffer.address(), arguments.$buffer.len())?),*)
                    })*
                    (family, name) => panic!("{family:?} has no {name}"),
                })
            }
        }
    };
}

calls!(library);
