//! A stand-in for the `pointers` crate, inferred from its use in the published files: the two traits, and
//! the pointers that the comparison, the measurement (bench/run) and the published Debug output need.
use std::rc::Rc;

pub trait Pointer: Sized {
    type Target;
    fn as_ref(&self) -> &Self::Target;
    /// # Safety
    /// The pointer comes from `into_raw` and is turned back once.
    unsafe fn from_raw(p: *const Self::Target) -> Self;
    fn into_raw(self) -> *const Self::Target;
}

pub trait CloneablePointer: Pointer {
    /// # Safety
    /// The pointer comes from `into_raw` and is still owned.
    unsafe fn from_raw_and_clone(p: *const Self::Target) -> Self;
}

impl<T> Pointer for Rc<T> {
    type Target = T;
    fn as_ref(&self) -> &T {
        self
    }
    unsafe fn from_raw(p: *const T) -> Self {
        unsafe { Rc::from_raw(p) }
    }
    fn into_raw(self) -> *const T {
        Rc::into_raw(self)
    }
}

impl<T> CloneablePointer for Rc<T> {
    unsafe fn from_raw_and_clone(p: *const T) -> Self {
        unsafe {
            Rc::increment_strong_count(p);
            Rc::from_raw(p)
        }
    }
}

/// What bench/original.rs holds its nodes by.
impl<T> Pointer for Box<T> {
    type Target = T;
    fn as_ref(&self) -> &T {
        self
    }
    unsafe fn from_raw(p: *const T) -> Self {
        unsafe { Box::from_raw(p as *mut T) }
    }
    fn into_raw(self) -> *const T {
        Box::into_raw(self)
    }
}

/// The published Debug output of a tree asks a reference for its target.
impl<T> Pointer for &T {
    type Target = T;
    fn as_ref(&self) -> &T {
        self
    }
    unsafe fn from_raw(p: *const T) -> Self {
        unsafe { &*p }
    }
    fn into_raw(self) -> *const T {
        self
    }
}
