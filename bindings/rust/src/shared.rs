//! Handles of the library that threads share.

use std::ptr;
use std::sync::{Mutex, MutexGuard, PoisonError};

use crate::calls::{self, FactorHandle, Handle, RingHandle};
use crate::error::answer;
use crate::Error;

/// A kind of handle.
pub(crate) trait Kind: Sized {
    /// Returns an empty handle.
    fn empty() -> Self;

    /// Stores in `to` what `from` holds, which both share, and returns a status.
    ///
    /// # Safety
    ///
    /// The handles are different, each is empty or as a call left it, and no other call uses them.
    unsafe fn share(from: *mut Self, to: *mut Self) -> i32;

    /// Empties a handle.
    ///
    /// # Safety
    ///
    /// The handle is empty or as a call left it, and no other call uses it.
    unsafe fn free(handle: *mut Self);
}

impl Kind for Handle {
    fn empty() -> Self {
        Handle { matrix: ptr::null_mut() }
    }

    unsafe fn share(from: *mut Self, to: *mut Self) -> i32 {
        // SAFETY: as the caller ensures.
        unsafe { calls::nalgebra_sparse_matrix_clone(from, to) }
    }

    unsafe fn free(handle: *mut Self) {
        // SAFETY: as the caller ensures.
        unsafe { calls::nalgebra_sparse_matrix_free(handle) }
    }
}

impl Kind for FactorHandle {
    fn empty() -> Self {
        FactorHandle { factors: ptr::null_mut() }
    }

    unsafe fn share(from: *mut Self, to: *mut Self) -> i32 {
        // SAFETY: as the caller ensures.
        unsafe { calls::nalgebra_sparse_factors_clone(from, to) }
    }

    unsafe fn free(handle: *mut Self) {
        // SAFETY: as the caller ensures.
        unsafe { calls::nalgebra_sparse_factors_free(handle) }
    }
}

impl Kind for RingHandle {
    fn empty() -> Self {
        RingHandle { matrix: ptr::null_mut() }
    }

    unsafe fn share(from: *mut Self, to: *mut Self) -> i32 {
        // SAFETY: as the caller ensures.
        unsafe { calls::nalgebra_sparse_ring_matrix_clone(from, to) }
    }

    unsafe fn free(handle: *mut Self) {
        // SAFETY: as the caller ensures.
        unsafe { calls::nalgebra_sparse_ring_matrix_free(handle) }
    }
}

/// A handle that one thread uses. It is freed when it is dropped.
pub(crate) struct Own<K: Kind>(K);

// SAFETY: `Send` is proved for the handles (crates/c_handles), and one that moves between calls is as a call left it.
unsafe impl<K: Kind> Send for Own<K> {}

impl<K: Kind> Own<K> {
    /// Returns what a call stores in the empty handle that it is given.
    fn made(call: impl FnOnce(*mut K) -> i32) -> Result<Own<K>, Error> {
        let mut own = Own(K::empty());
        answer(call(own.pointer()))?;
        Ok(own)
    }

    /// Returns the pointer for a call. The handle is empty or as a call left it, and no other call uses it.
    pub(crate) fn pointer(&mut self) -> *mut K {
        &mut self.0
    }
}

impl<K: Kind> Drop for Own<K> {
    fn drop(&mut self) {
        // SAFETY: the handle is empty or as a call left it, and it is not used again.
        unsafe { K::free(self.pointer()) }
    }
}

/// A handle that threads share. A call writes its handles, so it uses the handle under the lock; a call that takes long
/// uses a second one.
pub(crate) struct Shared<K: Kind>(Mutex<Own<K>>);

impl<K: Kind> Shared<K> {
    /// Returns what a call stores in the empty handle that it is given.
    pub(crate) fn made(call: impl FnOnce(*mut K) -> i32) -> Result<Shared<K>, Error> {
        Ok(Shared(Mutex::new(Own::made(call)?)))
    }

    /// Returns the handle. Other threads wait for it until the guard is dropped.
    pub(crate) fn lock(&self) -> MutexGuard<'_, Own<K>> {
        // A panic leaves no handle in use.
        self.0.lock().unwrap_or_else(PoisonError::into_inner)
    }

    /// Returns a second handle of the same matrix or factors, for one call. No array is copied.
    pub(crate) fn second(&self) -> Result<Own<K>, Error> {
        let mut first = self.lock();
        // SAFETY: the handles are different, and the lock keeps other calls from the first one.
        Own::made(|to| unsafe { K::share(first.pointer(), to) })
    }

    /// Returns a handle for other threads to share, of the same matrix or factors.
    pub(crate) fn try_clone(&self) -> Result<Shared<K>, Error> {
        Ok(Shared(Mutex::new(self.second()?)))
    }
}
