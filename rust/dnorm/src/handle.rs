//! A `dnorm` of C, which is freed when it is dropped.

use dnorm_sys as sys;

/// Owns what a `dnorm` owns.
pub(crate) struct Handle(sys::dnorm);

// The rules of `dnorm.h` let a `dnorm` go to another thread, and let several threads call the functions that take it by
// a pointer to const.
unsafe impl Send for Handle {}
unsafe impl Sync for Handle {}

impl Handle {
    /// Returns the address for a call that only reads.
    pub(crate) fn get(&self) -> *const sys::dnorm {
        &self.0
    }

    /// Returns the address for any call.
    pub(crate) fn get_mut(&mut self) -> *mut sys::dnorm {
        &mut self.0
    }
}

impl Default for Handle {
    fn default() -> Handle {
        Handle(sys::DNORM_NONE)
    }
}

impl Drop for Handle {
    fn drop(&mut self) {
        unsafe { sys::dnorm_free(&mut self.0) }
    }
}
