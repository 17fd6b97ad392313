//! Stand-in for `spin::RwLock`, for one thread: where the original would wait for ever, this panics.
#![no_std]

use core::cell::UnsafeCell;
use core::fmt::{Debug, Formatter, Result};
use core::ops::{Deref, DerefMut};
use core::sync::atomic::{AtomicIsize, Ordering::Relaxed};

/// The number of readers, or -1 for a writer.
pub struct RwLock<T> {
    users: AtomicIsize,
    value: UnsafeCell<T>,
}

unsafe impl<T: Send> Send for RwLock<T> {}
unsafe impl<T: Send + Sync> Sync for RwLock<T> {}

pub struct RwLockReadGuard<'a, T>(&'a RwLock<T>);
pub struct RwLockWriteGuard<'a, T>(&'a RwLock<T>);

impl<T> RwLock<T> {
    pub const fn new(value: T) -> Self {
        RwLock { users: AtomicIsize::new(0), value: UnsafeCell::new(value) }
    }

    pub fn read(&self) -> RwLockReadGuard<'_, T> {
        assert!(self.users.load(Relaxed) >= 0, "would wait for ever: read under a writer");
        self.users.fetch_add(1, Relaxed);
        RwLockReadGuard(self)
    }

    pub fn write(&self) -> RwLockWriteGuard<'_, T> {
        assert!(self.users.load(Relaxed) == 0, "would wait for ever: write under another user");
        self.users.store(-1, Relaxed);
        RwLockWriteGuard(self)
    }
}

impl<T> Drop for RwLockReadGuard<'_, T> {
    fn drop(&mut self) {
        self.0.users.fetch_sub(1, Relaxed);
    }
}

impl<T> Drop for RwLockWriteGuard<'_, T> {
    fn drop(&mut self) {
        self.0.users.store(0, Relaxed);
    }
}

impl<T> Deref for RwLockReadGuard<'_, T> {
    type Target = T;
    fn deref(&self) -> &T {
        unsafe { &*self.0.value.get() }
    }
}

impl<T> Deref for RwLockWriteGuard<'_, T> {
    type Target = T;
    fn deref(&self) -> &T {
        unsafe { &*self.0.value.get() }
    }
}

impl<T> DerefMut for RwLockWriteGuard<'_, T> {
    fn deref_mut(&mut self) -> &mut T {
        unsafe { &mut *self.0.value.get() }
    }
}

/// Only the value: the driver reads cached records from this text.
impl<T: Debug> Debug for RwLock<T> {
    fn fmt(&self, f: &mut Formatter) -> Result {
        Debug::fmt(&*self.read(), f)
    }
}
