//! Stand-in for `spin::RwLock` that waits, as the original does; where nobody lets it go on for very long, it panics. In a process that says that it has one
//! thread, it panics at once: there the original would wait for ever.
use std::cell::UnsafeCell;
use std::fmt::{Debug, Formatter, Result};
use std::ops::{Deref, DerefMut};
use std::sync::atomic::{AtomicBool, AtomicIsize, Ordering::Acquire, Ordering::Relaxed, Ordering::Release};
use std::time::{Duration, Instant};

const VERY_LONG: Duration = Duration::from_secs(120);

/// There is one thread.
pub static ALONE: AtomicBool = AtomicBool::new(false);

/// The number of readers, or -1 for a writer.
pub struct RwLock<T> {
    users: AtomicIsize,
    value: UnsafeCell<T>,
}

unsafe impl<T: Send> Send for RwLock<T> {}
unsafe impl<T: Send + Sync> Sync for RwLock<T> {}

pub struct RwLockReadGuard<'a, T>(&'a RwLock<T>);
pub struct RwLockWriteGuard<'a, T>(&'a RwLock<T>);

impl<T> RwLock<T> {
    pub const fn new(value: T) -> Self {
        RwLock { users: AtomicIsize::new(0), value: UnsafeCell::new(value) }
    }

    /// Waits until `next` has a number for the users as they are, and sets it.
    fn enter(&self, next: fn(isize) -> Option<isize>) {
        let mut since = None;
        while self.users.fetch_update(Acquire, Relaxed, next).is_err() {
            assert!(!ALONE.load(Relaxed), "would wait for ever");
            assert!(since.get_or_insert_with(Instant::now).elapsed() < VERY_LONG, "waits for ever");
            std::thread::yield_now();
        }
    }

    pub fn read(&self) -> RwLockReadGuard<'_, T> {
        self.enter(|users| (users >= 0).then_some(users + 1));
        RwLockReadGuard(self)
    }

    pub fn write(&self) -> RwLockWriteGuard<'_, T> {
        self.enter(|users| (users == 0).then_some(-1));
        RwLockWriteGuard(self)
    }
}

impl<T> Drop for RwLockReadGuard<'_, T> {
    fn drop(&mut self) {
        self.0.users.fetch_sub(1, Release);
    }
}

impl<T> Drop for RwLockWriteGuard<'_, T> {
    fn drop(&mut self) {
        self.0.users.store(0, Release);
    }
}

impl<T> Deref for RwLockReadGuard<'_, T> {
    type Target = T;
    fn deref(&self) -> &T {
        unsafe { &*self.0.value.get() }
    }
}

impl<T> Deref for RwLockWriteGuard<'_, T> {
    type Target = T;
    fn deref(&self) -> &T {
        unsafe { &*self.0.value.get() }
    }
}

impl<T> DerefMut for RwLockWriteGuard<'_, T> {
    fn deref_mut(&mut self) -> &mut T {
        unsafe { &mut *self.0.value.get() }
    }
}

/// Only the value: the driver reads cached records from this text.
impl<T: Debug> Debug for RwLock<T> {
    fn fmt(&self, f: &mut Formatter) -> Result {
        Debug::fmt(&*self.read(), f)
    }
}
