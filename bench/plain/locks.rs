//! The locks of the plain program: those of its standard library, or the kernel's own.
#[cfg(not(kernel))]
pub use std::sync::{Mutex, RwLock};

#[cfg(kernel)]
pub use self::kernel::{Mutex, RwLock};

#[cfg(kernel)]
pub mod kernel {
    use std::cell::UnsafeCell;
    use std::convert::Infallible;
    use std::ffi::{c_int, c_void};
    use std::ops::{Deref, DerefMut};

    type Place = *mut c_void;

    extern "C" {
        fn semaphore_new() -> Place;
        fn mutex_new() -> Place;
        fn semaphore_read(semaphore: Place);
        fn semaphore_read_end(semaphore: Place);
        fn semaphore_write(semaphore: Place);
        fn semaphore_write_end(semaphore: Place);
        fn mutex_take(mutex: Place);
        fn mutex_end(mutex: Place);
        pub fn task_begin(processor: c_int);
    }

    /// A value under one of the kernel's locks, which is never freed.
    pub struct Guarded<T> {
        lock: Place,
        value: UnsafeCell<T>,
    }

    unsafe impl<T: Send + Sync> Sync for Guarded<T> {}
    unsafe impl<T: Send> Send for Guarded<T> {}

    /// A hold, and the call that ends it.
    pub struct Hold<'a, T> {
        guarded: &'a Guarded<T>,
        end: unsafe extern "C" fn(Place),
    }

    impl<T> Guarded<T> {
        fn hold(
            &self,
            take: unsafe extern "C" fn(Place),
            end: unsafe extern "C" fn(Place),
        ) -> Result<Hold<'_, T>, Infallible> {
            unsafe { take(self.lock) };
            Ok(Hold { guarded: self, end })
        }
    }

    impl<T> Deref for Hold<'_, T> {
        type Target = T;

        fn deref(&self) -> &T {
            unsafe { &*self.guarded.value.get() }
        }
    }

    impl<T> DerefMut for Hold<'_, T> {
        fn deref_mut(&mut self) -> &mut T {
            unsafe { &mut *self.guarded.value.get() }
        }
    }

    impl<T> Drop for Hold<'_, T> {
        fn drop(&mut self) {
            unsafe { (self.end)(self.guarded.lock) };
        }
    }

    pub struct RwLock<T>(Guarded<T>);

    impl<T> RwLock<T> {
        pub fn new(value: T) -> Self {
            let lock = unsafe { semaphore_new() };
            RwLock(Guarded { lock, value: UnsafeCell::new(value) })
        }

        pub fn read(&self) -> Result<Hold<'_, T>, Infallible> {
            self.0.hold(semaphore_read, semaphore_read_end)
        }

        pub fn write(&self) -> Result<Hold<'_, T>, Infallible> {
            self.0.hold(semaphore_write, semaphore_write_end)
        }

        pub fn into_inner(self) -> Result<T, Infallible> {
            Ok(self.0.value.into_inner())
        }
    }

    pub struct Mutex<T>(Guarded<T>);

    impl<T> Mutex<T> {
        pub fn new(value: T) -> Self {
            let lock = unsafe { mutex_new() };
            Mutex(Guarded { lock, value: UnsafeCell::new(value) })
        }

        pub fn lock(&self) -> Result<Hold<'_, T>, Infallible> {
            self.0.hold(mutex_take, mutex_end)
        }

        pub fn into_inner(self) -> Result<T, Infallible> {
            Ok(self.0.value.into_inner())
        }
    }
}
