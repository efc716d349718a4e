//! A stand-in for seize: one thread, so a guard protects nothing, and what is retired waits until `reclaim_all`.
use std::cell::RefCell;
use std::marker::PhantomData;
use std::ops::Deref;
use std::sync::atomic::{AtomicPtr, Ordering};

#[derive(Debug)]
pub struct Link;

impl Link {
    /// # Safety
    /// The link is that of a `T`.
    pub unsafe fn cast<T>(link: *mut Link) -> *mut T {
        link.cast()
    }
}

#[derive(Debug)]
#[repr(C)]
pub struct Linked<T> {
    pub link: Link,
    pub value: T,
}

impl<T> Deref for Linked<T> {
    type Target = T;
    fn deref(&self) -> &T {
        &self.value
    }
}

#[derive(Debug)]
pub struct Collector;

impl Collector {
    pub fn link_boxed<T>(&self, value: T) -> *mut Linked<T> {
        Box::into_raw(Box::new(Linked { link: Link, value }))
    }
}

#[derive(Debug)]
pub struct Guard<'a>(PhantomData<&'a ()>);

type Reclaim = unsafe fn(*mut Link);

thread_local! {
    static RETIRED: RefCell<Vec<(*mut Link, Reclaim)>> = const { RefCell::new(Vec::new()) };
}

impl Guard<'_> {
    /// # Safety
    /// Nothing else uses what is read under this guard.
    pub unsafe fn unprotected() -> Guard<'static> {
        Guard(PhantomData)
    }

    #[inline(always)]
    pub fn protect<T>(&self, ptr: &AtomicPtr<T>, ordering: Ordering) -> *mut T {
        #[cfg(feature = "trace")]
        trace::note(ptr as *const _ as usize);
        ptr.load(ordering)
    }

    /// # Safety
    /// `reclaim` frees what `ptr` points at.
    pub unsafe fn defer_retire<T>(&self, ptr: *mut T, reclaim: Reclaim) {
        RETIRED.with(|r| r.borrow_mut().push((ptr.cast(), reclaim)));
    }
}

/// Frees what was retired; the number of things freed.
///
/// # Safety
/// Nothing points at them any more.
pub unsafe fn reclaim_all() -> usize {
    let all = RETIRED.with(|r| std::mem::take(&mut *r.borrow_mut()));
    let count = all.len();
    for (ptr, reclaim) in all {
        reclaim(ptr);
    }
    count
}

pub mod reclaim {
    use super::Link;

    /// # Safety
    /// The link is that of a boxed `T`.
    pub unsafe fn boxed<T>(link: *mut Link) {
        drop(Box::from_raw(Link::cast::<T>(link)));
    }
}

/// Which links the source has loaded since `start`, and a limit that stops a source that would run on.
#[cfg(feature = "trace")]
pub mod trace {
    use std::cell::{Cell, RefCell};

    pub const RUNS_ON: &str = "the source loads more links than the limit";

    thread_local! {
        static LEFT: Cell<usize> = const { Cell::new(usize::MAX) };
        static ON: Cell<bool> = const { Cell::new(false) };
        static LOADS: RefCell<Vec<usize>> = const { RefCell::new(Vec::new()) };
    }

    #[inline(always)]
    pub(crate) fn note(at: usize) {
        if ON.with(|on| on.get()) {
            let left = LEFT.with(|l| l.get());
            if left == 0 {
                panic!("{}", RUNS_ON);
            }
            LEFT.with(|l| l.set(left - 1));
            LOADS.with(|l| l.borrow_mut().push(at));
        }
    }

    pub fn start(limit: usize) {
        LOADS.with(|l| l.borrow_mut().clear());
        LEFT.with(|l| l.set(limit));
        ON.with(|on| on.set(true));
    }

    /// The addresses of the links that were loaded, in order.
    pub fn stop() -> Vec<usize> {
        ON.with(|on| on.set(false));
        LOADS.with(|l| std::mem::take(&mut *l.borrow_mut()))
    }
}
