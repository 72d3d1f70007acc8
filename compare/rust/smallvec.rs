//! Stands in for smallvec 2: what tachtalk-elm327-lib uses of `SmallVec<T, N>`. As there, up to N elements stand inside the value and more on the heap, the room
//! grows to powers of two, and the value has the size of a length and the larger of N elements and a pointer with a capacity.
use std::fmt;
use std::io;
use std::mem::{ManuallyDrop, MaybeUninit};
use std::ops::{Deref, DerefMut};
use std::ptr;

union Raw<T, const N: usize> {
    inline: ManuallyDrop<MaybeUninit<[T; N]>>,
    heap: (*mut T, usize),
}

pub struct SmallVec<T, const N: usize> {
    /// Twice the length, and 1 more where the elements are on the heap.
    tagged: usize,
    raw: Raw<T, N>,
}

impl<T, const N: usize> SmallVec<T, N> {
    pub const fn new() -> Self {
        let inline = ManuallyDrop::new(MaybeUninit::uninit());
        Self { tagged: 0, raw: Raw { inline } }
    }

    #[inline]
    fn on_heap(&self) -> bool {
        self.tagged & 1 == 1
    }

    #[inline]
    pub fn len(&self) -> usize {
        self.tagged >> 1
    }

    #[inline]
    pub fn capacity(&self) -> usize {
        // Safety: `heap` is the field in use where `on_heap` says so.
        if self.on_heap() { unsafe { self.raw.heap.1 } } else { N }
    }

    #[inline]
    fn start(&self) -> *const T {
        // Safety: as above; and a pointer to the elements reads none of them.
        unsafe {
            if self.on_heap() { self.raw.heap.0 } else { ptr::addr_of!(self.raw.inline).cast() }
        }
    }

    #[inline]
    fn start_mut(&mut self) -> *mut T {
        self.start().cast_mut()
    }

    /// # Safety
    /// The first `len` elements are initialised, and stand within the capacity.
    #[inline]
    unsafe fn set_len(&mut self, len: usize) {
        self.tagged = len << 1 | self.tagged & 1;
    }

    #[inline]
    pub fn reserve(&mut self, more: usize) {
        if self.capacity() - self.len() < more {
            self.grow(more);
        }
    }

    #[cold]
    fn grow(&mut self, more: usize) {
        let len = self.len();
        let room = (len + more).next_power_of_two();
        let mut to = ManuallyDrop::new(if self.on_heap() {
            // Safety: the parts are those of a vector that was forgotten here.
            unsafe { Vec::from_raw_parts(self.raw.heap.0, len, self.raw.heap.1) }
        } else {
            Vec::new()
        });
        if self.on_heap() {
            to.reserve_exact(room - len);
        } else {
            to.reserve_exact(room);
            // Safety: the elements are moved, and the inline field is not read again.
            unsafe { ptr::copy_nonoverlapping(self.start(), to.as_mut_ptr(), len) };
        }
        self.raw.heap = (to.as_mut_ptr(), to.capacity());
        self.tagged = len << 1 | 1;
    }

    #[inline]
    pub fn push(&mut self, value: T) {
        let len = self.len();
        self.reserve(1);
        // Safety: there is room for one more.
        unsafe {
            self.start_mut().add(len).write(value);
            self.set_len(len + 1);
        }
    }

    pub fn clear(&mut self) {
        let all: *mut [T] = &mut **self;
        // Safety: the elements are forgotten before they are dropped.
        unsafe {
            self.set_len(0);
            ptr::drop_in_place(all);
        }
    }
}

impl<T: Clone, const N: usize> SmallVec<T, N> {
    #[inline]
    pub fn extend_from_slice(&mut self, other: &[T]) {
        let len = self.len();
        self.reserve(other.len());
        let to = self.start_mut();
        for (i, value) in other.iter().enumerate() {
            // Safety: there is room for all of other.
            unsafe { to.add(len + i).write(value.clone()) };
        }
        // Safety: all of other is written.
        unsafe { self.set_len(len + other.len()) };
    }
}

impl<T, const N: usize> Extend<T> for SmallVec<T, N> {
    #[inline]
    fn extend<I: IntoIterator<Item = T>>(&mut self, values: I) {
        let mut values = values.into_iter();
        self.reserve(values.size_hint().0);
        let room = self.capacity();
        let to = self.start_mut();
        let mut len = self.len();
        while len < room {
            let Some(value) = values.next() else { break };
            // Safety: len is within the room.
            unsafe { to.add(len).write(value) };
            len += 1;
        }
        // Safety: the elements before len are written.
        unsafe { self.set_len(len) };
        for value in values {
            self.push(value);
        }
    }
}

impl<T, const N: usize> Drop for SmallVec<T, N> {
    #[inline]
    fn drop(&mut self) {
        let len = self.len();
        if self.on_heap() {
            // Safety: the parts are those of a vector that was forgotten.
            drop(unsafe { Vec::from_raw_parts(self.raw.heap.0, len, self.raw.heap.1) });
        } else {
            // Safety: each element is dropped once.
            unsafe { ptr::drop_in_place(&mut **self as *mut [T]) };
        }
    }
}

impl<T, const N: usize> Deref for SmallVec<T, N> {
    type Target = [T];
    #[inline]
    fn deref(&self) -> &[T] {
        // Safety: the first len elements are initialised.
        unsafe { std::slice::from_raw_parts(self.start(), self.len()) }
    }
}

impl<T, const N: usize> DerefMut for SmallVec<T, N> {
    #[inline]
    fn deref_mut(&mut self) -> &mut [T] {
        // Safety: as above.
        unsafe { std::slice::from_raw_parts_mut(self.start_mut(), self.len()) }
    }
}

pub struct IntoIter<T, const N: usize> {
    /// Its length is 0, so that only `from..to` is dropped here.
    values: SmallVec<T, N>,
    from: usize,
    to: usize,
}

impl<T, const N: usize> Iterator for IntoIter<T, N> {
    type Item = T;
    #[inline]
    fn next(&mut self) -> Option<T> {
        if self.from == self.to {
            return None;
        }
        self.from += 1;
        // Safety: each element is moved out once.
        Some(unsafe { self.values.start().add(self.from - 1).read() })
    }
}

impl<T, const N: usize> Drop for IntoIter<T, N> {
    fn drop(&mut self) {
        for value in self.by_ref() {
            drop(value);
        }
    }
}

impl<T, const N: usize> IntoIterator for SmallVec<T, N> {
    type Item = T;
    type IntoIter = IntoIter<T, N>;
    #[inline]
    fn into_iter(mut self) -> IntoIter<T, N> {
        let to = self.len();
        // Safety: no element is left to this value; the iterator has them.
        unsafe { self.set_len(0) };
        IntoIter { values: self, from: 0, to }
    }
}

impl<T, const N: usize> FromIterator<T> for SmallVec<T, N> {
    #[inline]
    fn from_iter<I: IntoIterator<Item = T>>(values: I) -> Self {
        let mut made = Self::new();
        made.extend(values);
        made
    }
}

impl<T: Clone, const N: usize> From<&[T]> for SmallVec<T, N> {
    #[inline]
    fn from(values: &[T]) -> Self {
        let mut made = Self::new();
        made.extend_from_slice(values);
        made
    }
}

impl<T: Clone, const N: usize> Clone for SmallVec<T, N> {
    fn clone(&self) -> Self {
        Self::from(&**self)
    }
}

impl<T, const N: usize> Default for SmallVec<T, N> {
    fn default() -> Self {
        Self::new()
    }
}

impl<T: PartialEq, const N: usize> PartialEq for SmallVec<T, N> {
    fn eq(&self, other: &Self) -> bool {
        **self == **other
    }
}

impl<T: Eq, const N: usize> Eq for SmallVec<T, N> {}

impl<T: fmt::Debug, const N: usize> fmt::Debug for SmallVec<T, N> {
    fn fmt(&self, f: &mut fmt::Formatter<'_>) -> fmt::Result {
        f.debug_list().entries(self.iter()).finish()
    }
}

impl<const N: usize> io::Write for SmallVec<u8, N> {
    #[inline]
    fn write(&mut self, bytes: &[u8]) -> io::Result<usize> {
        self.extend_from_slice(bytes);
        Ok(bytes.len())
    }

    fn flush(&mut self) -> io::Result<()> {
        Ok(())
    }
}
