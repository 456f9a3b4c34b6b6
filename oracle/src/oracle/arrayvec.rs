//! Stand-in for the crate `arrayvec`: as much as param.rs uses of it.
//! A push past the capacity panics, as in the crate.

#[derive(Debug)]
pub struct ArrayVec<T, const CAP: usize>(Vec<T>);

impl<T, const CAP: usize> ArrayVec<T, CAP> {
    #[allow(clippy::new_without_default)]
    pub fn new() -> Self {
        Self(Vec::with_capacity(CAP))
    }

    pub fn push(&mut self, item: T) {
        assert!(self.0.len() < CAP, "ArrayVec is full");
        self.0.push(item);
    }

    pub fn clear(&mut self) {
        self.0.clear();
    }

    pub fn as_slice(&self) -> &[T] {
        &self.0
    }
}

impl<T, const CAP: usize> std::ops::Deref for ArrayVec<T, CAP> {
    type Target = [T];
    fn deref(&self) -> &[T] {
        &self.0
    }
}

impl<T, const CAP: usize> std::ops::DerefMut for ArrayVec<T, CAP> {
    fn deref_mut(&mut self) -> &mut [T] {
        &mut self.0
    }
}
