//! Room that a call is lent, between elements that must stay as they are.

/// How many of these there are on either side.
const GUARDS: usize = 64;

pub struct Lent<T> {
    all: Vec<T>,
    old: Vec<T>,
    guard: T,
}

impl<T: Copy + PartialEq> Lent<T> {
    pub fn new(len: usize, old: T, guard: T) -> Self {
        Self::of(vec![old; len], guard)
    }

    /// Room in which these elements stand.
    pub fn of(old: Vec<T>, guard: T) -> Self {
        let mut all = vec![guard; GUARDS + old.len() + GUARDS];
        all[GUARDS..GUARDS + old.len()].copy_from_slice(&old);
        Self { all, old, guard }
    }

    /// What is lent, behind the elements before it.
    pub fn part(&mut self) -> (*mut T, usize) {
        (self.all[GUARDS..].as_mut_ptr(), self.old.len())
    }

    /// What stands there now.
    pub fn now(&self) -> &[T] {
        &self.all[GUARDS..GUARDS + self.old.len()]
    }

    /// Whether what stands around it is as it was.
    pub fn is_guarded(&self) -> bool {
        let (before, rest) = self.all.split_at(GUARDS);
        before.iter().chain(&rest[self.old.len()..]).all(|&v| v == self.guard)
    }

    /// Whether it is itself as it was.
    pub fn is_kept(&self) -> bool {
        self.now() == self.old
    }
}

/// How many i32 a line filter asks for (document 02, K5).
pub fn line_scratch(width: usize, height: usize) -> usize {
    3 * width.max(height)
}
