//! Slices as they are lent to a call.

use std::fmt::Debug;

/// How slices are lent.
#[derive(Clone, Copy, PartialEq, Eq)]
pub enum Lending {
    /// Between guards, which each call must leave alone.
    Guarded,
    /// In an allocation of exactly their size, for a run under valgrind.
    Exact,
}

/// A slice within a buffer of its own.
pub struct Lent<T> {
    buffer: Vec<T>,
    guards: (Vec<T>, Vec<T>),
}

impl<T: Copy + PartialEq + Debug> Lent<T> {
    /// The content between these guards.
    pub fn new(content: &[T], guards: (Vec<T>, Vec<T>)) -> Lent<T> {
        let mut buffer = Vec::with_capacity(guards.0.len() + content.len() + guards.1.len());
        buffer.extend_from_slice(&guards.0);
        buffer.extend_from_slice(content);
        buffer.extend_from_slice(&guards.1);
        Lent { buffer, guards }
    }

    fn end(&self) -> usize {
        self.buffer.len() - self.guards.1.len()
    }

    pub fn part(&self) -> &[T] {
        &self.buffer[self.guards.0.len()..self.end()]
    }

    pub fn part_mut(&mut self) -> &mut [T] {
        let end = self.end();
        &mut self.buffer[self.guards.0.len()..end]
    }

    /// The content after the call, once the guards are compared.
    #[track_caller]
    pub fn back(self) -> Vec<T> {
        let end = self.end();
        assert_eq!(self.buffer[..self.guards.0.len()], self.guards.0, "guard before a slice");
        assert_eq!(self.buffer[end..], self.guards.1, "guard after a slice");
        self.part().to_vec()
    }
}
