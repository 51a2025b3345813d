//! Shelves on their way from control page to control page.

use crate::record::Shelf;

/// The shelves whose status pages were written last, each as a control page left the one before.
#[derive(Default)]
pub struct Trail {
    shelves: Vec<Shelf>,
    /// As a control page left the last of them.
    reached: Option<Shelf>,
}

impl Trail {
    /// Of a shelf whose status page was written. Hands back the shelves up to that one.
    pub fn written(&mut self, shelf: &Shelf) -> &[Shelf] {
        if self.reached.take().as_ref() != Some(shelf) {
            self.shelves.clear();
        }
        self.shelves.push(shelf.clone());
        &self.shelves
    }

    /// Of the shelves before and after a control page.
    pub fn controlled(&mut self, before: &Shelf, after: &Shelf) {
        self.reached = (self.shelves.last() == Some(before)).then(|| after.clone());
    }
}
