//! Stands for the crate `arc-swap`: a cell that holds an `Arc` and can be loaded and replaced. A lock takes the place
//! of the lock-free exchange. With one thread the two cannot be told apart.

use std::ops::Deref;
use std::sync::{Arc, RwLock};

pub struct ArcSwap<T> {
    held: RwLock<Arc<T>>,
}

/// What a load gives: the `Arc` as it stood at that moment, also if the cell is replaced later.
pub struct Guard<A> {
    held: A,
}

impl<A> Deref for Guard<A> {
    type Target = A;
    fn deref(&self) -> &A {
        &self.held
    }
}

impl<T> ArcSwap<T> {
    pub fn new(held: Arc<T>) -> ArcSwap<T> {
        ArcSwap { held: RwLock::new(held) }
    }

    pub fn load(&self) -> Guard<Arc<T>> {
        Guard { held: self.load_full() }
    }

    pub fn load_full(&self) -> Arc<T> {
        self.held.read().unwrap().clone()
    }

    pub fn store(&self, held: Arc<T>) {
        *self.held.write().unwrap() = held;
    }
}
