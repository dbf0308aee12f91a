// Made by .ci/made-rust of crates/deadpool_gate/src/gate/store.rt, without its contracts and its counter of accesses. The proof is of that text.
//! The nodes of a gate. They are reached only through this store, which counts each access to one of them.

use crate::rattle::Slab;
use crate::rattle::{AllocError, Global};

/// A listed waiter, with the keys of its neighbours.
#[derive(Clone, Copy)]
pub struct Node {
    pub previous: Option<usize>,
    pub next: Option<usize>,
    pub granted: bool,
    pub told: bool,
}

/// What a write sets in a node: one field.
#[derive(Clone, Copy)]
pub enum Change {
    Previous(Option<usize>),
    Next(Option<usize>),
    Granted,
    Told,
}

impl Node {
    #[inline]
    fn with(self, change: Change) -> Self {
        match change {
            Change::Previous(previous) => Node { previous, ..self },
            Change::Next(next) => Node { next, ..self },
            Change::Granted => Node { granted: true, ..self },
            Change::Told => Node { told: true, ..self },
        }
    }
}

/// The nodes under their keys.
pub struct NodeStore {
    nodes: Slab<Node>,
}

impl NodeStore {
    /// No nodes, and no memory for any.
    #[inline]
    pub fn new(alloc: Global) -> Self {
        NodeStore { nodes: Slab::new(alloc) }
    }

    /// Sees that there is memory for so many nodes in all. It is no access to a node.
    #[inline]
    pub fn reserve(&mut self, nodes: usize) -> Result<(), AllocError> {
        let more = nodes.saturating_sub(self.nodes.len());
        self.nodes.reserve_exact(more)
    }

    /// How many nodes there is memory for.
    #[inline]
    pub fn room(&self) -> usize {
        self.nodes.capacity()
    }

    /// The key that the next node gets. It is no access to a node.
    #[inline]
    pub fn next_key(&self) -> usize {
        self.nodes.vacant_key()
    }

    /// Reads a node: one access.
    #[inline]
    pub fn read(&mut self, key: usize) -> Option<Node> {
        self.nodes.get(key).copied()
    }

    /// Writes one field of a node, if there is one under the key: one access.
    #[inline]
    pub fn write(&mut self, key: usize, change: Change) {
        if let Some(node) = self.nodes.get_mut(key) {
            *node = node.with(change);
        }
    }

    /// Puts a node in, under a key that had none: one access. If no memory is found only the count changes. Half of
    /// all numbers is taken to be more nodes than any memory has.
    #[inline]
    pub fn put(&mut self, node: Node) -> Result<usize, AllocError> {
        if self.nodes.len() >= usize::MAX / 2 {
            return Err(AllocError);
        }
        match self.nodes.insert(node) {
            Ok(key) => Ok(key),
            Err(_) => Err(AllocError),
        }
    }

    /// Takes a node out: one access. Its key may be given again.
    #[inline]
    pub fn take(&mut self, key: usize) -> Option<Node> {
        self.nodes.try_remove(key)
    }
}
