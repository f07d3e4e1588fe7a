//! What can be awaited: a handle, or a tree of handles.

use crate::sys::{self, Node};
use crate::values::NotificationHandle;

/// A handle, or a tree over handles.
///
/// ```
/// use palqytun::{NotificationHandle, UnresolvedFuture};
/// let [call, sleep] = [NotificationHandle::from(18), NotificationHandle::from(19)];
/// let race = UnresolvedFuture::first_completed([call, sleep]);
/// let both = UnresolvedFuture::all_completed([race, UnresolvedFuture::single(call)]);
/// assert_eq!(both.size(), 5);
/// ```
#[derive(Clone, Debug)]
pub struct UnresolvedFuture {
    /// Each node after the trees of its children.
    pub(crate) nodes: Vec<Node>,
}

impl UnresolvedFuture {
    /// Awaited until this handle has a result.
    pub fn single(handle: NotificationHandle) -> Self {
        UnresolvedFuture { nodes: vec![Node { kind: sys::SINGLE, number: handle.into() }] }
    }

    /// Awaited until some child has a result.
    pub fn first_completed<T: Into<Self>>(children: impl IntoIterator<Item = T>) -> Self {
        Self::over(sys::FIRST_COMPLETED, children)
    }

    /// Awaited until all children have a result.
    pub fn all_completed<T: Into<Self>>(children: impl IntoIterator<Item = T>) -> Self {
        Self::over(sys::ALL_COMPLETED, children)
    }

    /// Awaited until some child succeeds, or all have failed.
    pub fn first_succeeded_or_all_failed<T: Into<Self>>(children: impl IntoIterator<Item = T>) -> Self {
        Self::over(sys::FIRST_SUCCEEDED_OR_ALL_FAILED, children)
    }

    /// Awaited until all children succeed, or some child has failed.
    pub fn all_succeeded_or_first_failed<T: Into<Self>>(children: impl IntoIterator<Item = T>) -> Self {
        Self::over(sys::ALL_SUCCEEDED_OR_FIRST_FAILED, children)
    }

    /// Some way of the caller's own: asked again at each result of a child.
    pub fn unknown<T: Into<Self>>(children: impl IntoIterator<Item = T>) -> Self {
        Self::over(sys::UNKNOWN, children)
    }

    /// How many nodes the tree has.
    pub fn size(&self) -> usize {
        self.nodes.len()
    }

    fn over<T: Into<Self>>(kind: u32, children: impl IntoIterator<Item = T>) -> Self {
        let (mut nodes, mut number) = (Vec::new(), 0);
        for child in children {
            nodes.append(&mut child.into().nodes);
            number += 1;
        }
        nodes.push(Node { kind, number });
        UnresolvedFuture { nodes }
    }
}

impl From<NotificationHandle> for UnresolvedFuture {
    fn from(handle: NotificationHandle) -> Self {
        UnresolvedFuture::single(handle)
    }
}

impl From<&UnresolvedFuture> for UnresolvedFuture {
    fn from(it: &UnresolvedFuture) -> Self {
        it.clone()
    }
}
