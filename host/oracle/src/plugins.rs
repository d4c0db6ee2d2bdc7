//! goko's plugin module: the two traits that its distributions carry, and the four files.

pub use crate::covertree::PointCloud;
pub use crate::NodeAddress;

use crate::covertree::node::CoverNode;
use crate::covertree::CoverTreeReader;

/// A value kept beside a node.
pub trait NodePlugin<D: PointCloud> {}

/// How such a value is made from a tree; never called here.
pub trait GokoPlugin<D: PointCloud>: Sized {
    /// The value kept beside a node.
    type NodeComponent: NodePlugin<D> + 'static;
    /// Makes it.
    fn node_component(
        parameters: &Self,
        my_node: &CoverNode<D>,
        my_tree: &CoverTreeReader<D>,
    ) -> Option<Self::NodeComponent>;
}

/// goko's files, included from where they lie.
#[allow(warnings)]
pub mod discrete {
    include!(concat!(env!("OUT_DIR"), "/modules.rs"));
}
