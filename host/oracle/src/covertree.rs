//! Stands for goko's cover tree: the reader is a map from layer and point to prior, where goko's own
//! `internal_index` tells the layer of a scale, and the point cloud is a list of given paths, a
//! point being a place in that list. No tree lies behind them, so no `CoverNode` can exist; the
//! methods of goko that would read one have no part in docs/RULES.md and need only compile.

// goko names `len` alone.
#![allow(clippy::len_without_is_empty)]

use crate::plugins::discrete::dirichlet::Dirichlet;
use crate::{GokoError, GokoResult, NodeAddress};
use std::any::Any;
use std::cell::RefCell;
use std::collections::BTreeMap;
use std::rc::Rc;
use std::sync::Arc;

/// The priors that a reading is lent, by layer and point.
type PriorMap = BTreeMap<(usize, usize), Dirichlet>;

/// What a tracker's and a training's generic parameter must be able to do.
pub trait PointCloud {
    /// How many points there are.
    fn len(&self) -> usize;
    /// The path of a point.
    fn path(&self, point: usize) -> Option<&[NodeAddress]>;
    /// All points, in order.
    fn reference_indexes(&self) -> Vec<usize> {
        (0..self.len()).collect()
    }
}

/// Paths as given, each standing for a point.
pub struct GivenPaths(pub Vec<Vec<NodeAddress>>);

impl PointCloud for GivenPaths {
    fn len(&self) -> usize {
        self.0.len()
    }
    fn path(&self, point: usize) -> Option<&[NodeAddress]> {
        self.0.get(point).map(|path| &path[..])
    }
}

/// The parameters of a tree.
pub struct CoverTreeParameters<D: PointCloud> {
    /// The floor scale: every scale below it is of one layer.
    pub min_res_index: i32,
    /// The points.
    pub point_cloud: Arc<D>,
}

// goko's own `internal_index`.
include!(concat!(env!("OUT_DIR"), "/internal_index.rs"));

/// What is lent to a reader: the priors, in the layers that the parameters tell.
struct Lent<D: PointCloud> {
    parameters: Arc<CoverTreeParameters<D>>,
    priors: PriorMap,
}

/// The tree reader: lent priors and given paths. The priors can be lent anew at any time, with
/// another floor.
pub struct CoverTreeReader<D: PointCloud> {
    lent: Rc<RefCell<Lent<D>>>,
    point_cloud: Arc<D>,
}

impl<D: PointCloud> Clone for CoverTreeReader<D> {
    fn clone(&self) -> Self {
        CoverTreeReader { lent: self.lent.clone(), point_cloud: self.point_cloud.clone() }
    }
}

impl<D: PointCloud> CoverTreeReader<D> {
    /// A reader without priors over a point cloud.
    pub fn over(point_cloud: D) -> Self {
        let point_cloud = Arc::new(point_cloud);
        let parameters =
            Arc::new(CoverTreeParameters { min_res_index: i32::MIN, point_cloud: point_cloud.clone() });
        CoverTreeReader {
            lent: Rc::new(RefCell::new(Lent { parameters, priors: PriorMap::new() })),
            point_cloud,
        }
    }

    /// Lends priors by their addresses, and a floor.
    pub fn lend(&self, priors: impl Iterator<Item = (NodeAddress, Dirichlet)>, floor: i32) {
        let parameters =
            Arc::new(CoverTreeParameters { min_res_index: floor, point_cloud: self.point_cloud.clone() });
        let layered = |((scale, point), prior)| ((parameters.internal_index(scale), point), prior);
        let priors = priors.map(layered).collect();
        *self.lent.borrow_mut() = Lent { parameters, priors };
    }

    /// The points.
    pub fn point_cloud(&self) -> &Arc<D> {
        &self.point_cloud
    }

    /// The parameters.
    pub fn parameters(&self) -> Arc<CoverTreeParameters<D>> {
        self.lent.borrow().parameters.clone()
    }

    /// Asks the prior of the address's point in the layer of its scale; none if there is none of the
    /// kind asked for.
    pub fn get_node_plugin_and<T: 'static, F, S>(&self, address: NodeAddress, ask: F) -> Option<S>
    where
        F: FnOnce(&T) -> S,
    {
        let lent = self.lent.borrow();
        let prior: &dyn Any = lent.priors.get(&(lent.parameters.internal_index(address.0), address.1))?;
        prior.downcast_ref::<T>().map(ask)
    }

    /// The given path of a point, with the distance that goko drops.
    pub fn known_path(&self, point: usize) -> GokoResult<Vec<(f32, NodeAddress)>> {
        let path = self.point_cloud().path(point).ok_or(GokoError::IndexNotInTree(point))?;
        Ok(path.iter().map(|address| (0.0, *address)).collect())
    }

    /// How many nodes there are: none.
    pub fn node_count(&self) -> usize {
        0
    }

    /// How many layers there are: none.
    pub fn len(&self) -> usize {
        0
    }

    /// Asks the node at an address: there is none.
    pub fn get_node_and<F, T>(&self, _address: NodeAddress, _ask: F) -> Option<T>
    where
        F: FnOnce(&node::CoverNode<D>) -> T,
    {
        None
    }
}

/// The nodes of a cover tree, of which there are none.
pub mod node {
    use super::{NodeAddress, PointCloud};
    use std::convert::Infallible;
    use std::marker::PhantomData;

    /// A node: there is no value of this type.
    pub struct CoverNode<D: PointCloud> {
        none: Infallible,
        cloud: PhantomData<D>,
    }

    impl<D: PointCloud> CoverNode<D> {
        /// The nested scale and the children's addresses.
        pub fn children(&self) -> Option<(i32, &[NodeAddress])> {
            match self.none {}
        }
        /// The point at the centre.
        pub fn center_index(&self) -> &usize {
            match self.none {}
        }
        /// The number of singletons.
        pub fn singletons_len(&self) -> usize {
            match self.none {}
        }
        /// The number of points covered.
        pub fn coverage_count(&self) -> usize {
            match self.none {}
        }
    }
}
