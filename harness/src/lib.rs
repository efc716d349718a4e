//! The source's own files, with drivers appended, and the exports behind a safe wrapper.
#![allow(dead_code, unused_imports, clippy::all)]

pub mod accepted;
pub mod files;
pub mod lent;
pub mod moving;
pub mod oz;
pub mod reads;
pub mod reasons;
pub mod rng;
pub mod saved;
pub mod sets;
pub mod totals;
pub mod uploads;

mod reclaim {
    include!(concat!(env!("OUT_DIR"), "/reclaim.rs"));
}
mod raw {
    include!(concat!(env!("OUT_DIR"), "/raw.rs"));
}
mod node {
    include!(concat!(env!("OUT_DIR"), "/node.rs"));
}
mod iter {
    pub(crate) mod traverser {
        include!(concat!(env!("OUT_DIR"), "/traverser.rs"));
    }
}

pub mod source {
    pub use crate::iter::traverser::driver::Walk;
    pub use crate::node::driver::{By, Name, Removal, Tree};
    pub use crate::node::timed::Bin;
    pub use crate::raw::driver::Tables;
}

/// What the source's check says where its tests 1 to 8 fail.
pub const MESSAGES: [&str; 8] = [
    "A TreeNode's `prev` node did not point back to it as its `next` node",
    "A TreeNode's `next` node did not point back to it as its `prev` node",
    "A TreeNode's `parent` node did not point back to it as either its `left` or `right` child",
    "A TreeNode's `left` child did not point back to it as its `parent` node",
    "A TreeNode's `left` child had a greater hash value than it",
    "A TreeNode's `right` child did not point back to it as its `parent` node",
    "A TreeNode's `right` child had a smaller hash value than it",
    "A red TreeNode's two children were both also red",
];
