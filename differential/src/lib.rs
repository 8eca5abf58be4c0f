//! The product, over its C interface, beside the second implementation.

pub mod compare;
pub mod lent;
pub mod product;
mod told;
