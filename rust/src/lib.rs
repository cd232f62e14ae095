//! Token bucket bookings written a second time, from the paper alone, with no line in common with the proved product:
//! the product, called by `calls`, is compared with `paper` on the inputs that `inputs` makes from a seed.

#![deny(unsafe_code)]

pub mod calls;
pub mod inputs;
pub mod paper;
pub mod pruned;
