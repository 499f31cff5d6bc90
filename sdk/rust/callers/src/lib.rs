//! Programs of this repository over the crate `kotskhin`: its examples.
