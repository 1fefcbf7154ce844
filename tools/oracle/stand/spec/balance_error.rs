//! Stands in: balancing, which is left out.

pub struct BalanceError;
