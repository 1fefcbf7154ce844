//! Stands in: balancing, which is left out.

#[derive(Debug, Clone)]
pub struct BalanceRule;
pub struct BalanceTerm;

pub(crate) fn render_amount() {}
pub(crate) fn render_terms() {}
