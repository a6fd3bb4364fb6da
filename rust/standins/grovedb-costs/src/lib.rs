//! Stands for the crate grovedb-costs around the original's storage_cost/removal.rs, which `tools/oracle` puts beside this.

/// Storage costs.
pub mod storage_cost {
    /// The original's removal.rs.
    pub mod removal;
}
