//! Stands for the original's split_removal_bytes.rs, which is not at hand. Nothing that is compared uses it.
