//! Stands for the original's update_element_flags.rs, which is not at hand. Nothing that is compared uses it.
