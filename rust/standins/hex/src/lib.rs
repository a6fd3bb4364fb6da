//! Stands for the crate hex, which is not at hand: the original's Display uses `encode`.

/// The bytes as lower-case hex digits.
pub fn encode(bytes: impl AsRef<[u8]>) -> String {
    bytes.as_ref().iter().map(|byte| format!("{byte:02x}")).collect()
}
