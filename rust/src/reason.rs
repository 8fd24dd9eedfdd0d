//! The refusals in words.

/// By number; 0 is no refusal. The header has the sentences.
const REASONS: &[&str] = include!(concat!(env!("OUT_DIR"), "/reasons.rs"));

/// What a refusal's number says, in one sentence. The header has the whole meaning at each call.
///
/// ```
/// assert_eq!(backoff::reason(9), "Word 1, 2 or 3 has no row of one word.");
/// ```
pub fn reason(number: u32) -> &'static str {
    REASONS.get(number as usize).copied().unwrap_or("No call refuses by this number.")
}
