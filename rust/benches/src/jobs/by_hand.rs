//! The jobs as loops over words, as one who knows the processor writes them: for processors with AVX2 and BMI2, which the
//! program asks for once.

pub mod appends;
pub mod compress;
pub mod deletions;
pub mod nulls;
pub mod pages;
pub mod rows;
pub mod scan;

/// A bitmap from bit 0 on.
pub struct Words {
    pub words: Vec<u64>,
    pub len: usize,
}

/// Whether the processor has what the loops take.
pub fn has_all() -> bool {
    is_x86_feature_detected!("avx2")
        && is_x86_feature_detected!("bmi1")
        && is_x86_feature_detected!("bmi2")
        && is_x86_feature_detected!("popcnt")
}
