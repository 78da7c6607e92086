//! The entry points as a Rust program declares them: what recipe.h says to C. The tests and the times use it.

/// Number, place and length of an answer, as `struct recipe_answer`.
#[repr(C)]
pub struct Answer {
    pub number: u32,
    pub place: usize,
    pub length: usize,
}

extern "C" {
    pub fn recipe_generate(
        text: *const u8,
        text_length: usize,
        out: *mut u8,
        out_length: usize,
    ) -> Answer;

    pub fn recipe_export(
        text: *const u8,
        text_length: usize,
        out: *mut u8,
        out_length: usize,
    ) -> Answer;

    pub fn recipe_read_export(
        text: *const u8,
        text_length: usize,
        out: *mut u8,
        out_length: usize,
    ) -> Answer;
}
