//! The independent generator under the library's names and calling convention, so that the hosts can be tried without the library.

#[path = "../independent/generator.rs"]
mod generator;

#[repr(C)]
pub struct Answer {
    pub number: u32,
    pub place: usize,
    pub length: usize,
}

type Entry = fn(&[u8], &mut [u8]) -> generator::Answer;

unsafe fn call(entry: Entry, text: *const u8, n: usize, out: *mut u8, m: usize) -> Answer {
    let text = std::slice::from_raw_parts(text, n);
    let out = std::slice::from_raw_parts_mut(out, m);
    let generator::Answer {
        number,
        place,
        length,
    } = entry(text, out);
    Answer {
        number,
        place,
        length,
    }
}

/// # Safety
/// As host/recipe.h asks of the host.
#[no_mangle]
pub unsafe extern "C" fn recipe_generate(
    text: *const u8,
    text_length: usize,
    out: *mut u8,
    out_length: usize,
) -> Answer {
    call(generator::generate, text, text_length, out, out_length)
}

/// # Safety
/// As host/recipe.h asks of the host.
#[no_mangle]
pub unsafe extern "C" fn recipe_export(
    text: *const u8,
    text_length: usize,
    out: *mut u8,
    out_length: usize,
) -> Answer {
    call(generator::export, text, text_length, out, out_length)
}

/// # Safety
/// As host/recipe.h asks of the host.
#[no_mangle]
pub unsafe extern "C" fn recipe_read_export(
    text: *const u8,
    text_length: usize,
    out: *mut u8,
    out_length: usize,
) -> Answer {
    call(generator::read_export, text, text_length, out, out_length)
}
