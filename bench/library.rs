//! The calls of the static library, as include/larderlate.h declares them.

/// Compile, reset and cycle of a library that exports them under these names.
macro_rules! stepping_calls {
    ($compile:ident, $reset:ident, $cycle:ident) => {
        extern "C" {
            fn $compile(
                program: *const u8,
                program_length: usize,
                schedule: *const u8,
                schedule_length: usize,
                image: *mut u8,
                image_length: usize,
            ) -> u64;
            fn $reset(image: *const u8, image_length: usize, state: *mut i32, state_words: usize) -> u64;
            fn $cycle(
                image: *const u8,
                image_length: usize,
                state: *mut i32,
                state_words: usize,
                samples: *const i32,
                samples_words: usize,
            ) -> u64;
        }

        pub fn compile(program: &[u8], schedule: &[u8], image: &mut [u8]) -> u64 {
            let (length, image) = (image.len(), image.as_mut_ptr());
            unsafe { $compile(program.as_ptr(), program.len(), schedule.as_ptr(), schedule.len(), image, length) }
        }

        pub fn reset(image: &[u8], state: &mut [i32]) -> u64 {
            unsafe { $reset(image.as_ptr(), image.len(), state.as_mut_ptr(), state.len()) }
        }

        pub fn cycle(image: &[u8], state: &mut [i32], samples: &[i32]) -> u64 {
            let (words, state) = (state.len(), state.as_mut_ptr());
            unsafe { $cycle(image.as_ptr(), image.len(), state, words, samples.as_ptr(), samples.len()) }
        }
    };
}
#[allow(unused_imports)]
pub(crate) use stepping_calls;

stepping_calls!(larderlate_compile, larderlate_reset, larderlate_cycle);

extern "C" {
    fn larderlate_join_numbers(
        texts: *const u8,
        texts_length: usize,
        numbers: *const usize,
        numbers_count: usize,
        links: *const u8,
        links_length: usize,
        image: *mut u8,
        image_length: usize,
        part: *mut usize,
    ) -> u64;
    fn larderlate_report(
        program: *const u8,
        program_length: usize,
        schedule: *const u8,
        schedule_length: usize,
        counts: *mut u32,
        written: *mut usize,
        stack: *mut usize,
    ) -> u64;
    fn larderlate_tail(image: *const u8, image_length: usize, start: *mut usize) -> u64;
    fn larderlate_convert(program: *const u8, program_length: usize, result: *mut u8, result_length: usize) -> u64;
    fn larderlate_assemble(text: *const u8, text_length: usize, bytes: *mut u8, bytes_length: usize) -> u64;
    fn larderlate_list(bytes: *const u8, bytes_length: usize, text: *mut u8, text_length: usize) -> u64;
    fn larderlate_moves(
        program: *const u8,
        program_length: usize,
        schedule: *const u8,
        schedule_length: usize,
        list: *mut u8,
        list_length: usize,
    ) -> u64;
    fn larderlate_dependents(
        program: *const u8,
        program_length: usize,
        schedule: *const u8,
        schedule_length: usize,
        input: usize,
        marks: *mut u8,
    ) -> u64;
    fn larderlate_board_new(record: *mut usize);
    fn larderlate_board_load(
        record: *mut usize,
        images: *const u8,
        images_length: usize,
        state: *mut i32,
        state_words: usize,
        place: usize,
        start: usize,
        length: usize,
    ) -> u64;
    fn larderlate_board_mark(record: *mut usize, place: usize) -> u64;
    fn larderlate_board_turn(
        record: *mut usize,
        images: *const u8,
        images_length: usize,
        state: *mut i32,
        state_words: usize,
        samples: *const i32,
        samples_words: usize,
        outcome: *mut u32,
    ) -> u64;
}

// A Rust slice keeps all that the header asks of the caller.

/// Four numbers a part: start and length of its program and of its schedule.
pub fn join(texts: &[u8], numbers: &[usize], links: &[u8], image: &mut [u8], part: &mut usize) -> u64 {
    let (length, image) = (image.len(), image.as_mut_ptr());
    let (numbers, count) = (numbers.as_ptr(), numbers.len());
    unsafe { larderlate_join_numbers(texts.as_ptr(), texts.len(), numbers, count, links.as_ptr(), links.len(), image, length, part) }
}

/// Of the sizes, the first is the length with the tail and the second the stack use.
pub fn report(program: &[u8], schedule: &[u8], counts: &mut [u32; 240], sizes: &mut [usize; 2]) -> u64 {
    let (counts, [written, stack]) = (counts.as_mut_ptr(), sizes);
    unsafe { larderlate_report(program.as_ptr(), program.len(), schedule.as_ptr(), schedule.len(), counts, written, stack) }
}

pub fn tail(image: &[u8], start: &mut usize) -> u64 {
    unsafe { larderlate_tail(image.as_ptr(), image.len(), start) }
}

// The benchmark makes no conversion.
#[allow(dead_code)]
pub fn convert(program: &[u8], result: &mut [u8]) -> u64 {
    unsafe { larderlate_convert(program.as_ptr(), program.len(), result.as_mut_ptr(), result.len()) }
}

// The benchmark does not measure the text form.
#[allow(dead_code)]
pub fn assemble(text: &[u8], bytes: &mut [u8]) -> u64 {
    unsafe { larderlate_assemble(text.as_ptr(), text.len(), bytes.as_mut_ptr(), bytes.len()) }
}

#[allow(dead_code)]
pub fn list(bytes: &[u8], text: &mut [u8]) -> u64 {
    unsafe { larderlate_list(bytes.as_ptr(), bytes.len(), text.as_mut_ptr(), text.len()) }
}

pub fn moves(program: &[u8], schedule: &[u8], list: &mut [u8]) -> u64 {
    let (length, list) = (list.len(), list.as_mut_ptr());
    unsafe { larderlate_moves(program.as_ptr(), program.len(), schedule.as_ptr(), schedule.len(), list, length) }
}

// The benchmark does not measure it.
#[allow(dead_code)]
pub fn dependents(program: &[u8], schedule: &[u8], input: usize, marks: &mut [u8; 64]) -> u64 {
    let marks = marks.as_mut_ptr();
    unsafe { larderlate_dependents(program.as_ptr(), program.len(), schedule.as_ptr(), schedule.len(), input, marks) }
}

/// The record of a board as its words.
pub type Record = [usize; 17];

pub fn board_new() -> Record {
    let mut record = [0; 17];
    unsafe { larderlate_board_new(record.as_mut_ptr()) };
    record
}

pub fn board_load(record: &mut Record, images: &[u8], state: &mut [i32], place: usize, start: usize, size: usize) -> u64 {
    let (words, state) = (state.len(), state.as_mut_ptr());
    unsafe { larderlate_board_load(record.as_mut_ptr(), images.as_ptr(), images.len(), state, words, place, start, size) }
}

pub fn board_mark(record: &mut Record, place: usize) -> u64 {
    unsafe { larderlate_board_mark(record.as_mut_ptr(), place) }
}

pub fn board_turn(record: &mut Record, images: &[u8], state: &mut [i32], samples: &[i32], outcome: &mut [u32; 3]) -> u64 {
    let (record, outcome) = (record.as_mut_ptr(), outcome.as_mut_ptr());
    let (words, state) = (state.len(), state.as_mut_ptr());
    unsafe {
        let (images, length) = (images.as_ptr(), images.len());
        larderlate_board_turn(record, images, length, state, words, samples.as_ptr(), samples.len(), outcome)
    }
}
