//! The desk's exported functions, as include/desk.h declares them, each behind a safe function that takes slices: a slice goes over as its pointer and its length, and
//! lends what it says, so nothing of what the functions ask of a C caller is left to ask.

/// Declares exported functions. Each begins with a task: its row of counts and its tables.
macro_rules! of_a_task {
    ($($function:ident($($word:ident: $kind:ty),*);)*) => {
        #[link(name = "desk_c", kind = "static")]
        extern "C" {
            $(fn $function(
                counts: *const u32, counts_len: usize,
                facts: *const u8, facts_len: usize, costs: *const u32, costs_len: usize, shares: *const u32, shares_len: usize
                $(, $word: $kind)*
            ) -> u64;)*
        }
    };
}

of_a_task! {
    desk_write(buffer: *mut u8, buffer_len: usize);
    desk_check();
    desk_distances(map: u32, out: *mut u32, out_len: usize, best: *mut u8, best_len: usize);
    desk_distance_at(map: u32, state: *const u8, state_len: usize);
    desk_best_at(map: u32, state: *const u8, state_len: usize);
    desk_bound(state: *const u8, state_len: usize);
    desk_judge(state: *const u8, state_len: usize, list: *const u32, list_len: usize);
    desk_cheaper(state: *const u8, state_len: usize, a: *const u32, a_len: usize, b: *const u32, b_len: usize);
    desk_opening(state: *const u8, state_len: usize, a: *const u32, a_len: usize, b: *const u32, b_len: usize);
    desk_begin(start: *const u8, start_len: usize, bytes: *mut u8, bytes_len: usize, words: *mut u32, words_len: usize);
    desk_offer(bytes: *mut u8, bytes_len: usize, words: *mut u32, words_len: usize, number: u32, op: u32);
}

extern "C" {
    fn desk_read(
        text: *const u8,
        text_len: usize,
        counts: *mut u32,
        counts_len: usize,
        facts: *mut u8,
        facts_len: usize,
        costs: *mut u32,
        costs_len: usize,
        shares: *mut u32,
        shares_len: usize,
    ) -> u64;
    fn desk_begin_text(text: *mut u32, text_len: usize) -> u64;
    fn desk_take_piece(text: *mut u32, text_len: usize, area: *mut u8, area_len: usize, piece: *const u8, piece_len: usize) -> u64;
    fn desk_end_text(
        text: *mut u32,
        text_len: usize,
        area: *const u8,
        area_len: usize,
        counts: *mut u32,
        counts_len: usize,
        facts: *mut u8,
        facts_len: usize,
        costs: *mut u32,
        costs_len: usize,
        shares: *mut u32,
        shares_len: usize,
    ) -> u64;
}

/// A task's row of counts and its tables, lent for reading.
#[derive(Clone, Copy)]
pub struct Lent<'a> {
    pub counts: &'a [u32],
    pub facts: &'a [u8],
    pub costs: &'a [u32],
    pub shares: &'a [u32],
}

/// Calls an exported function with a lent task, and then with the other words.
macro_rules! call {
    ($function:ident, $task:expr $(, $word:expr)*) => {{
        let t: Lent<'_> = $task;
        // The slices lend the places that their lengths count, and Rust lets no part that is written overlap another.
        unsafe {
            $function(
                t.counts.as_ptr(),
                t.counts.len(),
                t.facts.as_ptr(),
                t.facts.len(),
                t.costs.as_ptr(),
                t.costs.len(),
                t.shares.as_ptr(),
                t.shares.len()
                $(, $word)*
            )
        }
    }};
}

pub fn read(text: &[u8], counts: &mut [u32], facts: &mut [u8], costs: &mut [u32], shares: &mut [u32]) -> u64 {
    // As for `call!`.
    unsafe {
        desk_read(
            text.as_ptr(),
            text.len(),
            counts.as_mut_ptr(),
            counts.len(),
            facts.as_mut_ptr(),
            facts.len(),
            costs.as_mut_ptr(),
            costs.len(),
            shares.as_mut_ptr(),
            shares.len(),
        )
    }
}

pub fn begin_text(text: &mut [u32]) -> u64 {
    // As for `call!`, and below too.
    unsafe { desk_begin_text(text.as_mut_ptr(), text.len()) }
}

pub fn take_piece(text: &mut [u32], area: &mut [u8], piece: &[u8]) -> u64 {
    unsafe { desk_take_piece(text.as_mut_ptr(), text.len(), area.as_mut_ptr(), area.len(), piece.as_ptr(), piece.len()) }
}

pub fn end_text(text: &mut [u32], area: &[u8], counts: &mut [u32], facts: &mut [u8], costs: &mut [u32], shares: &mut [u32]) -> u64 {
    unsafe {
        desk_end_text(
            text.as_mut_ptr(),
            text.len(),
            area.as_ptr(),
            area.len(),
            counts.as_mut_ptr(),
            counts.len(),
            facts.as_mut_ptr(),
            facts.len(),
            costs.as_mut_ptr(),
            costs.len(),
            shares.as_mut_ptr(),
            shares.len(),
        )
    }
}

pub fn write(task: Lent<'_>, buffer: &mut [u8]) -> u64 {
    call!(desk_write, task, buffer.as_mut_ptr(), buffer.len())
}

pub fn check(task: Lent<'_>) -> u64 {
    call!(desk_check, task)
}

pub fn distances(task: Lent<'_>, map: u32, out: &mut [u32], best: &mut [u8]) -> u64 {
    call!(desk_distances, task, map, out.as_mut_ptr(), out.len(), best.as_mut_ptr(), best.len())
}

pub fn distance_at(task: Lent<'_>, map: u32, state: &[u8]) -> u64 {
    call!(desk_distance_at, task, map, state.as_ptr(), state.len())
}

pub fn best_at(task: Lent<'_>, map: u32, state: &[u8]) -> u64 {
    call!(desk_best_at, task, map, state.as_ptr(), state.len())
}

pub fn bound(task: Lent<'_>, state: &[u8]) -> u64 {
    call!(desk_bound, task, state.as_ptr(), state.len())
}

pub fn judge(task: Lent<'_>, state: &[u8], list: &[u32]) -> u64 {
    call!(desk_judge, task, state.as_ptr(), state.len(), list.as_ptr(), list.len())
}

pub fn cheaper(task: Lent<'_>, state: &[u8], a: &[u32], b: &[u32]) -> u64 {
    call!(desk_cheaper, task, state.as_ptr(), state.len(), a.as_ptr(), a.len(), b.as_ptr(), b.len())
}

pub fn opening(task: Lent<'_>, state: &[u8], a: &[u32], b: &[u32]) -> u64 {
    call!(desk_opening, task, state.as_ptr(), state.len(), a.as_ptr(), a.len(), b.as_ptr(), b.len())
}

pub fn begin(task: Lent<'_>, start: &[u8], bytes: &mut [u8], words: &mut [u32]) -> u64 {
    call!(desk_begin, task, start.as_ptr(), start.len(), bytes.as_mut_ptr(), bytes.len(), words.as_mut_ptr(), words.len())
}

pub fn offer(task: Lent<'_>, bytes: &mut [u8], words: &mut [u32], number: u32, op: u32) -> u64 {
    call!(desk_offer, task, bytes.as_mut_ptr(), bytes.len(), words.as_mut_ptr(), words.len(), number, op)
}
