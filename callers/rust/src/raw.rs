//! The exported functions of the archive. Nothing checks these declarations against its source: `crates/jorehyi` has
//! it.

/// The words of a session's result: code, lines, bytes, count, and three for each of sixteen registers.
pub const SESSION_WORDS: usize = 52;

/// The words of a verdict's result: code, bytes.
pub const VERDICT_WORDS: usize = 2;

/// Text, store, cache, output and result, each as a pointer and a number of elements.
type Call = unsafe extern "C" fn(
    *const u8,
    usize,
    *mut u8,
    usize,
    *mut u64,
    usize,
    *mut u8,
    usize,
    *mut u64,
    usize,
) -> bool;

extern "C" {
    fn jorehyi_session(
        text: *const u8,
        text_len: usize,
        store: *mut u8,
        store_len: usize,
        cache: *mut u64,
        cache_len: usize,
        out: *mut u8,
        out_len: usize,
        result: *mut u64,
        result_len: usize,
    ) -> bool;

    fn jorehyi_verdict(
        text: *const u8,
        text_len: usize,
        store: *mut u8,
        store_len: usize,
        cache: *mut u64,
        cache_len: usize,
        out: *mut u8,
        out_len: usize,
        result: *mut u64,
        result_len: usize,
    ) -> bool;
}

fn lend<const WORDS: usize>(
    call: Call,
    text: &[u8],
    store: &mut [u8],
    cache: &mut [u64],
    out: &mut [u8],
) -> [u64; WORDS] {
    let mut result = [0; WORDS];
    // SAFETY: `call` is one of the two above. Each pointer and length comes from one slice reference, which is what
    // they ask for: not null, aligned, initialised, valid for its whole length of at most isize::MAX bytes, and, being
    // exclusive where it is written, apart from every other and touched by nobody else during the call. They have no
    // other precondition.
    let done = unsafe {
        call(
            text.as_ptr(),
            text.len(),
            store.as_mut_ptr(),
            store.len(),
            cache.as_mut_ptr(),
            cache.len(),
            out.as_mut_ptr(),
            out.len(),
            result.as_mut_ptr(),
            result.len(),
        )
    };
    assert!(done, "the result has room for every word");
    result
}

pub fn session(
    text: &[u8],
    store: &mut [u8],
    cache: &mut [u64],
    out: &mut [u8],
) -> [u64; SESSION_WORDS] {
    lend(jorehyi_session, text, store, cache, out)
}

pub fn verdict(
    text: &[u8],
    store: &mut [u8],
    cache: &mut [u64],
    out: &mut [u8],
) -> [u64; VERDICT_WORDS] {
    lend(jorehyi_verdict, text, store, cache, out)
}
