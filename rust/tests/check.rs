//! Says of a file what `derbox check KIND` does, from Rust, over the static library `der_c`. After KIND may come the most
//! levels of nesting.
use std::io::Read;
use std::process::ExitCode;

unsafe extern "C" {
    fn der_check_word_limited(
        word: *const u8,
        word_len: usize,
        limit: u8,
        input: *const u8,
        input_len: usize,
        normal_len: *mut usize,
        place: *mut usize,
    ) -> u32;
    fn der_rewrite_word_limited(
        word: *const u8,
        word_len: usize,
        limit: u8,
        input: *const u8,
        input_len: usize,
        out: *mut u8,
        out_len: usize,
        written: *mut usize,
    ) -> u32;
}

/// The most levels of nesting that an input may have.
const MAX_NESTING: u8 = 64;

/// Why an input has no encoding, by the status of the library.
const WORDS: [&str; 13] = [
    "normal", "loose", "unknown kind", "malformed", "missing", "invalid", "too deep", "too long", "no memory", "no room",
    "no range", "no part", "bad attributes",
];

/// Whether the input is normal, and its normal encoding.
fn rewritten(kind: &str, limit: u8, input: &[u8]) -> Result<(bool, Vec<u8>), &'static str> {
    let (mut len, mut place) = (0, 0);
    // SAFETY: a slice's pointer isn't null and has its length; `len` and `place` are borrowed for the call alone
    let status = unsafe {
        der_check_word_limited(kind.as_ptr(), kind.len(), limit, input.as_ptr(), input.len(), &mut len, &mut place)
    };
    if status > 1 {
        return Err(WORDS[status as usize]);
    }
    let mut out = vec![0; len];
    let mut written = 0;
    // SAFETY: as above, and `out` is borrowed for the call alone
    let again = unsafe {
        der_rewrite_word_limited(
            kind.as_ptr(),
            kind.len(),
            limit,
            input.as_ptr(),
            input.len(),
            out.as_mut_ptr(),
            out.len(),
            &mut written,
        )
    };
    match again {
        0 if written == len => Ok((status == 0, out)),
        again => Err(WORDS[again as usize]),
    }
}

fn main() -> ExitCode {
    let mut input = Vec::new();
    let (Some(kind), Ok(_)) = (std::env::args().nth(1), std::io::stdin().read_to_end(&mut input)) else {
        return ExitCode::from(2);
    };
    let Ok(limit) = std::env::args().nth(2).map_or(Ok(MAX_NESTING), |word| word.parse()) else {
        return ExitCode::from(2);
    };
    match rewritten(&kind, limit, &input) {
        Ok((is_normal, text)) if is_normal != (text == input) => ExitCode::from(4),
        Ok((true, _)) => {
            println!("normal {}", input.len());
            ExitCode::SUCCESS
        }
        Ok((false, text)) => {
            println!("loose {} -> {}", input.len(), text.len());
            ExitCode::from(3)
        }
        Err(word) => {
            println!("refused: {word}");
            ExitCode::from(1)
        }
    }
}
