//! Scorers of others' making, from the libraries that `bench/run` makes of `bench/peers`.

use std::ffi::{c_char, c_int, c_void, CStr, CString};
use std::mem::transmute;

/// A list in another's scorer.
pub struct Peer {
    scorer: *mut c_void,
    score: Score,
}

type Open = unsafe extern "C" fn(*const i32, usize) -> *mut c_void;
type Score = unsafe extern "C" fn(*mut c_void, *const u32, usize, *mut i32, *mut u8) -> i64;

extern "C" {
    fn dlopen(name: *const c_char, flags: c_int) -> *mut c_void;
    fn dlsym(library: *mut c_void, name: *const c_char) -> *mut c_void;
}

const BIND_NOW: c_int = 2;

impl Peer {
    /// Puts an accepted list into the scorer of that name.
    pub fn open(name: &str, table: &[i32]) -> Peer {
        let file = CString::new(format!("target/peers/{name}.so")).expect("a name without 0");
        // SAFETY: loading a library of bench/peers sets up its own data and runs nothing else.
        let library = unsafe { dlopen(file.as_ptr(), BIND_NOW) };
        assert!(!library.is_null(), "{file:?} does not load: bench/run makes it");
        // SAFETY: peer.h declares the function with this type, and the library stays loaded.
        let open = unsafe { transmute::<*mut c_void, Open>(symbol(library, c"peer_open")) };
        // SAFETY: the same.
        let score = unsafe { transmute::<*mut c_void, Score>(symbol(library, c"peer_score")) };
        // SAFETY: so many rows of eight numbers are lent.
        let scorer = unsafe { open(table.as_ptr(), table.len() / 8) };
        assert!(!scorer.is_null(), "{name} takes the list");
        Peer { scorer, score }
    }

    /// Scores words from start and gives the total.
    pub fn score(&mut self, words: &[u32], points: &mut [i32], lengths: &mut [u8]) -> i64 {
        assert!(points.len() == words.len() && lengths.len() == words.len());
        // SAFETY: the scorer is one that `open` gave, and each slice has as many items as there are words.
        unsafe { (self.score)(self.scorer, words.as_ptr(), words.len(), points.as_mut_ptr(), lengths.as_mut_ptr()) }
    }
}

fn symbol(library: *mut c_void, name: &CStr) -> *mut c_void {
    // SAFETY: the library is loaded.
    let found = unsafe { dlsym(library, name.as_ptr()) };
    assert!(!found.is_null(), "the library has {name:?}");
    found
}
