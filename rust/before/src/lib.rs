//! The library as it was before a change, loaded beside the one that is linked: what a change must leave as it was is
//! compared with it, and timed beside it.
//!
//! The library of before is a shared library, made from the archive of an older commit, in a folder whose path begins at the
//! root:
//!
//! ```text
//! git show COMMIT:prebuilt/x86_64-linux/libbackbone.a > older.a
//! tools/shared-library FOLDER older.a
//! export BACKBONE_BEFORE=FOLDER/libbackbone.so.0
//! ```

// The archive comes with this crate; none of its Rust functions is called here.
extern crate backbone as _;

use std::ffi::{c_char, c_int, c_void, CStr, CString};

/// Names the shared library of before.
pub const VARIABLE: &str = "BACKBONE_BEFORE";

/// What the judge gives, as in the C interface.
#[repr(C)]
#[derive(Clone, Copy, Debug, PartialEq, Eq)]
pub struct Verdict {
    pub refusal: u8,
    pub rule: u8,
}

type Judge = unsafe extern "C" fn(*const u32, usize) -> Verdict;

extern "C" {
    fn backbone_judge(stored: *const u32, len: usize) -> Verdict;
    fn dlopen(path: *const c_char, flags: c_int) -> *mut c_void;
    fn dlsym(library: *mut c_void, name: *const c_char) -> *mut c_void;
    fn dlerror() -> *const c_char;
}

/// All symbols are looked up at once.
const RTLD_NOW: c_int = 2;
/// No symbol of the library is seen by others.
const RTLD_LOCAL: c_int = 0;

/// One of the two libraries, called in the same way.
pub struct Library {
    judge: Judge,
}

impl Library {
    /// The library that is linked.
    pub fn linked() -> Library {
        Library { judge: backbone_judge }
    }

    /// The library of before, or why there is none. It is never unloaded.
    pub fn before() -> Result<Library, String> {
        let path = std::env::var(VARIABLE).map_err(|_| {
            format!("{VARIABLE} does not name the shared library of before: see rust/before/src/lib.rs")
        })?;
        Library::load(&path).map_err(|why| format!("{VARIABLE}: {why}"))
    }

    fn load(path: &str) -> Result<Library, String> {
        let path = CString::new(path).map_err(|_| "a path has no byte 0".to_string())?;
        // SAFETY: both strings end with a byte 0. The library that the caller names runs no code when it is loaded.
        let symbol = unsafe {
            let library = dlopen(path.as_ptr(), RTLD_NOW | RTLD_LOCAL);
            if library.is_null() {
                return Err(last_error());
            }
            dlsym(library, c"backbone_judge".as_ptr())
        };
        if symbol.is_null() {
            return Err(last_error());
        }
        // SAFETY: the C interface has had this function, of this type, since its first version.
        Ok(Library { judge: unsafe { std::mem::transmute::<*mut c_void, Judge>(symbol) } })
    }

    /// The verdict on a stored sheet, with the rule beside a refusal too.
    #[inline]
    pub fn judge(&self, stored: &[u32]) -> Verdict {
        // SAFETY: the pointer and the length are those of a slice, which the library only reads.
        unsafe { (self.judge)(stored.as_ptr(), stored.len()) }
    }
}

/// Why the loader failed.
fn last_error() -> String {
    // SAFETY: the loader gives null or a string that stays until its next call.
    let message = unsafe {
        let message = dlerror();
        if message.is_null() {
            return "the loader does not say why it failed".to_string();
        }
        CStr::from_ptr(message)
    };
    message.to_string_lossy().into_owned()
}
