//! A shared object that is loaded while the benchmark runs.

#![allow(unsafe_code)]

use std::ffi::{c_char, c_int, c_void, CStr, CString};
use std::os::unix::ffi::OsStrExt;
use std::path::Path;

extern "C" {
    fn dlopen(file: *const c_char, mode: c_int) -> *mut c_void;
    fn dlsym(object: *mut c_void, name: *const c_char) -> *mut c_void;
    fn dlerror() -> *mut c_char;
}

/// Everything that the object needs is looked for when it is loaded, and what it
/// defines is for nobody else: so several objects do not come in each other's way,
/// nor in that of the linked one.
const NOW_AND_LOCAL: c_int = 2;

/// An object, which stays loaded.
pub struct Object(*mut c_void);

impl Object {
    /// Loads an object, or says why it cannot be loaded. What it does then is up to
    /// whoever names the file.
    pub fn load(file: &Path) -> Result<Object, String> {
        let told = |error: &dyn ToString| format!("{}: {}", file.display(), error.to_string());
        // Without a slash in its name the system would look for it elsewhere.
        let whole = file.canonicalize().map_err(|error| told(&error))?;
        let name = CString::new(whole.as_os_str().as_bytes()).map_err(|error| told(&error))?;
        // SAFETY: the name ends with a zero. What the object does when it is
        // loaded is up to whoever names it.
        let object = unsafe { dlopen(name.as_ptr(), NOW_AND_LOCAL) };
        some(object).map(Object)
    }

    /// The address of a function in it.
    pub fn find(&self, name: &CStr) -> Result<*mut c_void, String> {
        // SAFETY: the object is loaded, and the name ends with a zero.
        some(unsafe { dlsym(self.0, name.as_ptr()) })
    }
}

/// An address, unless the last call failed.
fn some(address: *mut c_void) -> Result<*mut c_void, String> {
    match address.is_null() {
        true => Err(failure()),
        false => Ok(address),
    }
}

/// Why the last call failed.
fn failure() -> String {
    // SAFETY: where there is a message, it ends with a zero, and it stays until
    // the next failure.
    let words = unsafe {
        let message = dlerror();
        (!message.is_null()).then(|| CStr::from_ptr(message).to_string_lossy().into_owned())
    };
    words.unwrap_or("the object cannot be loaded".to_string())
}
