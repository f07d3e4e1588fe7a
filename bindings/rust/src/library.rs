//! The shared object, which is loaded at run time.

use crate::sys::{self, Functions};
use std::ffi::{CStr, CString};
use std::os::raw::{c_char, c_int, c_void};
use std::sync::atomic::{AtomicPtr, Ordering};
use std::{env, fmt, ptr};

#[link(name = "dl")]
extern "C" {
    fn dlopen(path: *const c_char, flags: c_int) -> *mut c_void;
    fn dlsym(library: *mut c_void, name: *const c_char) -> *mut c_void;
    fn dlerror() -> *mut c_char;
}

const RTLD_NOW: c_int = 2;

/// Why the shared object can't be used. Its text names the path that was looked for, and says what to do.
#[derive(Clone, Debug, PartialEq, Eq)]
pub struct LoadError {
    /// The path that was looked for.
    pub path: String,
    why: String,
}

impl fmt::Display for LoadError {
    fn fmt(&self, f: &mut fmt::Formatter<'_>) -> fmt::Result {
        write!(f, "{}: {}: {}; {}", self.path, self.why, sys::HOW_TO_MAKE_IT, sys::ANOTHER)
    }
}

impl std::error::Error for LoadError {}

/// A shared object that was loaded. It is never unloaded.
#[derive(Clone)]
pub struct Library {
    /// The path by which it was loaded.
    pub path: String,
    /// Its functions, as C has them.
    pub functions: Functions,
    /// Its version, the commit and the sum of the kit's logic that it was built of, and `proved` or `unproved`.
    pub build: String,
    /// Its version, as `0.1.0`.
    pub version: String,
    /// Whether it was built of sources that were proved.
    pub is_proved: bool,
}

impl fmt::Debug for Library {
    fn fmt(&self, f: &mut fmt::Formatter<'_>) -> fmt::Result {
        f.debug_struct("Library").field("path", &self.path).field("build", &self.build).finish()
    }
}

fn said(text: *const c_char) -> String {
    if text.is_null() {
        return String::from("it can't be loaded");
    }
    // SAFETY: the text isn't null, ends with a 0, and is copied before another call may change it.
    unsafe { CStr::from_ptr(text) }.to_string_lossy().into_owned()
}

impl Library {
    /// Loads a shared object.
    ///
    /// # Errors
    ///
    /// If there is none at this path, or it has another interface.
    ///
    /// ```
    /// let error = palqytun::Library::open("/nowhere/libpalqytun.so").unwrap_err();
    /// assert!(error.to_string().starts_with("/nowhere/libpalqytun.so: "));
    /// assert!(error.to_string().contains("./bindings/build makes it"));
    /// ```
    pub fn open(path: &str) -> Result<Library, LoadError> {
        let refused = |why: String| LoadError { path: path.to_string(), why };
        let name = CString::new(path).map_err(|_| refused(String::from("a path has no NUL")))?;
        // SAFETY: the name ends with a 0. The object's initialisers are trusted as the object is.
        let object = unsafe { dlopen(name.as_ptr(), RTLD_NOW) };
        if object.is_null() {
            // SAFETY: it is of this thread, and copied at once.
            let why = said(unsafe { dlerror() });
            return Err(refused(why.strip_prefix(&format!("{}: ", path)).unwrap_or(&why).to_string()));
        }
        // SAFETY: each name ends with a 0, and the object is never unloaded.
        let address = |name: &'static str| unsafe { dlsym(object, name.as_ptr().cast()) };
        check_abi(address("palqytun_abi\0")).map_err(refused)?;
        // SAFETY: the object has this interface, so each of its functions has the type that `sys` gives it.
        let functions = unsafe { Functions::find(address) }
            .map_err(|name| refused(format!("it has no {}", name.trim_end_matches('\0'))))?;
        // SAFETY: these may be called at any time, and return texts of the library's own.
        let (build, version, is_proved) =
            unsafe { (said((functions.build)()), said((functions.version)()), (functions.is_proved)()) };
        Ok(Library { path: path.to_string(), functions, build, version, is_proved })
    }
}

fn check_abi(address: *mut c_void) -> Result<(), String> {
    let found = if address.is_null() {
        String::from("no number")
    } else {
        // SAFETY: in each library that has a function of this name, it takes nothing and returns a number.
        let number = unsafe { std::mem::transmute::<*mut c_void, extern "C" fn() -> u32>(address) }();
        if number == sys::ABI {
            return Ok(());
        }
        format!("the number {}", number)
    };
    Err(format!("its interface has {}, and this crate wants {}", found, sys::ABI))
}

static LOADED: AtomicPtr<Library> = AtomicPtr::new(ptr::null_mut());

/// The shared object, loaded once: the file that the environment variable `PALQYTUN_LIBRARY` names, or the one that the system finds as
/// `libpalqytun.so.1`. The first VM or journal loads it.
///
/// # Errors
///
/// As those of [`Library::open`]; the next call tries again.
pub fn library() -> Result<&'static Library, LoadError> {
    let found = LOADED.load(Ordering::Acquire);
    if !found.is_null() {
        // SAFETY: what was stored there is never freed or changed.
        return Ok(unsafe { &*found });
    }
    let path = env::var("PALQYTUN_LIBRARY").ok().filter(|it| !it.is_empty());
    let made = Box::into_raw(Box::new(Library::open(path.as_deref().unwrap_or(sys::LIBRARY))?));
    match LOADED.compare_exchange(ptr::null_mut(), made, Ordering::AcqRel, Ordering::Acquire) {
        // SAFETY: it is there from now on.
        Ok(_) => Ok(unsafe { &*made }),
        Err(other) => {
            // SAFETY: nobody else has seen `made`, and `other` is never freed.
            drop(unsafe { Box::from_raw(made) });
            Ok(unsafe { &*other })
        }
    }
}
