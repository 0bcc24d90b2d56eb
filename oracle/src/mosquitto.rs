//! A second judge of matching, from outside: `mosquitto_topic_matches_sub` of libmosquitto (Debian's package libmosquitto1).
//!
//! It is loaded where it is there; it judges pairs of a valid filter and a valid name.

use std::ffi::{c_char, c_int, c_void, CString};
use std::mem;
use std::sync::OnceLock;

use crate::answers::{Answer, TextAnswers};
use crate::compare::{Difference, Judge};

extern "C" {
    fn dlopen(name: *const c_char, flags: c_int) -> *mut c_void;
    fn dlsym(library: *mut c_void, name: *const c_char) -> *mut c_void;
}

const NOW: c_int = 2;

type Matches = unsafe extern "C" fn(*const c_char, *const c_char, *mut bool) -> c_int;

pub struct Mosquitto(Matches);

impl Mosquitto {
    fn load() -> Option<Self> {
        // SAFETY: both names end with 0; the function has this type since version 1 of the library.
        unsafe {
            let library = dlopen(c"libmosquitto.so.1".as_ptr(), NOW);
            if library.is_null() {
                return None;
            }
            let found = dlsym(library, c"mosquitto_topic_matches_sub".as_ptr());
            (!found.is_null()).then(|| Mosquitto(mem::transmute::<*mut c_void, Matches>(found)))
        }
    }

    /// What it answers about a valid pair.
    fn takes(&self, filter: &[u8], name: &[u8]) -> Option<bool> {
        let (filter, name) = (CString::new(filter).ok()?, CString::new(name).ok()?);
        let mut takes = false;
        // SAFETY: both texts end with 0, and `takes` outlives the call.
        let error = unsafe { (self.0)(filter.as_ptr(), name.as_ptr(), &mut takes) };
        (error == 0).then_some(takes)
    }
}

/// The judge, or none where the library is not installed.
pub fn judge() -> Option<&'static Mosquitto> {
    static LOADED: OnceLock<Option<Mosquitto>> = OnceLock::new();
    LOADED.get_or_init(Mosquitto::load).as_ref()
}

impl Judge for Mosquitto {
    fn text(&self, _: &[u8], _: &TextAnswers) -> Option<Difference> {
        None
    }

    fn pair(&self, filter: &[u8], name: &[u8], found: Answer) -> Option<Difference> {
        let takes = u64::from(found.is_ok().then(|| self.takes(filter, name)).flatten()?);
        Difference::unless(found == Ok(takes), ("mosquitto", "matches"), &found, || {
            takes.to_string()
        })
    }
}
