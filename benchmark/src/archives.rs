//! The functions of archives. Each archive is made a shared object by the C
//! compiler, so that several can be called in one process.

use cuckooormolu::raw::Record;
use std::ffi::{c_char, c_int, c_void, CString};
use std::mem::transmute;
use std::path::{Path, PathBuf};
use std::process::Command;
use std::sync::atomic::{AtomicUsize, Ordering};

type Check = unsafe extern "C" fn(*const u16, usize, *const u64, usize) -> usize;
type Look = unsafe extern "C" fn(
    *const u16,
    usize,
    *const u64,
    usize,
    *const u64,
    usize,
    usize,
    usize,
    usize,
) -> usize;
type Request = unsafe extern "C" fn(
    *const u16,
    usize,
    *mut u64,
    usize,
    *mut u64,
    usize,
    usize,
    usize,
    usize,
) -> usize;
type SetList = unsafe extern "C" fn(
    *const u16,
    usize,
    *mut u64,
    usize,
    *mut u64,
    usize,
    *mut Record,
    usize,
    *mut usize,
) -> usize;
type Revise = unsafe extern "C" fn(
    *const u16,
    usize,
    *const u64,
    usize,
    *const u16,
    usize,
    *mut u64,
    usize,
) -> usize;
type Open = unsafe extern "C" fn(*const u16, usize, *mut u64, usize) -> usize;
type Read =
    unsafe extern "C" fn(*const u8, usize, *mut u16, usize, *mut u64, usize, *mut usize) -> usize;
type Write =
    unsafe extern "C" fn(*const u16, usize, *const u64, usize, *mut u8, usize, *mut usize) -> usize;

extern "C" {
    fn dlopen(name: *const c_char, flags: c_int) -> *mut c_void;
    fn dlsym(handle: *mut c_void, name: *const c_char) -> *mut c_void;
}

/// The words of scratch that every archive is lent: those before 0.13 need so many.
pub const SCRATCH: usize = 2_048;

/// Resolve every symbol at once.
const RTLD_NOW: c_int = 2;

/// The archive that is built, as the binding finds it.
pub fn built() -> PathBuf {
    let default = Path::new(env!("CARGO_MANIFEST_DIR")).join("../target/staticlib");
    std::env::var_os("CUCKOOORMOLU_LIB").map_or(default, PathBuf::from).join("libcuckooormolu.a")
}

/// Whether a code says that a reading or writing is done; 0 is that of an
/// archive before 0.2.
pub fn is_done(code: usize) -> bool {
    code == 100 || code == 0
}

/// Whether a code says that a request is granted; 0 is that of an archive
/// before 0.2.
pub fn is_granted(code: usize) -> bool {
    code == 300 || code == 0
}

/// The functions of an archive.
pub struct Archive {
    check: Check,
    look: Look,
    request: Request,
    /// An archive before 0.5 has none.
    set_list: Option<SetList>,
    open: Open,
    read: Read,
    write: Write,
    /// None in an archive before 0.6.
    store: Option<Write>,
    /// None in an archive before 0.10.
    revise: Option<Revise>,
}

impl Archive {
    /// Opens an archive several times, its code at another place in the cache
    /// line each time: where loops fall is worth some percent.
    pub fn open(path: &Path) -> [Archive; 4] {
        [0, 16, 32, 48].map(|pad| Archive::open_at(path, pad))
    }

    fn open_at(path: &Path, pad: usize) -> Archive {
        static OPENED: AtomicUsize = AtomicUsize::new(0);
        let number = OPENED.fetch_add(1, Ordering::Relaxed);
        let name = format!("benchmark-{}-{number}", std::process::id());
        let object = std::env::temp_dir().join(format!("{name}.so"));
        let source = std::env::temp_dir().join(format!("{name}.s"));
        let text = format!(
            ".section .note.GNU-stack,\"\",@progbits\n.text\n.balign 64\n.skip {}\n",
            64 + pad
        );
        std::fs::write(&source, text).expect("the source is written");
        let mut link = Command::new(std::env::var_os("CC").unwrap_or("cc".into()));
        link.args(["-shared", "-Wl,-Bsymbolic"]).arg(&source).arg("-Wl,--whole-archive");
        link.arg(path).arg("-Wl,--no-whole-archive").arg("-o").arg(&object);
        assert!(link.status().is_ok_and(|status| status.success()), "{}", path.display());
        std::fs::remove_file(&source).expect("the source was written");
        let name = CString::new(object.as_os_str().as_encoded_bytes()).expect("a path");
        let handle = unsafe { dlopen(name.as_ptr(), RTLD_NOW) };
        assert!(!handle.is_null(), "{} cannot be opened", object.display());
        std::fs::remove_file(&object).expect("the object was written");
        let found = |name: &str| {
            // An archive before 0.2 has the second name.
            let names = [format!("cuckooormolu_raw_{name}"), format!("cuckooormolu_{name}")];
            let find = |name: &String| {
                let name = CString::new(name.as_str()).expect("a name");
                unsafe { dlsym(handle, name.as_ptr()) }
            };
            names.iter().map(find).find(|symbol| !symbol.is_null())
        };
        let symbol =
            |name: &str| found(name).unwrap_or_else(|| panic!("{} has no {name}", path.display()));
        // Safety: the archive's functions have these types.
        unsafe {
            Archive {
                check: transmute::<*mut c_void, Check>(symbol("check")),
                look: transmute::<*mut c_void, Look>(symbol("look")),
                request: transmute::<*mut c_void, Request>(symbol("request")),
                set_list: found("set_list").map(|symbol| transmute::<*mut c_void, SetList>(symbol)),
                open: transmute::<*mut c_void, Open>(symbol("open")),
                read: transmute::<*mut c_void, Read>(symbol("read")),
                write: transmute::<*mut c_void, Write>(symbol("write")),
                store: found("store").map(|store| transmute::<*mut c_void, Write>(store)),
                revise: found("revise").map(|revise| transmute::<*mut c_void, Revise>(revise)),
            }
        }
    }

    // Safety, here and below: a slice is valid for its length, a mutable one is
    // no other's, and the library keeps within the lengths it is given.

    pub fn check(&self, terms: &[u16], state: &[u64]) -> usize {
        unsafe { (self.check)(terms.as_ptr(), terms.len(), state.as_ptr(), state.len()) }
    }

    pub fn look(&self, terms: &[u16], state: &[u64], scratch: &[u64], call: [usize; 3]) -> usize {
        let [event, from, to] = call;
        let (words, lent) = (terms.as_ptr(), scratch.as_ptr());
        let (state, length) = (state.as_ptr(), state.len());
        unsafe {
            (self.look)(words, terms.len(), state, length, lent, scratch.len(), event, from, to)
        }
    }

    pub fn request(
        &self,
        terms: &[u16],
        state: &mut [u64],
        scratch: &mut [u64],
        call: [usize; 3],
    ) -> usize {
        let [event, from, to] = call;
        let (words, lent) = (terms.as_ptr(), scratch.as_mut_ptr());
        let (state, length) = (state.as_mut_ptr(), state.len());
        unsafe {
            (self.request)(words, terms.len(), state, length, lent, scratch.len(), event, from, to)
        }
    }

    /// The code of a set list, where the archive has them.
    pub fn set_list(
        &self,
        terms: &[u16],
        state: &mut [u64],
        scratch: &mut [u64],
        records: &mut [Record],
    ) -> Option<usize> {
        let (words, lent) = (terms.as_ptr(), scratch.as_mut_ptr());
        let (state, length) = (state.as_mut_ptr(), state.len());
        let (list, count) = (records.as_mut_ptr(), records.len());
        self.set_list.map(|call| unsafe {
            call(words, terms.len(), state, length, lent, scratch.len(), list, count, &mut 0)
        })
    }

    /// Makes moment 0 of the relations in a state.
    pub fn start(&self, terms: &[u16], state: &mut [u64]) -> usize {
        unsafe { (self.open)(terms.as_ptr(), terms.len(), state.as_mut_ptr(), state.len()) }
    }

    pub fn read(&self, text: &[u8], terms: &mut [u16], state: &mut [u64]) -> usize {
        let (words, count) = (terms.as_mut_ptr(), terms.len());
        let (state, length) = (state.as_mut_ptr(), state.len());
        unsafe { (self.read)(text.as_ptr(), text.len(), words, count, state, length, &mut 0) }
    }

    pub fn write(&self, terms: &[u16], state: &[u64], output: &mut [u8]) -> usize {
        let (words, count) = (terms.as_ptr(), terms.len());
        let (bytes, room) = (output.as_mut_ptr(), output.len());
        unsafe { (self.write)(words, count, state.as_ptr(), state.len(), bytes, room, &mut 0) }
    }

    /// Writes the stored form, where the archive knows it.
    pub fn store(&self, terms: &[u16], state: &[u64], output: &mut [u8]) -> Option<usize> {
        let (words, count) = (terms.as_ptr(), terms.len());
        let (bytes, room) = (output.as_mut_ptr(), output.len());
        let store = self.store?;
        Some(unsafe { store(words, count, state.as_ptr(), state.len(), bytes, room, &mut 0) })
    }

    /// Revises terms to others, where the archive can.
    pub fn revise(
        &self,
        (old, state): (&[u16], &[u64]),
        (new, second): (&[u16], &mut [u64]),
    ) -> Option<usize> {
        let (words, count) = (old.as_ptr(), old.len());
        let (bits, length) = (state.as_ptr(), state.len());
        let (others, number) = (new.as_ptr(), new.len());
        let (filled, room) = (second.as_mut_ptr(), second.len());
        self.revise
            .map(|call| unsafe { call(words, count, bits, length, others, number, filled, room) })
    }
}
