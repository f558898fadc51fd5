//! What the benchmark asks of the system: processor time, and the libraries
//! lz4, zstd, zfp and blosc where they are installed. They are opened when the
//! program runs, so that nothing needs to be installed to build it.

use second::bench::codec::{Setting, Value};
use second::bench::fields::{SIDE, VALUES};
use second::bench::others::Other;
use second::bench::timing::Who;
use std::ffi::{c_char, c_double, c_int, c_long, c_void, CStr};
use std::mem::transmute_copy;

extern "C" {
    fn dlopen(file: *const c_char, flags: c_int) -> *mut c_void;
    fn dlsym(library: *mut c_void, symbol: *const c_char) -> *mut c_void;
    fn clock_gettime(clock: c_int, time: *mut Timespec) -> c_int;
}

const RTLD_NOW: c_int = 2;
const CLOCK_THREAD_CPUTIME_ID: c_int = 3;

#[repr(C)]
struct Timespec {
    seconds: c_long,
    nanoseconds: c_long,
}

/// Seconds that this thread has run: the turns of other programs, which a
/// loaded machine takes, do not count.
pub fn processor_time() -> f64 {
    let mut time = Timespec { seconds: 0, nanoseconds: 0 };
    // SAFETY: the place written to is ours and has the shape of the C type.
    let failed = unsafe { clock_gettime(CLOCK_THREAD_CPUTIME_ID, &mut time) };
    assert_eq!(failed, 0, "no clock of the thread's processor time");
    time.seconds as f64 + time.nanoseconds as f64 * 1e-9
}

/// A shared library, never closed again.
#[derive(Clone, Copy)]
struct Shared(*mut c_void);

impl Shared {
    fn open(file: &CStr) -> Option<Shared> {
        // SAFETY: a string that ends with 0; the libraries opened have no
        // start-up code that asks anything of us.
        let library = unsafe { dlopen(file.as_ptr(), RTLD_NOW) };
        (!library.is_null()).then_some(Shared(library))
    }

    /// A function of the library. The caller says what type it has in C.
    ///
    /// # Safety
    /// `F` must be the type of a C function pointer, that of this symbol.
    unsafe fn function<F: Copy>(self, symbol: &CStr) -> Option<F> {
        assert_eq!(size_of::<F>(), size_of::<*mut c_void>());
        let found = dlsym(self.0, symbol.as_ptr());
        (!found.is_null()).then(|| transmute_copy(&found))
    }
}

/// A compressor that may be installed, and the Debian package it comes in.
pub struct Installable<P> {
    pub who: Who,
    pub package: &'static str,
    pub found: Option<Other<P>>,
}

pub fn installable<P: Value>() -> [Installable<P>; 4] {
    [
        Installable { who: Who::Lz4, package: "liblz4-1", found: lz4() },
        Installable { who: Who::Zstd, package: "libzstd1", found: zstd() },
        Installable { who: Who::Zfp, package: "libzfp1", found: zfp() },
        Installable { who: Who::Blosc, package: "libblosc1", found: blosc() },
    ]
}

/// The modes that a lossless compressor stands beside.
const LOSSLESS: &[u32] = &[0, 2];

// SAFETY of what follows: the types are those of the libraries' headers, and
// each pointer is handed over with the length in bytes of its slice.

fn lz4<P: Value>() -> Option<Other<P>> {
    type Compress<P> = unsafe extern "C" fn(*const P, *mut u8, c_int, c_int) -> c_int;
    type Decompress<P> = unsafe extern "C" fn(*const u8, *mut P, c_int, c_int) -> c_int;
    let library = Shared::open(c"liblz4.so.1")?;
    let compress: Compress<P> = unsafe { library.function(c"LZ4_compress_default")? };
    let decompress: Decompress<P> = unsafe { library.function(c"LZ4_decompress_safe")? };
    Some(Other {
        who: Who::Lz4,
        modes: LOSSLESS,
        room: |bytes| bytes + bytes / 255 + 16,
        pack: Box::new(move |_, values, output| {
            let (from, room) = (size_of_val(values) as c_int, output.len() as c_int);
            let used = unsafe { compress(values.as_ptr(), output.as_mut_ptr(), from, room) };
            used.max(0) as usize
        }),
        unpack: Box::new(move |_, packed, values| {
            let (from, room) = (packed.len() as c_int, size_of_val(values) as c_int);
            let used = unsafe { decompress(packed.as_ptr(), values.as_mut_ptr(), from, room) };
            used.max(0) as usize
        }),
    })
}

/// The level of zstd: its fastest of the usual ones.
const ZSTD_LEVEL: c_int = 1;

fn zstd<P: Value>() -> Option<Other<P>> {
    type Compress<P> = unsafe extern "C" fn(*mut u8, usize, *const P, usize, c_int) -> usize;
    type Decompress<P> = unsafe extern "C" fn(*mut P, usize, *const u8, usize) -> usize;
    let library = Shared::open(c"libzstd.so.1")?;
    let compress: Compress<P> = unsafe { library.function(c"ZSTD_compress")? };
    let decompress: Decompress<P> = unsafe { library.function(c"ZSTD_decompress")? };
    // An error is a length that no output has.
    let length = |answer: usize, room: usize| if answer <= room { answer } else { 0 };
    Some(Other {
        who: Who::Zstd,
        modes: LOSSLESS,
        room: |bytes| bytes + bytes / 128 + 1024,
        pack: Box::new(move |_, values, output| {
            let (from, room, to) = (size_of_val(values), output.len(), output.as_mut_ptr());
            length(unsafe { compress(to, room, values.as_ptr(), from, ZSTD_LEVEL) }, room)
        }),
        unpack: Box::new(move |_, packed, values| {
            let (room, to) = (size_of_val(values), values.as_mut_ptr());
            length(unsafe { decompress(to, room, packed.as_ptr(), packed.len()) }, room)
        }),
    })
}

type Pointer = *mut c_void;

/// The functions of zfp that are used.
#[derive(Clone, Copy)]
struct Zfp {
    field_1d: unsafe extern "C" fn(Pointer, c_int, usize) -> Pointer,
    field_2d: unsafe extern "C" fn(Pointer, c_int, usize, usize) -> Pointer,
    field_free: unsafe extern "C" fn(Pointer),
    stream_open: unsafe extern "C" fn(Pointer) -> Pointer,
    stream_close: unsafe extern "C" fn(Pointer),
    set_reversible: unsafe extern "C" fn(Pointer),
    set_accuracy: unsafe extern "C" fn(Pointer, c_double) -> c_double,
    bits_open: unsafe extern "C" fn(Pointer, usize) -> Pointer,
    bits_close: unsafe extern "C" fn(Pointer),
    set_bits: unsafe extern "C" fn(Pointer, Pointer),
    compress: unsafe extern "C" fn(Pointer, Pointer) -> usize,
    decompress: unsafe extern "C" fn(Pointer, Pointer) -> usize,
}

impl Zfp {
    fn open() -> Option<Zfp> {
        let library = Shared::open(c"libzfp.so.1")?;
        unsafe {
            Some(Zfp {
                field_1d: library.function(c"zfp_field_1d")?,
                field_2d: library.function(c"zfp_field_2d")?,
                field_free: library.function(c"zfp_field_free")?,
                stream_open: library.function(c"zfp_stream_open")?,
                stream_close: library.function(c"zfp_stream_close")?,
                set_reversible: library.function(c"zfp_stream_set_reversible")?,
                set_accuracy: library.function(c"zfp_stream_set_accuracy")?,
                bits_open: library.function(c"stream_open")?,
                bits_close: library.function(c"stream_close")?,
                set_bits: library.function(c"zfp_stream_set_bit_stream")?,
                compress: library.function(c"zfp_compress")?,
                decompress: library.function(c"zfp_decompress")?,
            })
        }
    }

    /// Compresses or decompresses a field: as many values as a model's field
    /// has are taken for its grid, others, whose shape is not told, for a row.
    ///
    /// # Safety
    /// The bytes and the values must be as many as told, and writable where
    /// the work writes.
    unsafe fn run<P: Value>(
        self,
        work: unsafe extern "C" fn(Pointer, Pointer) -> usize,
        setting: Setting,
        values: (*mut P, usize),
        bytes: (*mut u8, usize),
    ) -> usize {
        let kind = if P::W == 32 { 3 } else { 4 };
        let field = match values.1 {
            VALUES => (self.field_2d)(values.0.cast(), kind, SIDE, SIDE),
            n => (self.field_1d)(values.0.cast(), kind, n),
        };
        let bits = (self.bits_open)(bytes.0.cast(), bytes.1);
        let stream = (self.stream_open)(bits);
        if setting.mode == 1 {
            (self.set_accuracy)(stream, f64::powi(2.0, setting.k));
        } else {
            (self.set_reversible)(stream);
        }
        (self.set_bits)(stream, bits);
        let used = work(stream, field);
        (self.stream_close)(stream);
        (self.bits_close)(bits);
        (self.field_free)(field);
        used
    }
}

fn zfp<P: Value>() -> Option<Other<P>> {
    let zfp = Zfp::open()?;
    Some(Other {
        who: Who::Zfp,
        modes: &[0, 1, 2],
        // The last block of a row may be filled up.
        room: |bytes| 2 * bytes + 1024,
        pack: Box::new(move |setting, values, output| {
            let from = (values.as_ptr().cast_mut(), values.len());
            let to = (output.as_mut_ptr(), output.len());
            unsafe { zfp.run(zfp.compress, setting, from, to) }
        }),
        unpack: Box::new(move |setting, packed, values| {
            let from = (packed.as_ptr().cast_mut(), packed.len());
            let to = (values.as_mut_ptr(), values.len());
            unsafe { zfp.run(zfp.decompress, setting, to, from) }
        }),
    })
}

/// The usual level of blosc, and its shuffle of single bits.
const BLOSC_LEVEL: c_int = 5;
const BLOSC_BITSHUFFLE: c_int = 2;

/// Blosc with lz4, which cuts the values into blocks of a length that it finds
/// itself, on one thread.
fn blosc<P: Value>() -> Option<Other<P>> {
    type Compress<P> = unsafe extern "C" fn(
        c_int,
        c_int,
        usize,
        usize,
        *const P,
        *mut u8,
        usize,
        *const c_char,
        usize,
        c_int,
    ) -> c_int;
    type Decompress<P> = unsafe extern "C" fn(*const u8, *mut P, usize, c_int) -> c_int;
    let library = Shared::open(c"libblosc.so.1")?;
    let compress: Compress<P> = unsafe { library.function(c"blosc_compress_ctx")? };
    let decompress: Decompress<P> = unsafe { library.function(c"blosc_decompress_ctx")? };
    Some(Other {
        who: Who::Blosc,
        modes: LOSSLESS,
        room: |bytes| bytes + 16,
        pack: Box::new(move |_, values, output| {
            let (size, from) = (size_of::<P>(), size_of_val(values));
            let (to, room, with) = (output.as_mut_ptr(), output.len(), c"lz4".as_ptr());
            let (level, shuffle, values) = (BLOSC_LEVEL, BLOSC_BITSHUFFLE, values.as_ptr());
            let used =
                unsafe { compress(level, shuffle, size, from, values, to, room, with, 0, 1) };
            used.max(0) as usize
        }),
        unpack: Box::new(move |_, packed, values| {
            let (room, to) = (size_of_val(values), values.as_mut_ptr());
            let used = unsafe { decompress(packed.as_ptr(), to, room, 1) };
            used.max(0) as usize
        }),
    })
}
