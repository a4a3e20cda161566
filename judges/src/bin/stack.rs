//! How much stack the operations take, measured on a painted one.
//!
//! `stack` calls every operation, for every case at a limit, every slow model, every directed or slow text or spelling, and every directed
//! load, on a thread whose stack was painted, and prints the most bytes that each one touched, the thread's own among them. It fails
//! where one touches more than a thread of 128 KB has.

#![expect(unsafe_code, reason = "a thread on a stack of our own is POSIX's to start")]

use judges::{directed_loads, directed_spellings, directed_texts, OPERATIONS};
use reasoner::random::owl::Text;
use reasoner::random::rehearsal::Load;
use reasoner::random::spelling::Spelling;
use reasoner::random::{limits, slow, Case};
use reasoner::FULL_WORK;
use std::alloc::{alloc, Layout};
use std::ffi::{c_int, c_void};
use std::hint::black_box;
use std::process::ExitCode;
use std::ptr::{null, null_mut};
use std::slice;

/// Bytes of the painted stack.
const PAINTED: usize = 1 << 20;
/// Bytes that an operation may touch.
const MOST: usize = 128 << 10;
const PAINT: u8 = 0xa5;
const PAGE: usize = 4096;

/// Threads of POSIX.
mod c {
    use std::ffi::{c_int, c_void};

    /// More than the attributes of a thread take anywhere.
    #[repr(C)]
    pub struct Attributes([u64; 32]);

    impl Attributes {
        pub const NONE: Self = Self([0; 32]);
    }

    pub type Start = extern "C" fn(*mut c_void) -> *mut c_void;

    extern "C" {
        pub fn pthread_attr_init(of: *mut Attributes) -> c_int;
        pub fn pthread_attr_setstack(of: *mut Attributes, at: *mut c_void, size: usize) -> c_int;
        pub fn pthread_create(
            thread: *mut usize,
            with: *const Attributes,
            start: Start,
            given: *mut c_void,
        ) -> c_int;
        pub fn pthread_join(thread: usize, result: *mut *mut c_void) -> c_int;
    }
}

extern "C" fn run(call: *mut c_void) -> *mut c_void {
    // SAFETY: `touched` gives the address of such a call, and waits for the thread.
    unsafe { (*call.cast::<&mut dyn FnMut()>())() };
    null_mut()
}

fn done(status: c_int) {
    assert_eq!(status, 0, "a thread");
}

/// Bytes of the stack that a call on a thread of its own touches.
fn touched(stack: &mut [u8], mut call: &mut dyn FnMut()) -> usize {
    stack.fill(PAINT);
    let mut attributes = c::Attributes::NONE;
    let mut thread = 0;
    // SAFETY: the stack and the call outlive the thread, which has ended when it is joined.
    unsafe {
        done(c::pthread_attr_init(&raw mut attributes));
        done(c::pthread_attr_setstack(&raw mut attributes, stack.as_mut_ptr().cast(), stack.len()));
        let given = (&raw mut call).cast();
        done(c::pthread_create(&raw mut thread, &raw const attributes, run, given));
        done(c::pthread_join(thread, null::<*mut c_void>().cast_mut()));
    }
    stack.len() - stack.iter().take_while(|&&byte| byte == PAINT).count()
}

/// The bytes for each operation on a case.
fn measured(stack: &mut [u8], case: &Case) -> [usize; 7] {
    let (mut work, mut out) = (vec![0; FULL_WORK], vec![0; 700_005]);
    let mut of = |call: &mut dyn FnMut(&mut [u32], &mut [u32])| {
        touched(stack, &mut || call(&mut work, &mut out))
    };
    let Case { v, p, q, m, .. } = case;
    [
        of(&mut |_, _| {
            let _ = black_box(gimbuka::read_vocabulary(v));
        }),
        of(&mut |_, _| {
            let _ = black_box(gimbuka::read_policy(v, p));
        }),
        of(&mut |_, _| {
            let _ = black_box(gimbuka::read_second_policy(v, q));
        }),
        of(&mut |work, _| {
            let _ = black_box(gimbuka::possible(v, p, work));
        }),
        of(&mut |work, out| {
            let _ = black_box(gimbuka::compliance(v, p, q, work, out));
        }),
        of(&mut |work, out| {
            let _ = black_box(gimbuka::equality(v, p, q, work, out));
        }),
        of(&mut |work, _| {
            let _ = black_box(gimbuka::model_check(v, p, q, m, work));
        }),
    ]
}

/// The bytes for reading a text.
fn measured_text(stack: &mut [u8], text: &Text) -> usize {
    let mut out = text.out();
    touched(stack, &mut || {
        let _ = black_box(gimbuka::read_owl(&text.bytes, &mut out));
    })
}

/// The bytes for the spelling of a policy.
fn measured_spelling(stack: &mut [u8], input: &Spelling) -> usize {
    let (mut work, mut out) = (input.work(), input.out());
    touched(stack, &mut || {
        let _ = black_box(gimbuka::spell(&input.v, &input.p, &mut work, &mut out));
    })
}

/// The bytes for making a load.
fn measured_load(stack: &mut [u8], load: &Load) -> usize {
    let mut out = load.out();
    touched(stack, &mut || {
        let _ = black_box(gimbuka::rehearse(load.seed, load.classes, load.terms, &mut out));
    })
}

/// The most bytes that an operation touched, and where.
#[derive(Default)]
struct Most {
    bytes: usize,
    name: String,
}

impl Most {
    fn take(&mut self, bytes: usize, name: &str) {
        if bytes > self.bytes {
            *self = Self { bytes, name: name.to_owned() };
        }
    }
}

fn main() -> ExitCode {
    let layout = Layout::from_size_align(PAINTED, PAGE).expect("a layout");
    // SAFETY: the layout is not empty; what is allocated is kept to the end, and `touched` fills it before it is read.
    let stack = unsafe {
        let start = alloc(layout);
        assert!(!start.is_null(), "memory");
        start.write_bytes(PAINT, PAINTED);
        slice::from_raw_parts_mut(start, PAINTED)
    };
    let mut on_tables: [Most; 7] = Default::default();
    for (name, case) in limits::cases().into_iter().chain(slow::model_check()) {
        for (most, bytes) in on_tables.iter_mut().zip(measured(stack, &case)) {
            most.take(bytes, name);
        }
    }
    let mut on_texts = Most::default();
    for (name, text) in directed_texts() {
        on_texts.take(measured_text(stack, &text), &name);
    }
    let mut on_spellings = Most::default();
    for (name, input) in directed_spellings() {
        on_spellings.take(measured_spelling(stack, &input), &name);
    }
    let mut on_loads = Most::default();
    for (name, load) in directed_loads() {
        on_loads.take(measured_load(stack, &load), &name);
    }
    let operations = OPERATIONS.into_iter().chain(["read_owl", "spell", "rehearse"]);
    let all: Vec<Most> = on_tables.into_iter().chain([on_texts, on_spellings, on_loads]).collect();
    for (operation, Most { bytes, name }) in operations.zip(&all) {
        println!("{operation:<20}{bytes:>8} bytes of stack: {name}");
    }
    if all.iter().any(|most| most.bytes > MOST) {
        println!("more than {MOST}");
        return ExitCode::FAILURE;
    }
    ExitCode::SUCCESS
}
