//! The library's calls as they are, over slices: each gives the eight places of its answer. Every call takes any slices at all, and
//! Rust's own rules keep a lent slice from overlapping another, so nothing is left for a caller to get wrong.

/// Number, place, the call's fields, zeros.
pub type Answer = [u64; 8];

/// A list of links as a call takes it: row r joins `a[r]` with `b[r]` by `w[r]` cables.
#[derive(Clone, Copy, Debug)]
pub struct Links<'a> {
    pub n: u32,
    pub a: &'a [u16],
    pub b: &'a [u16],
    pub w: &'a [u16],
}

/// Declares the functions of include/paltiehko.h; each ends with the answer.
macro_rules! declare {
    ($($name:ident($($arg:ident: $type:ty),*);)*) => {
        extern "C" {
            $(fn $name($($arg: $type,)* answer: *mut Answer);)*
        }
    };
}

type Short = *const u16;
type ShortMut = *mut u16;

declare! {
    paltiehko_read(src: *const u8, src_len: usize, a: ShortMut, a_len: usize, b: ShortMut, b_len: usize, w: ShortMut, w_len: usize);
    paltiehko_write(n: u32, a: Short, a_len: usize, b: Short, b_len: usize, w: Short, w_len: usize, out: *mut u8, out_len: usize);
    paltiehko_order(n: u32, a: Short, a_len: usize, b: Short, b_len: usize, w: Short, w_len: usize,
        order: ShortMut, order_len: usize, back: *mut u32, back_len: usize);
    paltiehko_forest(n: u32, a: Short, a_len: usize, b: Short, b_len: usize, w: Short, w_len: usize, first: *mut u32, first_len: usize);
    paltiehko_kept(n: u32, a: Short, a_len: usize, b: Short, b_len: usize, w: Short, w_len: usize, k: u32, kept: ShortMut, kept_len: usize);
    paltiehko_short(n: u32, a: Short, a_len: usize, b: Short, b_len: usize, w: Short, w_len: usize, k: u32,
        a2: ShortMut, a2_len: usize, b2: ShortMut, b2_len: usize, w2: ShortMut, w2_len: usize);
    paltiehko_least(n: u32, a: Short, a_len: usize, b: Short, b_len: usize, w: Short, w_len: usize);
    paltiehko_fewer(n: u32, a: Short, a_len: usize, b: Short, b_len: usize, w: Short, w_len: usize, k: u32);
    paltiehko_summary(n: u32, a: Short, a_len: usize, b: Short, b_len: usize, w: Short, w_len: usize);
    paltiehko_report(src: *const u8, src_len: usize, out: *mut u8, out_len: usize);
}

/// Calls a function with slices, each as a pointer and a length; the list of links first where there is one.
macro_rules! call {
    ($name:ident($links:ident $(, $slice:ident)*)) => {
        call!($name($links; ; $($slice),*))
    };
    ($name:ident($links:ident; $($k:ident)?; $($slice:ident),*)) => {{
        let mut answer = [0; 8];
        let Links { n, a, b, w } = $links;
        // SAFETY: every pointer stands with the length of its own slice, and the answer has eight places.
        unsafe {
            $name(n, a.as_ptr(), a.len(), b.as_ptr(), b.len(), w.as_ptr(), w.len(), $($k,)? $($slice.as_mut_ptr(), $slice.len(),)* &mut answer);
        }
        answer
    }};
}

pub fn read(src: &[u8], a: &mut [u16], b: &mut [u16], w: &mut [u16]) -> Answer {
    let mut answer = [0; 8];
    // SAFETY: every pointer stands with the length of its own slice, and the answer has eight places.
    unsafe {
        paltiehko_read(
            src.as_ptr(),
            src.len(),
            a.as_mut_ptr(),
            a.len(),
            b.as_mut_ptr(),
            b.len(),
            w.as_mut_ptr(),
            w.len(),
            &mut answer,
        );
    }
    answer
}

pub fn write(links: Links, out: &mut [u8]) -> Answer {
    call!(paltiehko_write(links, out))
}

pub fn order(links: Links, order: &mut [u16], back: &mut [u32]) -> Answer {
    call!(paltiehko_order(links, order, back))
}

pub fn forest(links: Links, first: &mut [u32]) -> Answer {
    call!(paltiehko_forest(links, first))
}

pub fn kept(links: Links, k: u32, kept: &mut [u16]) -> Answer {
    call!(paltiehko_kept(links; k; kept))
}

pub fn short(links: Links, k: u32, a2: &mut [u16], b2: &mut [u16], w2: &mut [u16]) -> Answer {
    call!(paltiehko_short(links; k; a2, b2, w2))
}

pub fn least(links: Links) -> Answer {
    call!(paltiehko_least(links))
}

pub fn fewer(links: Links, k: u32) -> Answer {
    call!(paltiehko_fewer(links; k;))
}

pub fn summary(links: Links) -> Answer {
    call!(paltiehko_summary(links))
}

pub fn report(src: &[u8], out: &mut [u8]) -> Answer {
    let mut answer = [0; 8];
    // SAFETY: as in `read`.
    unsafe {
        paltiehko_report(src.as_ptr(), src.len(), out.as_mut_ptr(), out.len(), &mut answer);
    }
    answer
}
