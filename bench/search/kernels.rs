//! The proved search, as `kernel.txt` exports it: built for x86-64-v2 and for x86-64-v3.

#[repr(C)]
#[derive(Clone, Copy, PartialEq, Eq, Debug)]
pub struct Found {
    pub score: i32,
    pub choice: u8,
    pub visited: u64,
}

pub const INF: i32 = 200_000;
pub const NONE: u8 = 65;

pub type Kernel = unsafe extern "C" fn(u64, u64, u8, i32, i32, *mut Found);

unsafe extern "C" {
    pub fn kernel_search(own: u64, opp: u64, depth: u8, alpha: i32, beta: i32, found: *mut Found);
    pub fn kernel_search_v3(own: u64, opp: u64, depth: u8, alpha: i32, beta: i32, found: *mut Found);
}

/// What a kernel finds through a window.
pub fn through(kernel: Kernel, own: u64, opp: u64, depth: u8, alpha: i32, beta: i32) -> Found {
    let mut found = Found { score: 0, choice: NONE, visited: 0 };
    unsafe { kernel(own, opp, depth, alpha, beta, &mut found) };
    found
}

/// Whether the processor runs what is built for x86-64-v3.
pub fn has_v3() -> bool {
    is_x86_feature_detected!("avx2")
        && is_x86_feature_detected!("bmi1")
        && is_x86_feature_detected!("bmi2")
        && is_x86_feature_detected!("fma")
        && is_x86_feature_detected!("lzcnt")
        && is_x86_feature_detected!("movbe")
}
