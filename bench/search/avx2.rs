//! Peers for a processor with AVX2: moves and flips in four lanes of 64 bits, one direction and its opposite each.
#![allow(clippy::all, unused_unsafe)]
use crate::vectors::weigh;
const A: u64 = 0x7e7e7e7e7e7e7e7e;
use std::arch::x86_64::*;

#[inline] #[target_feature(enable = "avx2,bmi1,bmi2,lzcnt,movbe,popcnt")] pub fn moves(own: u64, opp: u64) -> u64 { unsafe {
    let sh = _mm256_set_epi64x(7, 9, 8, 1); let sh2 = _mm256_set_epi64x(14, 18, 16, 2);
    let p = _mm256_set1_epi64x(own as i64);
    let o = _mm256_and_si256(_mm256_set1_epi64x(opp as i64), _mm256_set_epi64x(A as i64, A as i64, -1, A as i64));
    let mut l = _mm256_and_si256(o, _mm256_sllv_epi64(p, sh)); let mut r = _mm256_and_si256(o, _mm256_srlv_epi64(p, sh));
    l = _mm256_or_si256(l, _mm256_and_si256(o, _mm256_sllv_epi64(l, sh))); r = _mm256_or_si256(r, _mm256_and_si256(o, _mm256_srlv_epi64(r, sh)));
    let pl = _mm256_and_si256(o, _mm256_sllv_epi64(o, sh)); let pr = _mm256_srlv_epi64(pl, sh);
    l = _mm256_or_si256(l, _mm256_and_si256(pl, _mm256_sllv_epi64(l, sh2))); r = _mm256_or_si256(r, _mm256_and_si256(pr, _mm256_srlv_epi64(r, sh2)));
    l = _mm256_or_si256(l, _mm256_and_si256(pl, _mm256_sllv_epi64(l, sh2))); r = _mm256_or_si256(r, _mm256_and_si256(pr, _mm256_srlv_epi64(r, sh2)));
    let m = _mm256_or_si256(_mm256_sllv_epi64(l, sh), _mm256_srlv_epi64(r, sh));
    let h = _mm_or_si128(_mm256_castsi256_si128(m), _mm256_extracti128_si256(m, 1));
    let h = _mm_or_si128(h, _mm_unpackhi_epi64(h, h));
    _mm_cvtsi128_si64(h) as u64 & !(own | opp)
} }
const fn ray(s: i32, dx: i32, dy: i32) -> u64 { let mut x = s % 8 + dx; let mut y = s / 8 + dy; let mut m = 0u64; while x >= 0 && x < 8 && y >= 0 && y < 8 { m |= 1 << (y * 8 + x); x += dx; y += dy; } m }
#[repr(align(64))] struct Rays([[u64; 8]; 64]);
const fn rays() -> Rays { let mut t = [[0u64; 8]; 64]; let mut s = 0; while s < 64 { let q = s as i32;
    t[s][0] = ray(q, 1, 0); t[s][1] = ray(q, 0, 1); t[s][2] = ray(q, 1, 1); t[s][3] = ray(q, -1, 1);
    t[s][4] = ray(q, -1, 0); t[s][5] = ray(q, 0, -1); t[s][6] = ray(q, -1, -1); t[s][7] = ray(q, 1, -1); s += 1; } Rays(t) }
static R: Rays = rays();
#[inline] #[target_feature(enable = "avx2,bmi1,bmi2,lzcnt,movbe,popcnt")] pub fn flips(own: u64, opp: u64, s: u32) -> u64 { unsafe {
    let sh = _mm256_set_epi64x(7, 9, 8, 1); let sh2 = _mm256_set_epi64x(14, 18, 16, 2); let sh4 = _mm256_set_epi64x(28, 36, 32, 4);
    let p = _mm256_set1_epi64x(own as i64); let o = _mm256_set1_epi64x(opp as i64); let z = _mm256_setzero_si256();
    let ml = _mm256_load_si256(R.0[s as usize].as_ptr() as *const __m256i); let mr = _mm256_load_si256(R.0[s as usize].as_ptr().add(4) as *const __m256i);
    let n = _mm256_andnot_si256(o, ml); let low = _mm256_and_si256(n, _mm256_sub_epi64(z, n)); let hit = _mm256_and_si256(low, p);
    let no = _mm256_cmpeq_epi64(hit, z); // all ones where none
    let fl = _mm256_and_si256(ml, _mm256_andnot_si256(no, _mm256_sub_epi64(hit, _mm256_set1_epi64x(1))));
    let e = _mm256_andnot_si256(o, mr);
    let mut e2 = _mm256_or_si256(e, _mm256_srlv_epi64(e, sh)); e2 = _mm256_or_si256(e2, _mm256_srlv_epi64(e2, sh2)); e2 = _mm256_or_si256(e2, _mm256_srlv_epi64(e2, sh4));
    let hit = _mm256_andnot_si256(_mm256_srlv_epi64(e2, sh), _mm256_and_si256(p, e));
    let no = _mm256_cmpeq_epi64(_mm256_and_si256(hit, mr), z);
    let fr = _mm256_andnot_si256(no, _mm256_andnot_si256(e2, mr));
    let f = _mm256_or_si256(fl, fr);
    let h = _mm_or_si128(_mm256_castsi256_si128(f), _mm256_extracti128_si256(f, 1));
    let h = _mm_or_si128(h, _mm_unpackhi_epi64(h, h));
    _mm_cvtsi128_si64(h) as u64
} }

searches! { #[target_feature(enable = "avx2,bmi1,bmi2,lzcnt,movbe,popcnt")] }
