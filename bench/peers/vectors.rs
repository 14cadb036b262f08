//! What is done with vectors of 16 bytes. Every x86-64 processor has SSE2.

use std::arch::x86_64::*;

/// By the index of the last byte that is no digit: the mask of the bytes after it.
static AFTER: [u128; 16] = masks_after();

const fn masks_after() -> [u128; 16] {
    let mut masks = [0; 16];
    let mut place = 0;
    while place < 16 {
        masks[place] = !0 << (8 * place) << 8;
        place += 1;
    }
    masks
}

/// Returns the bits of a block: bit k is set if byte k is `wanted`.
#[inline(always)]
pub fn equal(block: &[u8; 64], wanted: u8) -> u64 {
    // SAFETY: each load is a fourth of the block.
    unsafe {
        let wanted = _mm_set1_epi8(wanted as i8);
        let bits = |quarter: usize| {
            let octets = _mm_loadu_si128(block.as_ptr().add(16 * quarter).cast());
            u64::from(_mm_movemask_epi8(_mm_cmpeq_epi8(octets, wanted)) as u32)
        };
        bits(0) | bits(1) << 16 | bits(2) << 32 | bits(3) << 48
    }
}

/// The bits of 16 bytes: bit k tells of byte k.
#[derive(Clone, Copy)]
pub struct Marks {
    pub no_digits: u32,
    pub commas: u32,
}

#[inline(always)]
pub fn marks(block: &[u8; 16]) -> Marks {
    // SAFETY: the load is the block.
    unsafe {
        let octets = _mm_loadu_si128(block.as_ptr().cast());
        let values = _mm_sub_epi8(octets, _mm_set1_epi8(b'0' as i8));
        let no_digits = _mm_cmpeq_epi8(_mm_max_epu8(values, _mm_set1_epi8(10)), values);
        let commas = _mm_cmpeq_epi8(octets, _mm_set1_epi8(b',' as i8));
        Marks {
            no_digits: _mm_movemask_epi8(no_digits) as u32,
            commas: _mm_movemask_epi8(commas) as u32,
        }
    }
}

/// Returns the number that the bytes after an index spell, if they are at most 12 digits. Digits
/// are combined to pairs and to groups of four in vectors, and the groups in words.
#[inline(always)]
pub fn number_after(block: &[u8; 16], index: usize) -> u64 {
    let mask = &raw const AFTER[index % 16];
    // SAFETY: the loads are the block and the mask.
    unsafe {
        let values =
            _mm_sub_epi8(_mm_loadu_si128(block.as_ptr().cast()), _mm_set1_epi8(b'0' as i8));
        let digits = _mm_and_si128(values, _mm_loadu_si128(mask.cast()));
        let tens = _mm_mullo_epi16(_mm_and_si128(digits, _mm_set1_epi16(0xff)), _mm_set1_epi16(10));
        let pairs = _mm_add_epi16(tens, _mm_srli_epi16(digits, 8));
        let hundreds = _mm_mullo_epi16(pairs, _mm_set1_epi16(100));
        let hundreds = _mm_and_si128(hundreds, _mm_set1_epi32(0xffff));
        let fours = _mm_add_epi32(hundreds, _mm_srli_epi32(pairs, 16));
        let last_eight = _mm_cvtsi128_si64(_mm_unpackhi_epi64(fours, fours)) as u64;
        let four_before = _mm_cvtsi128_si64(fours) as u64 >> 32;
        let low = last_eight.wrapping_mul(10_000 << 32 | 1) >> 32;
        four_before.wrapping_mul(100_000_000).wrapping_add(low)
    }
}
