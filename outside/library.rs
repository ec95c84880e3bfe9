//! The C library under test, as include/flo.h gives it to a C program, behind calls of the same form as plain.rs's.
//!
//! Results that go through pointers are filled with a pattern before every call, so that one left unwritten is seen, and have a
//! guard behind them, so that one written past its end is seen.

use crate::plain::{Answer, Profile, Received, PACKETS, PROFILE};

extern "C" {
    fn flo_send(
        profile: *const u8, profile_length: usize, data: *const u8, data_length: usize,
        firsts: *mut f32, firsts_length: usize, seconds: *mut f32, seconds_length: usize, place: *mut usize,
    ) -> u32;
    fn flo_send_symbol(
        profile: *const u8, profile_length: usize, data: *const u8, data_length: usize, symbol: usize,
        firsts: *mut f32, firsts_length: usize, seconds: *mut f32, seconds_length: usize, place: *mut usize,
    ) -> u32;
    fn flo_receive(
        profile: *const u8, profile_length: usize, marks: u16,
        firsts: *const f32, firsts_length: usize, seconds: *const f32, seconds_length: usize,
        data: *mut u8, data_length: usize, lost: *mut u16, reasons: *mut u8, place: *mut usize,
    ) -> u32;
    fn flo_feed(
        profile: *const u8, profile_length: usize, state: *mut u8, state_length: usize,
        firsts: *const f32, firsts_length: usize, seconds: *const f32, seconds_length: usize, place: *mut usize,
    ) -> u32;
    fn flo_ask(
        profile: *const u8, profile_length: usize, marks: u16, state: *const u8, state_length: usize,
        data: *mut u8, data_length: usize, lost: *mut u16, reasons: *mut u8, place: *mut usize,
    ) -> u32;
    fn flo_read_profile(
        profile: *const u8, profile_length: usize,
        masks: *mut u32, level: *mut f32, mode: *mut u8, k: *mut u8, seeds: *mut u32, floor: *mut f32, place: *mut usize,
    ) -> u32;
    fn flo_write_profile(
        masks: *const u32, level: f32, mode: u8, k: u8, seeds: *const u32, floor: f32, profile: *mut u8, count: *mut usize, place: *mut usize,
    ) -> u32;
    fn flo_parity(k: u8, block: *mut u8, block_length: usize) -> u32;
    fn flo_compare(
        firsts_a: *const u32, firsts_a_length: usize, seconds_a: *const u32, seconds_a_length: usize,
        firsts_b: *const u32, firsts_b_length: usize, seconds_b: *const u32, seconds_b_length: usize,
        differences: *mut u32, differences_length: usize, count: *mut u64,
    ) -> u32;
    fn flo_add(totals: *mut u64, totals_length: usize, number: u32, lost: u16, reasons: *const u8) -> u32;
}

/// What a result holds before a call.
const PATTERN: u8 = 0xA5;
const PATTERN_4: u32 = 0xA5A5_A5A5;
const PATTERN_8: usize = 0xA5A5_A5A5_A5A5_A5A5;
const GUARD: usize = 16;

/// Ends the program when a result's guard has changed: nothing after that could be believed.
fn guard<T: PartialEq>(behind: &[T], pattern: T, what: &str) {
    if behind.iter().any(|x| *x != pattern) {
        println!("outside: the library writes past the end of {what}");
        std::process::exit(1);
    }
}

/// Lends a call room for its place, which lives as long as the call.
fn placed(call: impl FnOnce(*mut usize) -> u32) -> Answer {
    let mut place = [PATTERN_8; 1 + GUARD];
    let number = call(place.as_mut_ptr());
    guard(&place[1..], PATTERN_8, "place");
    Answer { number, place: place[0] }
}

/// Lends a call room for its lost mask, its reasons and its place.
fn received(call: impl FnOnce(*mut u16, *mut u8, *mut usize) -> u32) -> Received {
    let mut lost = 0xA5A5;
    let mut reasons = [PATTERN; PACKETS + GUARD];
    let Answer { number, place } = placed(|place| call(&mut lost, reasons.as_mut_ptr(), place));
    guard(&reasons[PACKETS..], PATTERN, "reasons");
    Received { number, place, lost, reasons: reasons[..PACKETS].try_into().unwrap() }
}

pub fn send(profile: &[u8], data: &[u8], firsts: &mut [f32], seconds: &mut [f32]) -> Answer {
    // SAFETY: every pointer comes with the length of its own slice; the place is live.
    placed(|place| unsafe {
        flo_send(
            profile.as_ptr(), profile.len(), data.as_ptr(), data.len(),
            firsts.as_mut_ptr(), firsts.len(), seconds.as_mut_ptr(), seconds.len(), place,
        )
    })
}

pub fn send_symbol(profile: &[u8], data: &[u8], symbol: usize, firsts: &mut [f32], seconds: &mut [f32]) -> Answer {
    // SAFETY: every pointer comes with the length of its own slice; the place is live.
    placed(|place| unsafe {
        flo_send_symbol(
            profile.as_ptr(), profile.len(), data.as_ptr(), data.len(), symbol,
            firsts.as_mut_ptr(), firsts.len(), seconds.as_mut_ptr(), seconds.len(), place,
        )
    })
}

pub fn receive(profile: &[u8], marks: u16, firsts: &[f32], seconds: &[f32], data: &mut [u8]) -> Received {
    // SAFETY: every pointer comes with the length of its own slice; `lost`, the 16 reasons and the place are live.
    received(|lost, reasons, place| unsafe {
        flo_receive(
            profile.as_ptr(), profile.len(), marks, firsts.as_ptr(), firsts.len(), seconds.as_ptr(), seconds.len(),
            data.as_mut_ptr(), data.len(), lost, reasons, place,
        )
    })
}

pub fn feed(profile: &[u8], state: &mut [u8], firsts: &[f32], seconds: &[f32]) -> Answer {
    // SAFETY: every pointer comes with the length of its own slice; the place is live.
    placed(|place| unsafe {
        flo_feed(
            profile.as_ptr(), profile.len(), state.as_mut_ptr(), state.len(),
            firsts.as_ptr(), firsts.len(), seconds.as_ptr(), seconds.len(), place,
        )
    })
}

/// The library may only read the state; it is lent as one that can be written, so that a library that writes it is found out.
pub fn ask(profile: &[u8], marks: u16, state: &mut [u8], data: &mut [u8]) -> Received {
    // SAFETY: every pointer comes with the length of its own slice; `lost`, the 16 reasons and the place are live.
    received(|lost, reasons, place| unsafe {
        flo_ask(
            profile.as_ptr(), profile.len(), marks, state.as_mut_ptr(), state.len(),
            data.as_mut_ptr(), data.len(), lost, reasons, place,
        )
    })
}

pub fn read_profile(bytes: &[u8]) -> (Answer, Profile) {
    let (mut masks, mut seeds) = ([PATTERN_4; 8 + GUARD], [PATTERN_4; 48 + GUARD]);
    let (mut level, mut mode, mut k, mut floor) = (f32::from_bits(PATTERN_4), PATTERN, PATTERN, f32::from_bits(PATTERN_4));
    // SAFETY: the bytes come with their length, and all results are live and large enough.
    let answer = placed(|place| unsafe {
        flo_read_profile(
            bytes.as_ptr(), bytes.len(), masks.as_mut_ptr(), &mut level, &mut mode, &mut k, seeds.as_mut_ptr(), &mut floor, place,
        )
    });
    guard(&masks[8..], PATTERN_4, "masks");
    guard(&seeds[48..], PATTERN_4, "seeds");
    let (masks, seeds) = (masks[..8].try_into().unwrap(), seeds[..48].try_into().unwrap());
    (answer, Profile { masks, level, mode, k, seeds, floor })
}

pub fn write_profile(value: &Profile) -> (Answer, [u8; PROFILE], usize) {
    let mut bytes = [PATTERN; PROFILE + GUARD];
    let mut count = usize::MAX;
    // SAFETY: 8 masks, 48 seeds and room for 252 bytes, count and place, all live.
    let answer = placed(|place| unsafe {
        flo_write_profile(
            value.masks.as_ptr(), value.level, value.mode, value.k, value.seeds.as_ptr(), value.floor, bytes.as_mut_ptr(), &mut count, place,
        )
    });
    guard(&bytes[PROFILE..], PATTERN, "profile");
    (answer, bytes[..PROFILE].try_into().unwrap(), count)
}

pub fn parity(k: u8, block: &mut [u8]) -> u32 {
    // SAFETY: the pointer comes with the length of its slice.
    unsafe { flo_parity(k, block.as_mut_ptr(), block.len()) }
}

/// The number and the count. The list's guards are the caller's, as those of all lent memory are.
pub fn compare(firsts_a: &[u32], seconds_a: &[u32], firsts_b: &[u32], seconds_b: &[u32], differences: &mut [u32]) -> (u32, u64) {
    let mut count = [PATTERN_8 as u64; 1 + GUARD];
    // SAFETY: every pointer comes with the length of its own slice; the count is live.
    let number = unsafe {
        flo_compare(
            firsts_a.as_ptr(), firsts_a.len(), seconds_a.as_ptr(), seconds_a.len(),
            firsts_b.as_ptr(), firsts_b.len(), seconds_b.as_ptr(), seconds_b.len(),
            differences.as_mut_ptr(), differences.len(), count.as_mut_ptr(),
        )
    };
    guard(&count[1..], PATTERN_8 as u64, "count");
    (number, count[0])
}

/// The library may only read the reasons; they are lent as ones that can be written, and come back, so that a library that writes them is found out.
/// The guards of the totals are the caller's.
pub fn add(totals: &mut [u64], number: u32, lost: u16, reasons: &mut [u8; PACKETS]) -> u32 {
    let mut lent = [PATTERN; PACKETS + GUARD];
    lent[..PACKETS].copy_from_slice(reasons);
    // SAFETY: the totals' pointer comes with the length of its slice; the 16 reasons are live.
    let number = unsafe { flo_add(totals.as_mut_ptr(), totals.len(), number, lost, lent.as_mut_ptr()) };
    guard(&lent[PACKETS..], PATTERN, "reasons");
    reasons.copy_from_slice(&lent[..PACKETS]);
    number
}
