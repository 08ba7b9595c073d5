//! Both reports of one file, side by side: for bench/speed, which counts instructions inside the two functions named
//! here. The library is linked for this alone (feature `linked`).

use crate::report::{report, ENOUGH};
use std::hint::black_box;
use std::time::{Duration, Instant};

extern "C" {
    fn stepbench_report(file: *const u8, file_len: usize, out: *mut u8, out_len: usize) -> u64;
}

/// This program's report, called as the library's is. The length, or all ones for a refusal.
///
/// # Safety
/// Both pointers are to that many bytes, and they don't overlap.
#[no_mangle]
#[inline(never)]
unsafe extern "C" fn second_report(file: *const u8, file_len: usize, out: *mut u8, out_len: usize) -> u64 {
    let file = std::slice::from_raw_parts(file, file_len);
    let out = std::slice::from_raw_parts_mut(out, out_len);
    report(file, out).map_or(u64::MAX, |length| length as u64)
}

type Reporter = unsafe extern "C" fn(*const u8, usize, *mut u8, usize) -> u64;

/// One report into a buffer, and the time that it took.
fn once(reporter: Reporter, file: &[u8], out: &mut [u8]) -> (u64, Duration) {
    let file = black_box(file);
    let start = Instant::now();
    // SAFETY: both pointers are to that many bytes, and they don't overlap.
    let number = unsafe { black_box(reporter)(file.as_ptr(), file.len(), out.as_mut_ptr(), out.len()) };
    let time = start.elapsed();
    black_box(out);
    (number, time)
}

fn middle(times: &mut [Duration]) -> Duration {
    times.sort_unstable();
    times[times.len() / 2]
}

/// Reports a file so often by both, in turns. A line: the report's length; least and middle nanoseconds of the library's
/// report, and of this program's.
pub fn speed(file: &[u8], rounds: usize) -> Result<String, String> {
    let (mut theirs, mut own) = (vec![0; ENOUGH], vec![0; ENOUGH]);
    let (mut their_times, mut own_times) = (Vec::new(), Vec::new());
    for _ in 0..rounds.max(1) {
        let (a, time) = once(stepbench_report, file, &mut theirs);
        their_times.push(time);
        let (b, time) = once(second_report, file, &mut own);
        own_times.push(time);
        if a != b || theirs != own {
            return Err(format!("the reports differ, or the file is refused: {a:#x} and {b:#x}"));
        }
    }
    let length = theirs.iter().rposition(|&byte| byte != 0).map_or(0, |last| last + 1);
    let (their_middle, own_middle) = (middle(&mut their_times), middle(&mut own_times));
    let numbers =
        [their_times[0], their_middle, own_times[0], own_middle].map(|time| time.as_nanos().to_string());
    Ok(format!("{length} {}", numbers.join(" ")))
}
