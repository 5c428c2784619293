// The processor time of this process: other programs on the machine are not counted in.
#[repr(C)]
struct Time {
    seconds: i64,
    nanoseconds: i64,
}

const PROCESS_TIME: i32 = 2; // CLOCK_PROCESS_CPUTIME_ID on Linux

extern "C" {
    fn clock_gettime(clock: i32, time: *mut Time) -> i32;
}

// Nanoseconds since the process began.
pub fn now() -> u64 {
    let mut time = Time { seconds: 0, nanoseconds: 0 };
    let failed = unsafe { clock_gettime(PROCESS_TIME, &mut time) };
    assert_eq!(failed, 0, "clock_gettime failed");
    time.seconds as u64 * 1_000_000_000 + time.nanoseconds as u64
}
