//! CPU time of this thread, and the functions under which callgrind counts.

#[repr(C)]
struct Timespec {
    seconds: i64,
    nanoseconds: i64,
}

extern "C" {
    fn clock_gettime(clock: i32, time: *mut Timespec) -> i32;
}

const THREAD_CPU_TIME: i32 = 3;

fn now() -> i64 {
    let mut time = Timespec {
        seconds: 0,
        nanoseconds: 0,
    };
    let said = unsafe { clock_gettime(THREAD_CPU_TIME, &mut time) };
    assert_eq!(said, 0, "no clock of the thread");
    time.seconds * 1_000_000_000 + time.nanoseconds
}

/// Nanoseconds of CPU time.
pub fn timed(work: impl FnOnce()) -> f64 {
    let before = now();
    work();
    (now() - before) as f64
}

/// bench/count has callgrind count inside these, and write a dump after each.
#[inline(never)]
#[no_mangle]
pub fn bench_counted(work: &mut dyn FnMut()) {
    work();
}
