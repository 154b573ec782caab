//! The calls of the library, as `include/rinqebo.h` declares them: `scripts/compare-layouts` compares the two.

#[repr(C)]
#[derive(Clone, Copy)]
pub struct Bytes {
    pub at: *const u8,
    pub length: usize,
}

#[repr(C)]
#[derive(Clone, Copy)]
pub struct Test {
    pub size: usize,
    pub package: Bytes,
    pub binary: Bytes,
    pub kind: Bytes,
    pub target: Bytes,
    pub name: Bytes,
    pub platform: u32,
    pub mode: u32,
}

#[repr(C)]
#[derive(Clone, Copy, Default)]
pub struct Duration {
    pub low: u64,
    pub high: u64,
}

#[repr(C)]
#[derive(Clone, Copy, Default)]
pub struct Retries {
    pub backoff: u32,
    pub count: u32,
    pub delay: Duration,
    pub jitter: u32,
    pub has_max_delay: u32,
    pub max_delay: Duration,
}

#[repr(C)]
#[derive(Clone, Copy, Default)]
pub struct Threads {
    pub kind: u32,
    pub count: u64,
}

#[repr(C)]
#[derive(Clone, Copy, Default)]
pub struct SlowTimeout {
    pub period: Duration,
    pub terminate_after: u64,
    pub grace_period: Duration,
    pub on_timeout: u32,
}

#[repr(C)]
#[derive(Clone, Copy, Default)]
pub struct LeakTimeout {
    pub period: Duration,
    pub result: u32,
}

#[repr(C)]
#[derive(Clone, Copy, Default)]
pub struct GroupThreads {
    pub kind: u32,
    pub count: i64,
}

#[repr(C)]
#[derive(Clone, Copy, Default)]
pub struct Settings {
    pub size: usize,
    pub priority: i32,
    pub in_default_filter: u32,
    pub flaky_result: u32,
    pub success_output: u32,
    pub failure_output: u32,
    pub junit_store_success_output: u32,
    pub junit_store_failure_output: u32,
    pub junit_report_skipped: u32,
    pub junit_flaky_fail_status: u32,
    pub threads_required: Threads,
    pub retries: Retries,
    pub slow_timeout: SlowTimeout,
    pub leak_timeout: LeakTimeout,
    pub test_group: usize,
    pub group_threads: GroupThreads,
    pub run_wrapper: usize,
    pub run_extra_args: usize,
}

extern "C" {
    pub fn rinqebo_version(out: *mut u8, out_len: usize, needed: *mut usize) -> u32;
    pub fn rinqebo_version_number() -> u32;
    pub fn rinqebo_run_size() -> usize;
    pub fn rinqebo_run_new(request: *const u8, request_len: usize, room: *mut u8);
    pub fn rinqebo_diff_new(
        from: *const u8,
        from_len: usize,
        to: *const u8,
        to_len: usize,
        origins: u32,
        room: *mut u8,
        side: *mut u32,
    );
    pub fn rinqebo_run_status(run: *const u8) -> u32;
    pub fn rinqebo_run_length(run: *const u8) -> usize;
    pub fn rinqebo_run_text(run: *const u8, offset: usize, out: *mut u8, out_len: usize) -> usize;
    pub fn rinqebo_run_free(run: *mut u8);
    pub fn rinqebo_session_size() -> usize;
    pub fn rinqebo_session_load(request: *const u8, request_len: usize, room: *mut u8);
    pub fn rinqebo_session_status(session: *const u8) -> u32;
    pub fn rinqebo_session_reason(session: *const u8, out: *mut u8, out_len: usize, needed: *mut usize) -> u32;
    pub fn rinqebo_session_free(session: *mut u8);
    pub fn rinqebo_profile_size() -> usize;
    pub fn rinqebo_profile_open(session: *const u8, name: *const u8, name_len: usize, room: *mut u8);
    pub fn rinqebo_profile_status(profile: *const u8) -> u32;
    pub fn rinqebo_profile_text(
        profile: *const u8,
        kind: u32,
        index: usize,
        out: *mut u8,
        out_len: usize,
        needed: *mut usize,
    ) -> u32;
    pub fn rinqebo_profile_ask(profile: *const u8, test: *const Test, settings: *mut Settings) -> u32;
    pub fn rinqebo_profile_argument(
        profile: *const u8,
        test: *const Test,
        index: usize,
        out: *mut u8,
        out_len: usize,
        needed: *mut usize,
    ) -> u32;
    pub fn rinqebo_profile_free(profile: *mut u8);
}
