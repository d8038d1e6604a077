//! The host kernel's own calls, each measured in a child process, so that this one keeps its IDs and its namespace. A
//! result is None where the kernel refuses.

use std::ffi::{c_int, c_long, c_void};
use std::fs::{File, OpenOptions};
use std::hint::black_box;
use std::io::{pipe, PipeReader, PipeWriter, Read, Write};
use std::os::fd::AsRawFd;
use std::os::unix::fs::FileExt;
use std::time::Instant;

use crate::measure::{median, time};
use crate::state::MAX_GROUPS;

unsafe extern "C" {
    fn fork() -> c_int;
    fn waitpid(process: c_int, status: *mut c_int, options: c_int) -> c_int;
    fn _exit(status: c_int) -> !;
    fn unshare(flags: c_int) -> c_int;
    fn setns(file: c_int, kind: c_int) -> c_int;
    fn getresuid(real: *mut u32, effective: *mut u32, saved: *mut u32) -> c_int;
    fn getresgid(real: *mut u32, effective: *mut u32, saved: *mut u32) -> c_int;
    fn getgroups(size: c_int, list: *mut u32) -> c_int;
    fn setresuid(real: u32, effective: u32, saved: u32) -> c_int;
    fn setresgid(real: u32, effective: u32, saved: u32) -> c_int;
    fn setgroups(count: usize, list: *const u32) -> c_int;
    fn syscall(number: c_long, ...) -> c_long;
}

const CLONE_NEWUSER: c_int = 0x1000_0000;
const SIGCHLD: c_int = 17;
const SYS_CLONE: c_long = 56;
const SYS_CAPGET: c_long = 125;
const SYS_CAPSET: c_long = 126;
const CAPABILITY_VERSION: u32 = 0x2008_0522;

/// Calls in a batch, where a call can be repeated.
const CALLS: usize = 200;
/// Child processes of a measurement where a call is made once in each.
const CHILDREN: usize = 41;

/// Makes a child process, which ends with what `work` does in it; its number, or None where the kernel refuses.
fn child(work: impl FnOnce()) -> Option<c_int> {
    // SAFETY: this program has one thread, and the child ends without returning from here.
    match unsafe { fork() } {
        0 => {
            work();
            // SAFETY: the call takes a number alone.
            unsafe { _exit(0) }
        }
        process if process > 0 => Some(process),
        _ => None,
    }
}

fn wait(process: c_int) {
    // SAFETY: a null pointer says that the status is not asked for.
    unsafe { waitpid(process, std::ptr::null_mut(), 0) };
}

/// What `measure` gives in a child process.
fn in_child(measure: impl FnOnce() -> Option<f64>) -> Option<f64> {
    let (mut reader, mut writer) = pipe().ok()?;
    let process = child(|| {
        if let Some(result) = measure() {
            writer.write_all(&result.to_ne_bytes()).ok();
        }
    })?;
    drop(writer);
    let mut bytes = [0; 8];
    let read = reader.read_exact(&mut bytes);
    wait(process);
    read.ok()?;
    Some(f64::from_ne_bytes(bytes))
}

/// Nanoseconds of one call that can be repeated.
fn repeated(mut call: impl FnMut(usize) -> bool) -> Option<f64> {
    in_child(|| time(&(), CALLS, |(), index| call(index)))
}

/// Nanoseconds of a call that is made once. The clock is read before, since the first reading in a new process takes
/// longer.
fn once(call: impl FnOnce() -> bool) -> Option<f64> {
    black_box(Instant::now().elapsed());
    let start = Instant::now();
    let done = call();
    let elapsed = start.elapsed();
    done.then_some(elapsed.as_nanos() as f64)
}

/// The median over child processes, each of which is measured once.
fn in_children(measure: impl Fn() -> Option<f64>) -> Option<f64> {
    let samples: Option<Vec<f64>> = (0..CHILDREN).map(|_| measure()).collect();
    samples.map(median)
}

/// A process in a new user namespace, which waits there until it is dropped.
struct Member {
    process: c_int,
    release: Option<PipeWriter>,
}

impl Member {
    fn new() -> Option<Member> {
        let (mut ready, mut tell) = pipe().ok()?;
        let (wait_for, release) = pipe().ok()?;
        let mut ends: Option<(PipeReader, PipeWriter)> = Some((wait_for, release));
        let process = child(|| {
            let Some((mut wait_for, release)) = ends.take() else { return };
            drop(release);
            // SAFETY: the call takes a number alone.
            if unsafe { unshare(CLONE_NEWUSER) } == 0 {
                tell.write_all(b".").ok();
                wait_for.read_exact(&mut [0]).ok();
            }
        })?;
        drop(tell);
        let release = ends.take().map(|(_, release)| release);
        let member = Member { process, release };
        ready.read_exact(&mut [0]).ok()?;
        Some(member)
    }

    fn path(&self, name: &str) -> String {
        format!("/proc/{}/{name}", self.process)
    }

    /// Nanoseconds of a write to one of the member's files.
    fn write(&self, name: &str, text: &str) -> Option<f64> {
        let mut file = OpenOptions::new().write(true).open(self.path(name)).ok()?;
        once(|| file.write(text.as_bytes()).is_ok())
    }
}

impl Drop for Member {
    fn drop(&mut self) {
        self.release = None;
        wait(self.process);
    }
}

pub fn fork_process() -> Option<f64> {
    // SAFETY: this program has one thread.
    in_child(|| in_children(|| made_by(|| unsafe { fork() })))
}

pub fn clone_process() -> Option<f64> {
    // SAFETY: with no stack of its own the child goes on with a copy of this one, as after fork.
    let clone = || unsafe { syscall(SYS_CLONE, CLONE_NEWUSER | SIGCHLD, 0, 0, 0, 0) as c_int };
    in_child(|| in_children(|| made_by(clone)))
}

/// Nanoseconds until `make` has made a child and returned, in the process that called it. The child ends at once.
fn made_by(make: impl FnOnce() -> c_int) -> Option<f64> {
    let start = Instant::now();
    let process = make();
    let elapsed = start.elapsed();
    match process {
        // SAFETY: the call takes a number alone.
        0 => unsafe { _exit(0) },
        process if process > 0 => wait(process),
        _ => return None,
    }
    Some(elapsed.as_nanos() as f64)
}

pub fn unshare_user() -> Option<f64> {
    // SAFETY: the call takes a number alone.
    in_children(|| in_child(|| once(|| unsafe { unshare(CLONE_NEWUSER) } == 0)))
}

pub fn join() -> Option<f64> {
    let member = Member::new()?;
    let file = File::open(member.path("ns/user")).ok()?;
    // SAFETY: the file is open for as long as the calls are made.
    in_children(|| in_child(|| once(|| unsafe { setns(file.as_raw_fd(), CLONE_NEWUSER) } == 0)))
}

pub fn write_map(text: &str) -> Option<f64> {
    in_child(|| in_children(|| Member::new()?.write("uid_map", text)))
}

pub fn write_setgroups() -> Option<f64> {
    in_child(|| in_children(|| Member::new()?.write("setgroups", "deny")))
}

/// Reads of the user map of a child namespace that has the lines of `text`.
pub fn read_map(text: &str) -> Option<f64> {
    let member = Member::new()?;
    member.write("uid_map", text)?;
    read_file(&member, "uid_map")
}

pub fn read_setgroups() -> Option<f64> {
    read_file(&Member::new()?, "setgroups")
}

fn read_file(member: &Member, name: &str) -> Option<f64> {
    let file = File::open(member.path(name)).ok()?;
    let mut buffer = [0; 256];
    repeated(|_| file.read_at(&mut buffer, 0).is_ok_and(|length| length > 0))
}

pub fn set_users() -> Option<f64> {
    // SAFETY: the call takes numbers alone.
    repeated(|index| unsafe { setresuid(0, 0, saved(index)) } == 0)
}

pub fn set_groups() -> Option<f64> {
    // SAFETY: the call takes numbers alone.
    repeated(|index| unsafe { setresgid(0, 0, saved(index)) } == 0)
}

/// A saved ID that is another at each call.
pub fn saved(index: usize) -> u32 {
    [5, 0][index % 2]
}

pub fn set_supplementary(list: &[u32]) -> Option<f64> {
    // SAFETY: the pointer is valid for reads of the count.
    repeated(|_| unsafe { setgroups(list.len(), list.as_ptr()) } == 0)
}

/// The call that tells a process its user IDs.
pub fn own_users() -> Option<f64> {
    let (mut r, mut e, mut s) = (0, 0, 0);
    // SAFETY: each pointer is valid for writes.
    repeated(|_| unsafe { getresuid(&mut r, &mut e, &mut s) } == 0)
}

/// The three calls that together tell a process its own IDs.
pub fn own_ids(groups: &[u32]) -> Option<f64> {
    let mut ids = [0; MAX_GROUPS as usize];
    let list = ids.as_mut_ptr();
    let ask = || {
        let (mut r, mut e, mut s) = (0, 0, 0);
        // SAFETY: each pointer is valid for writes, the last for as many as are asked for.
        unsafe {
            getresuid(&mut r, &mut e, &mut s) == 0
                && getresgid(&mut r, &mut e, &mut s) == 0
                && getgroups(MAX_GROUPS as c_int, list) >= 0
        }
    };
    in_child(|| {
        // SAFETY: the pointer is valid for reads of the count.
        let set = unsafe { setgroups(groups.len(), groups.as_ptr()) } == 0;
        set.then(|| time(&(), CALLS, |(), _| ask())).flatten()
    })
}

pub fn set_capabilities() -> Option<f64> {
    // The version and process 0, which is the caller; then two parts of effective, permitted and inheritable sets.
    let header = [CAPABILITY_VERSION, 0];
    let mut sets = [0u32; 6];
    let header = header.as_ptr().cast::<c_void>();
    let sets = sets.as_mut_ptr().cast::<c_void>();
    // SAFETY: both pointers are valid for what this version of the calls reads and writes.
    let get = unsafe { syscall(SYS_CAPGET, header, sets) };
    if get != 0 {
        return None;
    }
    // SAFETY: as above.
    repeated(|_| unsafe { syscall(SYS_CAPSET, header, sets) } == 0)
}
