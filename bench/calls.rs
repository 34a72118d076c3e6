// What the crate that is ported does on the same tree: the baseline of calls.c. Its in-memory tree is the published source,
// unchanged, beside the stand-ins of tests/model. A result is made and dropped, as any caller of the Rust would do.
use std::ffi::OsStr;
use std::hint::black_box;
use std::io::{Read, Seek, SeekFrom};
use std::os::unix::ffi::OsStrExt;
use std::path::Path;
use std::slice::from_raw_parts;
use std::time::{Duration, Instant, SystemTime, UNIX_EPOCH};

use sys_traits::impls::{InMemoryFile, InMemorySys};
use sys_traits::*;

const ROUNDS: usize = 200;
const CLOSED: usize = 64; // files that are closed in one round
const MORE: u64 = 100;

pub struct Job {
    sys: InMemorySys,
    file: Option<InMemoryFile>,
    length: u64,
}

unsafe fn path_of<'a>(s: *const u8, n: usize) -> &'a Path {
    Path::new(OsStr::from_bytes(from_raw_parts(s, n)))
}

fn time(n: u64) -> SystemTime {
    UNIX_EPOCH + Duration::from_nanos(n)
}

#[no_mangle]
pub extern "C" fn rust_new() -> *mut Job {
    let sys = InMemorySys::default();
    sys.set_time(Some(time(1)));
    Box::into_raw(Box::new(Job { sys, file: None, length: 0 }))
}

#[no_mangle]
pub unsafe extern "C" fn rust_add(job: *mut Job, kind: u32, path: *const u8, n: usize, bytes: *const u8, length: usize) {
    let (sys, path) = (&(*job).sys, path_of(path, n));
    match kind {
        0 => sys.fs_create_dir_all(path).unwrap(),
        1 => sys.fs_write(path, from_raw_parts(bytes, length)).unwrap(),
        _ => sys.fs_symlink_file(path_of(bytes, length), path).unwrap(),
    }
}

// The current directory, and the file that the calls by number are made on.
#[no_mangle]
pub unsafe extern "C" fn rust_begin(job: *mut Job, here: *const u8, n: usize, opened: *const u8, m: usize) {
    let job = &mut *job;
    job.sys.env_set_current_dir(path_of(here, n)).unwrap();
    let opened = path_of(opened, m);
    job.length = job.sys.fs_metadata(opened).unwrap().len();
    job.file = Some(job.sys.fs_open(opened, &OpenOptions::new_read()).unwrap());
}

// The median of the shortest quarter, as in calls.c.
fn median(mut times: Vec<f64>) -> f64 {
    times.sort_by(|a, b| a.total_cmp(b));
    times[times.len() / 8]
}

fn many(f: &mut impl FnMut() -> u64, count: u32) -> (f64, u64) {
    let mut last = 0;
    let from = Instant::now();
    for _ in 0..count {
        last = black_box(f());
    }
    (from.elapsed().as_nanos() as f64, last)
}

// Nanoseconds of one, over rounds of 20 microseconds or more.
fn timed(mut f: impl FnMut() -> u64) -> (f64, u64) {
    let mut count = 16;
    while many(&mut f, count).0 < 20_000.0 {
        count *= 2;
    }
    let times = (0..ROUNDS).map(|_| many(&mut f, count).0 / count as f64).collect();
    (median(times), f())
}

// The same of dropping files that are made before each round.
fn dropped(mut make: impl FnMut() -> Vec<InMemoryFile>) -> (f64, u64) {
    let round = |files: Vec<InMemoryFile>| {
        let from = Instant::now();
        drop(black_box(files));
        from.elapsed().as_nanos() as f64 / CLOSED as f64
    };
    (median((0..ROUNDS).map(|_| round(make())).collect()), 0)
}

// Files that are open and have been removed, each with 200 bytes.
fn removed(sys: &InMemorySys) -> Vec<InMemoryFile> {
    let one = |_| {
        sys.fs_write("/draft.txt", [b'm'; 200]).unwrap();
        let file = sys.fs_open("/draft.txt", &OpenOptions::new_read()).unwrap();
        sys.fs_remove_file("/draft.txt").unwrap();
        file
    };
    (0..CLOSED).map(one).collect()
}

fn list(sys: &InMemorySys, path: &Path) -> u64 {
    sys.base_fs_read_dir(path).unwrap().map(|e| black_box(e.unwrap())).count() as u64
}

// The current directory is then the one that it was.
fn set_here(sys: &InMemorySys, path: &Path) -> (f64, u64) {
    let before = sys.env_current_dir().unwrap();
    let result = timed(|| {
        sys.base_env_set_current_dir(path).unwrap();
        0
    });
    sys.base_env_set_current_dir(&before).unwrap();
    result
}

fn by_path(sys: &InMemorySys, which: u32, path: &Path) -> (f64, u64) {
    match which {
        0 => timed(|| sys.base_fs_canonicalize(path).unwrap().as_os_str().len() as u64),
        1 => set_here(sys, path),
        3 => timed(|| black_box(sys.base_fs_read(path).unwrap()).len() as u64),
        4 => timed(|| black_box(sys.base_fs_metadata(path).unwrap()).len()),
        5 => timed(|| black_box(sys.base_fs_symlink_metadata(path).unwrap()).len()),
        6 => timed(|| sys.base_fs_read_link(path).unwrap().as_os_str().len() as u64),
        _ => timed(|| list(sys, path)),
    }
}

fn by_number(sys: &InMemorySys, which: u32, file: &mut InMemoryFile, length: u64) -> (f64, u64) {
    let mut buffer = [0; 8192];
    match which {
        8 => dropped(|| vec![file.clone(); CLOSED]),
        9 => dropped(|| removed(sys)),
        10 => timed(|| {
            file.seek(SeekFrom::Start(0)).unwrap();
            black_box(file.read(black_box(&mut buffer)).unwrap()) as u64
        }),
        11 => timed(|| file.seek(black_box(SeekFrom::End(-10))).unwrap()),
        12 => timed(|| {
            file.fs_file_set_len(black_box(length)).unwrap();
            0
        }),
        13 => {
            let (ns, n) = timed(|| {
                file.fs_file_set_len(black_box(length + MORE)).unwrap();
                file.fs_file_set_len(black_box(length)).unwrap();
                0
            });
            (ns / 2.0, n)
        }
        14 => timed(|| {
            file.fs_file_set_permissions(black_box(0o600)).unwrap();
            0
        }),
        15 => timed(|| {
            let mut times = FsFileTimes::new();
            times.accessed = Some(black_box(time(1000)));
            times.modified = Some(black_box(time(2000)));
            file.fs_file_set_times(times).unwrap();
            0
        }),
        _ => timed(|| black_box(file.fs_file_metadata().unwrap()).len()),
    }
}

// The numbers of `which` are those of the enum in calls.c.
#[no_mangle]
pub unsafe extern "C" fn rust_time(job: *mut Job, which: u32, path: *const u8, n: usize, answer: *mut u64) -> f64 {
    let job = &mut *job;
    let (ns, number) = match which {
        2 => timed(|| job.sys.env_set_umask(black_box(0o22)).unwrap() as u64),
        17 => timed(|| {
            black_box(InMemorySys::default());
            0
        }),
        18 => timed(|| job.sys.env_current_dir().unwrap().as_os_str().len() as u64),
        8..=16 => by_number(&job.sys, which, job.file.as_mut().unwrap(), job.length),
        _ => by_path(&job.sys, which, path_of(path, n)),
    };
    *answer = number;
    ns
}
