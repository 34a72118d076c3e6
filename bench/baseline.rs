// What Rust's std does on the same input: the baseline of bench.c. The path functions are those of the crate that this
// project stands in for, over Path::components, with the allocations that they make; the result is copied out.
use std::ffi::OsStr;
use std::os::unix::ffi::OsStrExt;
use std::path::{Component, Path, PathBuf};
use std::slice::{from_raw_parts, from_raw_parts_mut};

unsafe fn bytes<'a>(s: *const u8, n: usize) -> &'a [u8] {
    from_raw_parts(s, n)
}

fn path_of(s: &[u8]) -> &Path {
    Path::new(OsStr::from_bytes(s))
}

fn normalize_path(path: &Path) -> PathBuf {
    let mut ret = PathBuf::new();
    for component in path.components() {
        match component {
            Component::Prefix(..) => unreachable!(),
            Component::RootDir => ret.push(component.as_os_str()),
            Component::CurDir => {}
            Component::ParentDir => {
                ret.pop();
            }
            Component::Normal(c) => ret.push(c),
        }
    }
    ret
}

// The length, or 1000006 where it does not fit.
unsafe fn put(out: *mut u8, room: usize, path: &Path) -> u64 {
    let s = path.as_os_str().as_bytes();
    if s.len() > 1024 {
        return 1_000_006;
    }
    from_raw_parts_mut(out, room)[..s.len()].copy_from_slice(s);
    s.len() as u64
}

#[no_mangle]
pub unsafe extern "C" fn rust_text(s: *const u8, n: usize) -> u32 {
    let s = bytes(s, n);
    if std::str::from_utf8(s).is_ok() && !s.contains(&0) {
        0
    } else {
        2
    }
}

#[no_mangle]
pub unsafe extern "C" fn rust_lengths(s: *const u8, n: usize) -> u32 {
    let s = bytes(s, n);
    if s.len() <= 1024 && s.split(|b| *b == b'/').all(|name| name.len() <= 255) {
        0
    } else {
        3
    }
}

#[no_mangle]
pub unsafe extern "C" fn rust_normalize(out: *mut u8, room: usize, path: *const u8, n: usize) -> u64 {
    put(out, room, &normalize_path(path_of(bytes(path, n))))
}

#[no_mangle]
pub unsafe extern "C" fn rust_absolute(
    out: *mut u8,
    room: usize,
    cwd: *const u8,
    c: usize,
    path: *const u8,
    n: usize,
) -> u64 {
    put(
        out,
        room,
        &normalize_path(&path_of(bytes(cwd, c)).join(path_of(bytes(path, n)))),
    )
}

// The last name of the path once absolute; its length.
#[no_mangle]
pub unsafe extern "C" fn rust_last(path: *const u8, n: usize, cwd: *const u8, c: usize) -> u64 {
    let whole = normalize_path(&path_of(bytes(cwd, c)).join(path_of(bytes(path, n))));
    whole.file_name().map_or(0, |name| name.len() as u64)
}

// The path behind a link of `dir`, as the lookup forms it: the target made absolute, and the names that are left pushed.
#[no_mangle]
pub unsafe extern "C" fn rust_follow(
    out: *mut u8,
    room: usize,
    dir: *const u8,
    d: usize,
    rest: *const u8,
    n: usize,
    target: *const u8,
    t: usize,
) -> u64 {
    let mut whole = normalize_path(&path_of(bytes(dir, d)).join(path_of(bytes(target, t))));
    for component in path_of(bytes(rest, n)).components() {
        if component != Component::RootDir {
            whole.push(component.as_os_str());
        }
    }
    put(out, room, &whole)
}
