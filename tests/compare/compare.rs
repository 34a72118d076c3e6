// The static library `test_probe` against Rust: the same random and enumerated texts and paths go to both, and every answer and
// every byte of the buffers is compared. The Rust side reads paths by std::path::Path::components, as the crate that this
// project stands in for does in its normalize_path.
use std::ffi::OsStr;
use std::os::unix::ffi::OsStrExt;
use std::path::{Component, Path, PathBuf};
use std::process::exit;

extern "C" {
    fn probe_text(s: *const u8, n: usize) -> u32;
    fn probe_lengths(s: *const u8, n: usize) -> u32;
    fn probe_normalize(out: *mut u8, room: usize, path: *const u8, n: usize) -> u64;
    fn probe_absolute(out: *mut u8, room: usize, cwd: *const u8, c: usize, path: *const u8, n: usize) -> u64;
    fn probe_raw(out: *mut u8, room: usize, path: *const u8, n: usize) -> u64;
    fn probe_last(path: *const u8, n: usize, cwd: *const u8, c: usize, from: *mut u64, to: *mut u64) -> u32;
    fn probe_last_name(out: *mut u8, room: usize, path: *const u8, n: usize, cwd: *const u8, c: usize) -> u64;
    fn probe_follow(
        out: *mut u8,
        room: usize,
        dir: *const u8,
        d: usize,
        behind: *const u8,
        b: usize,
        name: usize,
        target: *const u8,
        t: usize,
    ) -> u64;
}

const SEED: u64 = 20260000000000003;
const LONGEST: usize = 1024;
// The numbers of `test_probe`: a million and the refusal.
const NAME_TOO_LONG: u64 = 1_000_001;
const BEHIND_TOO_LONG: u64 = 1_000_002;
const PATH_TOO_LONG: u64 = 1_000_006;
const BUFFER_TOO_SHORT: u64 = 1_000_014;

// xorshift64*: small, and the same numbers everywhere.
struct Random(u64);

impl Random {
    fn next(&mut self) -> u64 {
        self.0 ^= self.0 >> 12;
        self.0 ^= self.0 << 25;
        self.0 ^= self.0 >> 27;
        self.0.wrapping_mul(0x2545F4914F6CDD1D) >> 16
    }

    fn below(&mut self, n: usize) -> usize {
        (self.next() % n as u64) as usize
    }

    fn pick(&mut self, from: &[u8]) -> u8 {
        from[self.below(from.len())]
    }
}

#[derive(Default)]
struct Count {
    accepted: u64,
    refused: u64,
    // of the refused ones, those with refusal 6
    long: u64,
    // of the accepted ones, joins whose plain text has more than 1,024 bytes before anything is dropped
    wide: u64,
    different: u64,
}

impl Count {
    fn add(&mut self, accepted: bool, equal: bool, what: &dyn Fn() -> String) {
        if accepted {
            self.accepted += 1;
        } else {
            self.refused += 1;
        }
        if !equal {
            self.different += 1;
            if self.different <= 3 {
                eprintln!("DIFFERENT: {}", what());
            }
        }
    }
}

// ---- texts

fn text_want(s: &[u8]) -> u32 {
    if std::str::from_utf8(s).is_ok() && !s.contains(&0) {
        0
    } else {
        2
    }
}

fn text_one(count: &mut Count, s: &[u8]) {
    let got = unsafe { probe_text(s.as_ptr(), s.len()) };
    let want = text_want(s);
    count.add(want == 0, got == want, &|| {
        format!("text {:02x?}: got {}, want {}", s, got, want)
    });
}

fn all_short_texts() -> Count {
    let mut count = Count::default();
    text_one(&mut count, &[]);
    for n in 1..=3u32 {
        for v in 0..1u32 << (8 * n) {
            text_one(&mut count, &v.to_be_bytes()[4 - n as usize..]);
        }
    }
    count
}

const EDGES: &[u8] = &[
    0x00, 0x01, 0x2f, 0x7f, 0x80, 0x8f, 0x90, 0x9f, 0xa0, 0xbf, 0xc0, 0xc1, 0xc2, 0xdf, 0xe0, 0xe1, 0xec, 0xed, 0xee,
    0xef, 0xf0, 0xf1, 0xf3, 0xf4, 0xf5, 0xf7, 0xf8, 0xfe, 0xff,
];

// A character at or beside a border of the encoding's forms, or any.
fn character(r: &mut Random) -> char {
    const BORDERS: &[u32] = &[
        0x1, 0x7f, 0x80, 0x7ff, 0x800, 0xfff, 0x1000, 0xd7ff, 0xe000, 0xffff, 0x10000, 0x3ffff, 0x40000, 0xfffff,
        0x100000, 0x10ffff,
    ];
    loop {
        let code = match r.below(4) {
            0 => BORDERS[r.below(BORDERS.len())],
            1 => 1 + r.below(0x7f) as u32,
            2 => r.below(0x10000) as u32,
            _ => r.below(0x110000) as u32,
        };
        if let Some(c) = char::from_u32(code) {
            return c;
        }
    }
}

// 4 to 40 bytes: of the edges of the classes; or valid text, whole or damaged in one byte or cut.
fn random_text(r: &mut Random) -> Vec<u8> {
    let n = 4 + r.below(37);
    if r.below(3) == 0 {
        return (0..n).map(|_| r.pick(EDGES)).collect();
    }
    let mut s = String::new();
    while s.len() < n {
        s.push(character(r));
    }
    let mut s = s.into_bytes();
    match r.below(3) {
        0 => {}
        1 => {
            let at = r.below(s.len());
            s[at] = if r.below(2) == 0 { r.pick(EDGES) } else { r.next() as u8 };
        }
        _ => s.truncate(n),
    }
    s.truncate(40);
    s
}

fn random_texts(r: &mut Random, cases: u64) -> Count {
    let mut count = Count::default();
    for _ in 0..cases {
        let s = random_text(r);
        text_one(&mut count, &s);
    }
    count
}

// ---- lengths

fn lengths_want(s: &[u8]) -> u32 {
    let mut longest = 0;
    let mut here = 0;
    for &b in s {
        here = if b == b'/' { 0 } else { here + 1 };
        longest = longest.max(here);
    }
    if s.len() <= LONGEST && longest <= 255 {
        0
    } else {
        3
    }
}

fn random_lengths(r: &mut Random, cases: u64) -> Count {
    let mut count = Count::default();
    for _ in 0..cases {
        let n = if r.below(2) == 0 {
            1000 + r.below(50)
        } else {
            r.below(1100)
        };
        let mut s: Vec<u8> = Vec::new();
        while s.len() < n {
            let most = if r.below(3) == 0 {
                250 + r.below(12)
            } else {
                r.below(250)
            };
            s.resize((s.len() + most).min(n), b'x');
            s.push(b'/');
        }
        s.truncate(n);
        let got = unsafe { probe_lengths(s.as_ptr(), s.len()) };
        let want = lengths_want(&s);
        count.add(want == 0, got == want, &|| {
            format!("lengths of {} bytes: got {}, want {}", s.len(), got, want)
        });
    }
    count
}

// ---- paths: the Rust side

fn path_of(s: &[u8]) -> &Path {
    Path::new(OsStr::from_bytes(s))
}

// normalize_path of a path that begins at the root
fn normalized(path: &Path) -> PathBuf {
    let mut done = PathBuf::from("/");
    for component in path.components() {
        match component {
            Component::Prefix(_) => unreachable!(),
            Component::RootDir => done.push("/"),
            Component::CurDir => {}
            Component::ParentDir => {
                done.pop();
            }
            Component::Normal(name) => done.push(name),
        }
    }
    done
}

// to_absolute_path: join puts a relative path behind the directory, and takes an absolute one alone
fn absolute(cwd: &[u8], path: &[u8]) -> PathBuf {
    normalized(&Path::new("/").join(path_of(cwd)).join(path_of(path)))
}

// The text as it stands in a working buffer: nothing for the root.
fn body(path: &Path) -> Vec<u8> {
    let s = path.as_os_str().as_bytes();
    if s == b"/" {
        Vec::new()
    } else {
        s.to_vec()
    }
}

// Every name with a slash before it, `..` among them.
fn raw(path: &[u8]) -> Vec<u8> {
    let mut s = Vec::new();
    for component in path_of(path).components() {
        if let Component::Normal(_) | Component::ParentDir = component {
            s.push(b'/');
            s.extend_from_slice(component.as_os_str().as_bytes());
        }
    }
    s
}

// Where each name that is kept stands: which text, from, to. A component is a part of its text, so its address tells.
fn walk_places(places: &mut Vec<(u32, u64, u64)>, text: &[u8], label: u32) {
    for component in path_of(text).components() {
        match component {
            Component::Normal(name) => {
                let name = name.as_bytes();
                let from = (name.as_ptr() as usize - text.as_ptr() as usize) as u64;
                places.push((label, from, from + name.len() as u64));
            }
            Component::ParentDir => {
                places.pop();
            }
            _ => {}
        }
    }
}

fn last(path: &[u8], cwd: &[u8]) -> (u32, u64, u64) {
    let mut places = Vec::new();
    if !path_of(path).is_absolute() {
        walk_places(&mut places, cwd, 2);
    }
    walk_places(&mut places, path, 1);
    places.pop().unwrap_or((0, 0, 0))
}

// ---- paths: random ones

// One name, or what vanishes or drops one; `long`: names of some length, so that the limit is reached.
fn piece(r: &mut Random, long: bool) -> Vec<u8> {
    match r.below(12) {
        0 => Vec::new(),
        1 => b".".to_vec(),
        2 | 3 => b"..".to_vec(),
        4 => (0..1 + r.below(4)).map(|_| r.pick(b".a")).collect(),
        _ => {
            let n = if long { 1 + r.below(120) } else { 1 + r.below(9) };
            let b = r.pick(b"abyz\xc3\xff\x00");
            (0..n)
                .map(|i| if i % 7 == 3 { r.pick(b"abc.\x80") } else { b })
                .collect()
        }
    }
}

// A path of about `aim` bytes.
fn path_about(r: &mut Random, aim: usize) -> Vec<u8> {
    let long = r.below(3) != 0;
    let mut s = Vec::new();
    if r.below(2) == 0 {
        s.push(b'/');
    }
    while s.len() < aim {
        s.extend(piece(r, long && aim > 60));
        if s.len() < aim || r.below(3) == 0 {
            s.push(b'/');
        }
    }
    s
}

// A path whose normal text has about `aim` bytes: pieces that vanish or drop a name are evened out by names.
fn path_formed(r: &mut Random, aim: usize) -> Vec<u8> {
    let mut s = path_about(r, aim / 3);
    loop {
        let n = body(&normalized(&Path::new("/").join(path_of(&s)))).len();
        if n + 1 >= aim {
            return s;
        }
        s.push(b'/');
        let more = (aim - n - 1).min(1 + r.below(250));
        let b = r.pick(b"abc");
        s.extend(std::iter::repeat(b).take(more));
        if r.below(4) == 0 {
            s.extend_from_slice(
                [
                    &b"/."[..],
                    b"//",
                    b"/x/..",
                    b"/xxxxxxxxxxxxxxxxxxxxxxxxxxxxxxxxxxxxxxxxxx/..",
                ][r.below(4)],
            );
        }
    }
}

// Half of them form a text close to the limit.
fn random_path(r: &mut Random) -> Vec<u8> {
    match r.below(6) {
        0 => path_about(r, 0),
        1 => {
            let n = r.below(40);
            path_about(r, n)
        }
        2 => {
            let n = 900 + r.below(400);
            path_about(r, n)
        }
        _ => {
            let n = LONGEST - 12 + r.below(20);
            path_formed(r, n)
        }
    }
}

// A directory and a path that together form a text close to the limit, or pass it on the way.
fn random_pair(r: &mut Random) -> (Vec<u8>, Vec<u8>) {
    match r.below(4) {
        0 => (random_path(r), random_path(r)),
        1 => {
            let n = r.below(60);
            (path_about(r, n), path_about(r, 30))
        }
        2 => {
            let n = r.below(LONGEST);
            let near = (LONGEST - 8 + r.below(14)).saturating_sub(n);
            let mut p = path_formed(r, near);
            while p.first() == Some(&b'/') {
                p.remove(0);
            }
            (path_formed(r, n), p)
        }
        _ => {
            let n = 900 + r.below(130);
            let mut p = vec![b'w'; 1 + r.below(300)];
            for _ in 0..1 + r.below(3) {
                p.extend_from_slice(b"/..");
            }
            p.push(b'/');
            let m = r.below(20);
            p.extend(path_about(r, m));
            (path_formed(r, n), p)
        }
    }
}

// ---- paths: the comparison

// A buffer of random bytes, mostly of 1,024 to 2,000.
fn buffer(r: &mut Random) -> Vec<u8> {
    let n = match r.below(32) {
        0 => r.below(LONGEST),
        1..=8 => LONGEST,
        _ => LONGEST + r.below(2001 - LONGEST),
    };
    let b = r.next() as u8;
    (0..n).map(|i| b.wrapping_add((i * 7) as u8)).collect()
}

// The answer and the buffer that a text asks for: it stands in front, and nothing else is changed.
fn formed(text: &[u8], before: &[u8]) -> (u64, Vec<u8>) {
    if before.len() < LONGEST {
        return (BUFFER_TOO_SHORT, before.to_vec());
    }
    if text.len() > LONGEST {
        return (PATH_TOO_LONG, before.to_vec());
    }
    let mut after = before.to_vec();
    after[..text.len()].copy_from_slice(text);
    (text.len() as u64, after)
}

fn same(count: &mut Count, got: (u64, Vec<u8>), want: (u64, Vec<u8>), what: &dyn Fn() -> String) {
    if want.0 == PATH_TOO_LONG {
        count.long += 1;
    }
    count.add(want.0 <= LONGEST as u64, got == want, &|| {
        format!(
            "{}: got {}, want {}, buffers {}",
            what(),
            got.0,
            want.0,
            if got.1 == want.1 { "equal" } else { "different" }
        )
    });
}

fn show(s: &[u8]) -> String {
    String::from_utf8_lossy(s).into_owned()
}

fn normalize_one(count: &mut Count, r: &mut Random) {
    let path = random_path(r);
    let before = buffer(r);
    let mut out = before.clone();
    let got = unsafe { probe_normalize(out.as_mut_ptr(), out.len(), path.as_ptr(), path.len()) };
    let want = formed(&body(&absolute(b"/", &path)), &before);
    same(count, (got, out), want, &|| format!("normalize {}", show(&path)));
}

fn raw_one(count: &mut Count, r: &mut Random) {
    let path = random_path(r);
    let before = buffer(r);
    let mut out = before.clone();
    let got = unsafe { probe_raw(out.as_mut_ptr(), out.len(), path.as_ptr(), path.len()) };
    same(count, (got, out), formed(&raw(&path), &before), &|| {
        format!("raw {}", show(&path))
    });
}

fn absolute_one(count: &mut Count, r: &mut Random) {
    let (cwd, path) = random_pair(r);
    let before = buffer(r);
    let mut out = before.clone();
    let got = unsafe {
        probe_absolute(
            out.as_mut_ptr(),
            out.len(),
            cwd.as_ptr(),
            cwd.len(),
            path.as_ptr(),
            path.len(),
        )
    };
    let want = formed(&body(&absolute(&cwd, &path)), &before);
    let plain = body(&absolute(b"/", &cwd)).len() + 1 + path.len();
    if want.0 <= LONGEST as u64 && plain > LONGEST && !path_of(&path).is_absolute() {
        count.wide += 1;
    }
    same(count, (got, out), want, &|| {
        format!("absolute {} from {}", show(&path), show(&cwd))
    });
}

// The place and the name itself; refused: the root, which has none.
fn last_one(count: &mut Count, r: &mut Random) {
    let (cwd, path) = random_pair(r);
    let (mut from, mut to) = (77, 77);
    let which = unsafe { probe_last(path.as_ptr(), path.len(), cwd.as_ptr(), cwd.len(), &mut from, &mut to) };
    let want = last(&path, &cwd);
    let before = vec![0xa5u8; 3000];
    let mut out = before.clone();
    let n = unsafe {
        probe_last_name(
            out.as_mut_ptr(),
            out.len(),
            path.as_ptr(),
            path.len(),
            cwd.as_ptr(),
            cwd.len(),
        )
    };
    let whole = absolute(&cwd, &path);
    let name = whole
        .file_name()
        .map(|name| name.as_bytes().to_vec())
        .unwrap_or_default();
    let mut after = before;
    after[..name.len()].copy_from_slice(&name);
    let equal = (which, from, to) == want && n == name.len() as u64 && out == after;
    count.add(want.0 != 0, equal, &|| {
        format!(
            "last of {} from {}: got {:?}, want {:?}, name of {} bytes",
            show(&path),
            show(&cwd),
            (which, from, to),
            want,
            n
        )
    });
}

fn follow_want(dir: &[u8], behind: &[u8], name: usize, target: &[u8], before: &[u8]) -> (u64, Vec<u8>) {
    if behind.len() < name {
        return (NAME_TOO_LONG, before.to_vec());
    }
    let at = body(&absolute(b"/", dir));
    let (have, placed) = formed(&at, before);
    if have > LONGEST as u64 {
        return (have, placed);
    }
    if at.len() + behind.len() > LONGEST {
        return (BEHIND_TOO_LONG, placed);
    }
    let mut staged = placed;
    staged[at.len()..at.len() + behind.len()].copy_from_slice(behind);
    let mut text = body(&absolute(dir, target));
    text.extend_from_slice(&behind[name..]);
    formed(&text, &staged)
}

// The link's name with its slash, and mostly a rest.
fn random_behind(r: &mut Random) -> (Vec<u8>, usize) {
    let mut behind = vec![b'/'];
    let n = 1 + r.below(30);
    behind.extend(std::iter::repeat(b'k').take(n));
    let name = behind.len();
    if r.below(4) != 0 {
        behind.push(b'/');
        let n = if r.below(2) == 0 { r.below(40) } else { r.below(500) };
        behind.extend(path_about(r, n));
    }
    if r.below(64) == 0 {
        (behind, name + 2000)
    } else {
        (behind, name)
    }
}

fn follow_one(count: &mut Count, r: &mut Random) {
    let (behind, name) = random_behind(r);
    let room = LONGEST.saturating_sub(behind.len());
    let dir = match r.below(4) {
        0 => random_path(r),
        1 => {
            let n = room.saturating_sub(r.below(3));
            path_formed(r, n)
        }
        _ => {
            let n = r.below(room + 1);
            path_formed(r, n)
        }
    };
    let target = match r.below(4) {
        0 => random_path(r),
        1 => path_about(r, 20),
        _ => {
            // close to the limit with the directory and the rest
            let have = body(&absolute(b"/", &dir)).len() + behind.len().saturating_sub(name);
            let near = (LONGEST - 8 + r.below(14)).saturating_sub(have);
            let mut t = path_formed(r, near);
            while t.first() == Some(&b'/') {
                t.remove(0);
            }
            t
        }
    };
    let before = buffer(r);
    let mut out = before.clone();
    let got = unsafe {
        probe_follow(
            out.as_mut_ptr(),
            out.len(),
            dir.as_ptr(),
            dir.len(),
            behind.as_ptr(),
            behind.len(),
            name,
            target.as_ptr(),
            target.len(),
        )
    };
    let want = follow_want(&dir, &behind, name, &target, &before);
    same(count, (got, out), want, &|| {
        format!(
            "follow {} behind {} with {} of {}",
            show(&target),
            show(&dir),
            show(&behind),
            name
        )
    });
}

fn many(r: &mut Random, cases: u64, one: fn(&mut Count, &mut Random)) -> Count {
    let mut count = Count::default();
    for _ in 0..cases {
        one(&mut count, r);
    }
    count
}

fn main() {
    let mut r = Random(SEED);
    let million = 1_000_000;
    let rows = [
        ("text, all of 0 to 3 bytes", all_short_texts()),
        ("text, random of 4 to 40 bytes", random_texts(&mut r, 10 * million)),
        ("lengths", random_lengths(&mut r, million)),
        ("normalize", many(&mut r, 2 * million, normalize_one)),
        ("absolute", many(&mut r, 2 * million, absolute_one)),
        ("raw", many(&mut r, 2 * million, raw_one)),
        ("last", many(&mut r, 2 * million, last_one)),
        ("follow", many(&mut r, 2 * million, follow_one)),
    ];
    println!("seed {}", SEED);
    println!(
        "{:<30} {:>10} {:>10} {:>10} {:>10} {:>11}",
        "", "cases", "accepted", "refused", "of these 6", "differences"
    );
    let mut different = 0;
    for (name, count) in &rows {
        let cases = count.accepted + count.refused;
        println!(
            "{:<30} {:>10} {:>10} {:>10} {:>10} {:>11}",
            name, cases, count.accepted, count.refused, count.long, count.different
        );
        if count.wide > 0 {
            println!("    accepted joins that pass 1,024 bytes on the way: {}", count.wide);
        }
        different += count.different;
    }
    if different > 0 {
        println!("FAILED: {} differences", different);
        exit(1);
    }
    println!("no differences");
}
