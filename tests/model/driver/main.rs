//! Runs jobs on the Rust (sys_traits' InMemorySys) and prints, for every call, what it answers and the whole state it leaves.
//!
//!   driver gen KIND SEED JOBS CALLS   random jobs, as job lines (below), to standard output
//!   driver run FILE                   one JSON line for each line of FILE
//!   driver raw FILE                   the same of the Rust alone: nothing below is added, and its error or panic is given in words
//!
//! A job: `job ID MOST ROOM`, then a call a line: its word, its texts as `x` and hex, its numbers.
//! Refusals are 01's numbers. 5, 7 to 13 are the Rust's own (by kind and message of the error; a panic of the link at `/` is 5, an
//! overflow of the seek from the end is 13). What the Rust does not have is worked out here from 01 and marked so: 2, 3 and 4
//! before the call, 6 of a path made absolute before it, 6 on the walk in the counted copy alone, 14 after an accepted call, 15
//! and 16 from the whole state after it (the job so far is then run again without the call).
use std::collections::BTreeMap;
use std::ffi::OsStr;
use std::io::{Error, ErrorKind, Read, Seek, SeekFrom};
use std::os::unix::ffi::OsStrExt;
use std::panic::{catch_unwind, AssertUnwindSafe};
use std::path::Path;
use std::time::{Duration, SystemTime, UNIX_EPOCH};

use sys_traits::impls::{InMemoryFile, InMemorySys};
use sys_traits::*;

type Bytes = Vec<u8>;

// ---- calls

#[derive(Clone, Debug)]
struct Call {
  op: String,
  texts: Vec<Bytes>,
  nums: Vec<i128>,
}

fn call(op: &str, texts: &[&[u8]], nums: &[i128]) -> Call {
  Call { op: op.into(), texts: texts.iter().map(|t| t.to_vec()).collect(), nums: nums.to_vec() }
}

fn hex(b: &[u8]) -> String {
  b.iter().map(|b| format!("{b:02x}")).collect()
}

fn unhex(s: &str) -> Bytes {
  (0..s.len() / 2).map(|i| u8::from_str_radix(&s[2 * i..2 * i + 2], 16).unwrap()).collect()
}

impl Call {
  fn line(&self) -> String {
    let mut l = self.op.clone();
    for t in &self.texts {
      l += &format!(" x{}", hex(t));
    }
    for n in &self.nums {
      l += &format!(" {n}");
    }
    l
  }

  fn parse(l: &str) -> Call {
    let mut it = l.split(' ');
    let mut c = Call { op: it.next().unwrap().into(), texts: vec![], nums: vec![] };
    for f in it {
      match f.strip_prefix('x') {
        Some(h) => c.texts.push(unhex(h)),
        None => c.nums.push(f.parse().unwrap()),
      }
    }
    c
  }
}

// ---- what is seen

#[derive(Clone, Debug)]
struct Stat {
  kind: char,
  size: u64,
  mode: u32,
  times: [i128; 4], // accessed, changed, created, modified
}

#[derive(Clone, Debug)]
struct Entry {
  path: String, // "" is the root
  stat: Stat,
  data: Bytes,
  file: String,
}

#[derive(Clone, Debug)]
struct OpenFile {
  num: u64,
  pos: u64,
  kept: String,
  file: String,
  bytes: Bytes,
  mode: u32,
  times: [i128; 4],
}

#[derive(Clone, Debug, Default)]
struct State {
  tree: Vec<Entry>,
  opens: Vec<OpenFile>,
  cwd: String,
  mask: u32,
}

#[derive(Clone, Debug, Default)]
struct Reply {
  refusal: u64,
  number: u64,
  out: Bytes,
  rows: Vec<Stat>,
  links: u64,
  how: &'static str, // who says so: rust, panic or driver
  said: String,      // the Rust's kind and message, or its panic
}

fn json_times(t: &[i128; 4]) -> String {
  format!("[{},{},{},{}]", t[0], t[1], t[2], t[3])
}

fn json_stat(s: &Stat) -> String {
  format!("[\"{}\",{},{},{}]", s.kind, s.size, s.mode, json_times(&s.times))
}

impl Reply {
  fn json(&self) -> String {
    let rows: Vec<_> = self.rows.iter().map(json_stat).collect();
    format!(
      "\"r\":{},\"number\":{},\"out\":\"{}\",\"rows\":[{}],\"links\":{},\"how\":\"{}\",\"said\":\"{}\"",
      self.refusal, self.number, hex(&self.out), rows.join(","), self.links, self.how, hex(self.said.as_bytes())
    )
  }
}

impl State {
  fn json(&self) -> String {
    let tree: Vec<_> = self
      .tree
      .iter()
      .map(|e| format!("[\"{}\",{},\"{}\",\"{}\"]", hex(e.path.as_bytes()), json_stat(&e.stat), hex(&e.data), e.file))
      .collect();
    let opens: Vec<_> = self
      .opens
      .iter()
      .map(|o| {
        format!(
          "[{},{},\"{}\",\"{}\",\"{}\",{},{}]",
          o.num, o.pos, hex(o.kept.as_bytes()), o.file, hex(&o.bytes), o.mode, json_times(&o.times)
        )
      })
      .collect();
    format!(
      "{{\"tree\":[{}],\"opens\":[{}],\"cwd\":\"{}\",\"mask\":{}}}",
      tree.join(","), opens.join(","), hex(self.cwd.as_bytes()), self.mask
    )
  }

  fn entries_used(&self) -> u64 {
    self.tree.len() as u64
  }

  fn bytes_used(&self) -> u64 {
    let mut n = 0;
    for e in &self.tree {
      n += e.path.rsplit('/').next().unwrap().len() + e.data.len();
    }
    let mut seen: Vec<&str> = self.tree.iter().map(|e| e.file.as_str()).collect();
    for o in &self.opens {
      if !seen.contains(&o.file.as_str()) {
        seen.push(&o.file);
        n += o.bytes.len();
      }
    }
    n as u64
  }
}

// ---- times

fn time(n: i128) -> SystemTime {
  if n >= 0 {
    UNIX_EPOCH + Duration::from_nanos(n as u64)
  } else {
    UNIX_EPOCH - Duration::from_nanos((-n) as u64)
  }
}

fn nanos(t: SystemTime) -> i128 {
  match t.duration_since(UNIX_EPOCH) {
    Ok(d) => d.as_nanos() as i128,
    Err(e) => -(e.duration().as_nanos() as i128),
  }
}

fn stat_of(m: &dyn FsMetadataValue) -> Stat {
  let kind = match m.file_type() {
    FileType::Dir => 'd',
    FileType::File => 'f',
    FileType::Symlink => 'l',
    _ => '?',
  };
  let times = [m.accessed(), m.changed(), m.created(), m.modified()].map(|t| nanos(t.unwrap()));
  Stat { kind, size: m.len(), mode: m.mode().unwrap(), times }
}

fn as_path(b: &[u8]) -> &Path {
  Path::new(OsStr::from_bytes(b))
}

/// What the Debug form of a file shows: kept path, file (its lock's address), mode, times, position.
fn debugged(f: &InMemoryFile) -> (String, String, u32, [i128; 4], u64) {
  let s = format!("{f:?}");
  let tail = &s[s.rfind(", path: \"").unwrap() + 9..];
  let end = tail.find("\", inner: Lock@").unwrap();
  let kept = tail[..end].to_string();
  let tail = &tail[end + 15..];
  let file = tail[..tail.find('(').unwrap()].to_string();
  let field = |name: &str| -> i128 {
    let t = &tail[tail.find(&format!("{name}: SystemTime {{ tv_sec: ")).unwrap() + name.len() + 23..];
    let sec: i128 = t[..t.find(',').unwrap()].parse().unwrap();
    let t = &t[t.find("tv_nsec: ").unwrap() + 9..];
    let ns: i128 = t[..t.find(' ').unwrap()].parse().unwrap();
    sec * 1_000_000_000 + ns
  };
  let times = ["accessed", "changed", "created", "modified"].map(field);
  let t = &tail[tail.find(", mode: ").unwrap() + 8..];
  let mode = t[..t.find(' ').unwrap()].parse().unwrap();
  let t = &tail[tail.rfind(", pos: ").unwrap() + 7..];
  let pos = t[..t.find(' ').unwrap()].parse().unwrap();
  (kept, file, mode, times, pos)
}

// ---- running

struct Machine {
  sys: InMemorySys,
  files: BTreeMap<u64, InMemoryFile>,
  accepted: Vec<Call>,
  most: u64,
  room: u64,
}

/// 01's number for an error of the Rust, with the kind that 01 names for it.
fn classify(op: &str, e: &Error) -> u64 {
  let m = e.to_string();
  let other = ErrorKind::Other;
  let (n, kind) = match m.as_str() {
    "Path leads into a file or symlink" => (9, other),
    "Cannot open root or invalid path" | "Cannot remove root or invalid path" => (5, other),
    "Cannot rename root or invalid path" | "Cannot rename to root or invalid path" => (5, other),
    "Path is not a file" | "Not a file" | "Not a directory" | "Path is not a directory" => (10, other),
    "Cannot hard link directories or symlinks" => (10, other),
    "Cannot overwrite a non-directory with a directory" => (10, other),
    "Cannot overwrite a directory with a non-directory" => (10, other),
    "Cannot rename a directory into itself or a subdirectory" => (11, other),
    "Destination directory is not empty" | "File already exists (create_new=true)" => (12, ErrorKind::AlreadyExists),
    "Directory is not empty" => (12, other),
    "Seeking before start of file" => (13, ErrorKind::InvalidInput),
    "TOO LONG" => (6, other),
    _ if m.starts_with("Symlink loop detected resolving") => (7, other),
    _ if m.starts_with("Path is not a symlink") => (10, ErrorKind::InvalidInput),
    _ if m.starts_with("Directory already exists") => (12, ErrorKind::AlreadyExists),
    _ if e.kind() == ErrorKind::NotFound => (8, ErrorKind::NotFound),
    _ => panic!("unknown error of {op}: {e:?}"),
  };
  assert_eq!(e.kind(), kind, "{op}: {e:?}");
  n
}

fn refused(refusal: u64, how: &'static str) -> Reply {
  Reply { refusal, how, ..Default::default() }
}

/// Valid text, and the lengths of refusal 3.
fn is_text(s: &[u8]) -> bool {
  std::str::from_utf8(s).is_ok() && !s.contains(&0)
}

fn lengths_ok(s: &[u8]) -> bool {
  s.len() <= 1024 && s.split(|b| *b == b'/').all(|p| p.len() <= 255)
}

#[cfg(feature = "counted")]
fn links_reset() {
  sys_traits::impls::LINKS.with(|l| l.set(0));
}
#[cfg(feature = "counted")]
fn links_read() -> u64 {
  sys_traits::impls::LINKS.with(|l| l.get())
}
#[cfg(not(feature = "counted"))]
fn links_reset() {}
#[cfg(not(feature = "counted"))]
fn links_read() -> u64 {
  0
}

impl Machine {
  fn new(most: u64, room: u64) -> Self {
    Machine { sys: InMemorySys::default(), files: BTreeMap::new(), accepted: vec![], most, room }
  }

  fn state(&self) -> State {
    let mut s = State::default();
    s.cwd = self.sys.env_current_dir().unwrap().to_str().unwrap().to_string();
    s.mask = self.sys.env_umask().unwrap();
    if let Ok(m) = self.sys.fs_symlink_metadata("/") {
      s.tree.push(Entry { path: String::new(), stat: stat_of(&m), data: vec![], file: String::new() });
      self.walk("", &mut s.tree);
    }
    for (num, f) in &self.files {
      let (kept, file, mode, times, pos) = debugged(f);
      let mut g = f.clone();
      let mut bytes = vec![];
      g.seek(SeekFrom::Start(0)).unwrap();
      g.read_to_end(&mut bytes).unwrap();
      s.opens.push(OpenFile { num: *num, pos, kept, file, bytes, mode, times });
    }
    s
  }

  // The real directory at `dir`, walked without the lookups' length limit in mind: no link is met.
  fn walk(&self, dir: &str, tree: &mut Vec<Entry>) {
    let at = if dir.is_empty() { "/" } else { dir };
    for e in self.sys.fs_read_dir(at).unwrap() {
      let e = e.unwrap();
      let path = format!("{dir}/{}", e.file_name().to_str().unwrap());
      let stat = stat_of(&e.metadata().unwrap());
      let mut entry = Entry { path: path.clone(), stat, data: vec![], file: String::new() };
      match entry.stat.kind {
        'f' => {
          entry.data = self.sys.fs_read(&path).unwrap().to_vec();
          entry.file = debugged(&self.sys.fs_open(&path, &OpenOptions::new_read()).unwrap()).1;
        }
        'l' => entry.data = self.sys.fs_read_link(&path).unwrap().as_os_str().as_bytes().to_vec(),
        _ => {}
      }
      let is_dir = entry.stat.kind == 'd';
      tree.push(entry);
      if is_dir {
        self.walk(&path, tree);
      }
    }
  }

  /// The text of a path made absolute, by 01's words alone.
  fn absolute(&self, s: &[u8]) -> Bytes {
    let cwd = self.sys.env_current_dir().unwrap();
    let mut all = vec![];
    if s.first() != Some(&b'/') {
      all.extend_from_slice(cwd.as_os_str().as_bytes());
      all.push(b'/');
    }
    all.extend_from_slice(s);
    let mut names: Vec<&[u8]> = vec![];
    for p in all.split(|b| *b == b'/') {
      match p {
        b"" | b"." => {}
        b".." => {
          names.pop();
        }
        _ => names.push(p),
      }
    }
    let mut out = vec![];
    for n in names {
      out.push(b'/');
      out.extend_from_slice(n);
    }
    out
  }

  /// 2, 3, 4, and 6 of a path made absolute.
  fn screen(&self, c: &Call) -> u64 {
    let texts: Vec<&Bytes> = c.texts.iter().take(if c.op == "write" { 1 } else { 2 }).collect();
    if !texts.iter().all(|t| is_text(t)) {
      return 2;
    }
    if !texts.iter().all(|t| lengths_ok(t)) {
      return 3;
    }
    match c.op.as_str() {
      "open" if c.nums[0] > 31 || self.files.contains_key(&(c.nums[0] as u64)) => return 4,
      "close" | "readn" | "seek" | "setlen" | "chmodn" | "utimesn" | "metan"
        if c.nums[0] > 31 || !self.files.contains_key(&(c.nums[0] as u64)) =>
      {
        return 4
      }
      _ => {}
    }
    if matches!(c.op.as_str(), "canon" | "cwd") && c.texts[0].is_empty() {
      return 0; // the Rust's own 8
    }
    let made_absolute = match c.op.as_str() {
      "utimes" => &c.texts[..0],
      "link" => &c.texts[1..],
      "write" => &c.texts[..1],
      _ => &c.texts[..],
    };
    if made_absolute.iter().any(|t| self.absolute(t).len() > 1024) {
      return 6;
    }
    0
  }

  fn perform(&mut self, c: &Call) -> Reply {
    let n = self.screen(c);
    if n != 0 {
      return refused(n, "driver");
    }
    links_reset();
    let done = catch_unwind(AssertUnwindSafe(|| self.act(c)));
    let links = links_read();
    match done {
      Ok(Ok(mut r)) => {
        r.how = "rust";
        r.links = links;
        let short = match c.op.as_str() {
          "canon" | "read" | "readlink" => r.out.len() as i128 > c.nums[0],
          "meta" | "lmeta" => c.nums[0] < 1,
          "metan" => c.nums[1] < 1,
          "list" => r.out.len() as i128 > c.nums[0] || r.rows.len() as i128 > c.nums[1],
          _ => false,
        };
        if short {
          return refused(14, "driver");
        }
        self.accepted.push(c.clone());
        let s = self.state();
        let over = if s.entries_used() > self.most {
          15
        } else if s.bytes_used() > self.room {
          16
        } else {
          0
        };
        if over != 0 {
          self.accepted.pop();
          self.again();
          return refused(over, "driver");
        }
        r
      }
      Ok(Err(e)) => refused(classify(&c.op, &e), "rust"),
      Err(_) => match c.op.as_str() {
        "link" => refused(5, "panic"),
        "seek" => refused(13, "panic"),
        op => panic!("{op} panicked: {}", c.line()),
      },
    }
  }

  /// The Rust's own answer, with no refusal of 01 added.
  fn perform_raw(&mut self, c: &Call) -> Reply {
    match catch_unwind(AssertUnwindSafe(|| self.act(c))) {
      Ok(Ok(mut r)) => {
        r.how = "rust";
        r
      }
      Ok(Err(e)) => {
        let mut r = refused(classify(&c.op, &e), "rust");
        r.said = format!("{:?}: {e}", e.kind());
        r
      }
      Err(p) => {
        let said = p.downcast_ref::<&str>().map(|s| s.to_string()).or(p.downcast_ref::<String>().cloned()).unwrap_or_default();
        Reply { said, ..refused(99, "panic") }
      }
    }
  }

  fn again(&mut self) {
    self.sys = InMemorySys::default();
    self.files.clear();
    for c in self.accepted.clone() {
      self.act(&c).unwrap();
    }
  }

  /// The call on the Rust.
  fn act(&mut self, c: &Call) -> std::io::Result<Reply> {
    let sys = self.sys.clone();
    let mut r = Reply::default();
    let p = |i: usize| as_path(&c.texts[i]);
    let n = |i: usize| c.nums[i];
    let at = |i: usize| sys.set_time(Some(time(c.nums[i])));
    match c.op.as_str() {
      "canon" => r.out = sys.base_fs_canonicalize(p(0))?.as_os_str().as_bytes().to_vec(),
      "cwd" => sys.base_env_set_current_dir(p(0))?,
      "umask" => r.number = sys.env_set_umask(n(0) as u32)? as u64,
      "mkdir" => {
        at(0);
        sys.base_fs_create_dir(p(0), &CreateDirOptions::new_recursive())?;
      }
      "open" => {
        at(3);
        let mut o = OpenOptions::new();
        o.create = n(1) & 1 != 0;
        o.create_new = n(1) & 2 != 0;
        o.truncate = n(1) & 4 != 0;
        o.append = n(1) & 8 != 0;
        o.mode = if n(1) & 16 != 0 { Some(n(2) as u32) } else { None };
        let f = sys.base_fs_open(p(0), &o)?;
        self.files.insert(n(0) as u64, f);
      }
      "read" => r.out = sys.base_fs_read(p(0))?.to_vec(),
      "write" => {
        at(0);
        sys.base_fs_write(p(0), &c.texts[1])?;
      }
      "copy" => {
        at(0);
        r.number = sys.base_fs_copy(p(0), p(1))?;
      }
      "hard" => {
        at(0);
        sys.base_fs_hard_link(p(0), p(1))?;
      }
      "link" => {
        at(0);
        sys.base_fs_symlink_file(p(0), p(1))?;
      }
      "rmfile" => sys.base_fs_remove_file(p(0))?,
      "rmdir" => sys.base_fs_remove_dir(p(0))?,
      "rmtree" => sys.base_fs_remove_dir_all(p(0))?,
      "rename" => {
        at(0);
        sys.base_fs_rename(p(0), p(1))?;
      }
      "meta" => r.rows = vec![stat_of(&sys.base_fs_metadata(p(0))?)],
      "lmeta" => r.rows = vec![stat_of(&sys.base_fs_symlink_metadata(p(0))?)],
      "readlink" => r.out = sys.base_fs_read_link(p(0))?.as_os_str().as_bytes().to_vec(),
      "chmod" => sys.base_fs_set_permissions(p(0), n(0) as u32)?,
      "utimes" => sys.base_fs_set_file_times(p(0), time(n(0)), time(n(1)))?,
      "list" => {
        for e in sys.base_fs_read_dir(p(0))? {
          let e = e?;
          r.out.extend_from_slice(e.file_name().as_bytes());
          r.out.push(0);
          r.rows.push(stat_of(&e.metadata()?));
        }
      }
      op => {
        let f = self.files.get_mut(&(n(0) as u64)).unwrap();
        match op {
          "close" => {
            self.files.remove(&(n(0) as u64));
          }
          "readn" => {
            let mut buf = vec![0xEE; n(1) as usize];
            let k = f.read(&mut buf)?;
            assert!(buf[k..].iter().all(|b| *b == 0xEE));
            r.out = buf[..k].to_vec();
          }
          "seek" => {
            let k = n(2) as u64;
            r.number = f.seek(match n(1) {
              0 => SeekFrom::Start(k),
              1 => SeekFrom::Current(k as i64),
              _ => SeekFrom::End(k as i64),
            })?;
          }
          "setlen" => f.fs_file_set_len(n(1) as u64)?,
          "chmodn" => f.fs_file_set_permissions(n(1) as u32)?,
          "utimesn" => {
            let mut t = FsFileTimes::new();
            t.accessed = if n(1) & 1 != 0 { Some(time(n(2))) } else { None };
            t.modified = if n(1) & 2 != 0 { Some(time(n(3))) } else { None };
            f.fs_file_set_times(t)?;
          }
          "metan" => r.rows = vec![stat_of(&f.fs_file_metadata()?)],
          _ => panic!("no such word: {op}"),
        }
      }
    }
    match c.op.as_str() {
      "canon" | "read" | "readlink" | "readn" => r.number = r.out.len() as u64,
      "list" => r.number = r.rows.len() as u64,
      _ => {}
    }
    Ok(r)
  }
}

mod gen;

fn main() {
  std::panic::set_hook(Box::new(|i| {
    let s = i.to_string();
    if !s.contains("Option::unwrap()") && !s.contains("overflow") {
      eprintln!("{s}");
    }
  }));
  let args: Vec<String> = std::env::args().collect();
  if args[1] == "gen" {
    let num = |i: usize| args[i].parse().unwrap();
    gen::jobs(&args[2], num(3), num(4), num(5));
    return;
  }
  let mut m = Machine::new(0, 0);
  for l in std::fs::read_to_string(&args[2]).unwrap().lines() {
    if l.is_empty() || l.starts_with('#') {
      continue;
    }
    if let Some(h) = l.strip_prefix("job ") {
      let f: Vec<&str> = h.split(' ').collect();
      m = Machine::new(f[1].parse().unwrap(), f[2].parse().unwrap());
      println!("{{\"job\":\"{}\",\"most\":{},\"room\":{}}}", f[0], m.most, m.room);
    } else {
      let c = Call::parse(l);
      let r = if args[1] == "raw" { m.perform_raw(&c) } else { m.perform(&c) };
      println!("{{\"call\":\"{}\",{},\"state\":{}}}", c.line(), r.json(), m.state().json());
    }
  }
}
