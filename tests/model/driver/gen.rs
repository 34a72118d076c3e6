//! Random jobs. They look at the state that the Rust is in, so that many calls meet something.
//! Kinds: plain (limits never reached), tight (small limits), dirty (bad texts and numbers, short buffers), long (names of up to
//! 255 bytes, so that paths pass 1,024; counted copy only), fresh (no root for a while), rename (mostly links and renames), links
//! (many links to what is there, and paths that go through them), files (open files, and what moves, replaces or removes them).
use super::*;

struct Rng(u64);

impl Rng {
  fn next(&mut self) -> u64 {
    self.0 = self.0.wrapping_add(0x9E3779B97F4A7C15);
    let mut z = self.0;
    z = (z ^ (z >> 30)).wrapping_mul(0xBF58476D1CE4E5B9);
    z = (z ^ (z >> 27)).wrapping_mul(0x94D049BB133111EB);
    z ^ (z >> 31)
  }

  fn below(&mut self, n: usize) -> usize {
    (self.next() % n as u64) as usize
  }

  fn chance(&mut self, percent: usize) -> bool {
    self.below(100) < percent
  }

  fn pick<'a, T>(&mut self, v: &'a [T]) -> &'a T {
    &v[self.below(v.len())]
  }
}

struct Gen {
  r: Rng,
  names: Vec<String>,
  dirty: bool,
  state: State,
  linked: bool,
  want: char, // the kind of entry that the call is best given
}

impl Gen {
  fn name(&mut self) -> String {
    self.r.pick(&self.names).clone()
  }

  /// A path as names, absolute, of something that is there or near it.
  fn near(&mut self) -> Vec<String> {
    if self.state.tree.is_empty() {
      return vec![self.name()];
    }
    let wanted: Vec<&Entry> = self.state.tree.iter().filter(|e| e.stat.kind == self.want && !e.path.is_empty()).collect();
    let exact = !wanted.is_empty() && self.r.chance(55);
    let e = if exact {
      self.r.pick(&wanted).path.clone()
    } else {
      let i = self.r.below(self.state.tree.len());
      let i = if i == 0 && self.r.chance(70) { self.r.below(self.state.tree.len()) } else { i };
      self.state.tree[i].path.clone()
    };
    let mut p: Vec<String> = e.split('/').skip(1).map(|s| s.to_string()).collect();
    // by way of a link to some directory on the way, if there seems to be one
    if self.r.chance(if self.linked { 75 } else { 35 }) {
      let last = p.pop();
      let up = format!("/{}", p.join("/"));
      let dir = p.last().cloned().unwrap_or_default();
      let ways: Vec<&Entry> =
        self.state.tree.iter().filter(|l| l.stat.kind == 'l' && (l.data == up.as_bytes() || l.data.ends_with(dir.as_bytes()))).collect();
      if !ways.is_empty() {
        p = self.r.pick(&ways).path.split('/').skip(1).map(|s| s.to_string()).collect();
      }
      p.extend(last);
    }
    match self.r.below(if exact { 400 } else { 100 }) {
      0..=29 => p.push(self.name()),
      30..=37 => {
        p.push(self.name());
        p.push(self.name());
      }
      38..=45 => {
        p.pop();
      }
      46..=53 => {
        p.pop();
        p.push(self.name());
      }
      _ => {}
    }
    p
  }

  fn anywhere(&mut self) -> Vec<String> {
    let n = if self.names.iter().any(|n| n.len() > 100) { 2 + self.r.below(3) } else { 1 + self.r.below(4) };
    (0..n).map(|_| self.name()).collect()
  }

  /// The text of a path, absolute or not, with names that vanish.
  fn path(&mut self) -> Bytes {
    match self.r.below(100) {
      0..=1 => return b"".to_vec(),
      2..=4 => return b"/".to_vec(),
      5 => return b".".to_vec(),
      6 => return b"..".to_vec(),
      _ => {}
    }
    let p = if self.r.chance(70) { self.near() } else { self.anywhere() };
    self.spell(p)
  }

  fn spell(&mut self, mut p: Vec<String>) -> Bytes {
    let cwd: Vec<String> = self.state.cwd.split('/').filter(|s| !s.is_empty()).map(|s| s.to_string()).collect();
    let mut absolute = true;
    if self.r.chance(25) {
      absolute = false;
      if p.starts_with(&cwd) {
        p.drain(..cwd.len());
      } else {
        for _ in 0..cwd.len() {
          p.insert(0, "..".into());
        }
      }
    }
    if self.r.chance(22) {
      let i = self.r.below(p.len() + 1);
      match self.r.below(5) {
        0 => p.insert(i, ".".into()),
        1 => p.insert(i, "".into()),
        2 => p.insert(i, "..".into()),
        _ => {
          p.insert(i, "..".into());
          let n = self.name();
          p.insert(i, n);
        }
      }
    }
    match self.r.below(100) {
      0..=6 => p.push("".into()),
      7..=9 => p.push(".".into()),
      _ => {}
    }
    let mut s = if absolute { "/".to_string() } else { String::new() };
    s += &p.join("/");
    let mut s = s.into_bytes();
    if self.dirty && self.r.chance(6) {
      let bad: [&[u8]; 8] = [b"\0", b"\xff", b"\xc0\x80", b"\xed\xa0\x80", b"\xf4\x90\x80\x80", b"\xe2\x82", b"\x80", b"\xe2\x82\xac"];
      let at = self.r.below(s.len() + 1);
      let b = *self.r.pick(&bad);
      s.splice(at..at, b.iter().copied());
    }
    if self.dirty && self.r.chance(3) {
      let n = *self.r.pick(&[254, 255, 256]);
      s.extend(std::iter::once(b'/').chain(std::iter::repeat(b'n').take(n)));
    }
    s
  }

  fn target(&mut self) -> Bytes {
    let n = self.name();
    if self.names.iter().any(|n| n.len() > 100) && self.r.chance(50) {
      let p = if self.r.chance(50) { self.anywhere() } else { self.near() };
      return format!("/{}", p.join("/")).into_bytes();
    }
    if self.linked && self.r.chance(60) {
      // some directory, file or link that is there, as an absolute path or from where the link may stand
      let e = if self.state.tree.is_empty() { String::new() } else { self.r.pick(&self.state.tree).path.clone() };
      let e = if e.is_empty() { "/".to_string() } else { e };
      return match self.r.below(4) {
        0 => e.into_bytes(),
        1 => format!("..{e}").into_bytes(),
        2 => e[1..].as_bytes().to_vec(),
        _ => e.rsplit('/').next().unwrap().as_bytes().to_vec(),
      };
    }
    match self.r.below(100) {
      0..=4 => b"".to_vec(),
      5..=8 => b"/".to_vec(),
      9..=11 => b".".to_vec(),
      12..=15 => b"..".to_vec(),
      16..=33 => format!("../{n}").into_bytes(),
      34..=35 => format!("../../../{n}").into_bytes(),
      36..=60 => n.into_bytes(),
      61..=70 => format!("{n}/{}", self.name()).into_bytes(),
      71..=74 => format!("./{n}//").into_bytes(),
      75..=90 => {
        let p = self.near();
        format!("/{}", p.join("/")).into_bytes()
      }
      _ => self.path(),
    }
  }

  fn number(&mut self) -> i128 {
    if self.r.chance(if self.dirty { 6 } else { 2 }) {
      return *self.r.pick(&[31, 32, 33, 99, 4294967295]);
    }
    self.r.below(4) as i128
  }

  fn opened(&mut self) -> i128 {
    if self.state.opens.is_empty() || self.r.chance(6) {
      return self.number();
    }
    let i = self.r.below(self.state.opens.len());
    self.state.opens[i].num as i128
  }

  fn unopened(&mut self) -> i128 {
    if self.r.chance(6) {
      return self.number();
    }
    let n = self.r.below(32) as i128;
    for k in 0..6 {
      if !self.state.opens.iter().any(|o| o.num == k) {
        return k as i128;
      }
    }
    n
  }

  fn time(&mut self) -> i128 {
    match self.r.below(20) {
      0 => *self.r.pick(&[i64::MAX as i128, i64::MIN as i128, 1_000_000_000, -1, -1_000_000_001]),
      1 => -(self.r.below(9) as i128),
      _ => self.r.below(90) as i128,
    }
  }

  fn mode(&mut self) -> i128 {
    *self.r.pick(&[0, 1, 0o600, 0o644, 0o777, 0o4755, 0xffff_ffff, 0x1_0000])
  }

  fn data(&mut self) -> Bytes {
    let n = *self.r.pick(&[0, 1, 1, 2, 3, 5, 8]);
    (0..n).map(|_| *self.r.pick(b"abcxyz\0\xff\n ")).collect()
  }

  fn lent(&mut self) -> i128 {
    if self.dirty && self.r.chance(30) {
      self.r.below(8) as i128
    } else {
      2000
    }
  }

  fn offset(&mut self) -> i128 {
    let e = [0u64, 1, 2, 5, 1 << 62, (1 << 63) - 1, (1 << 63) - 6, 1 << 63, (1 << 63) + 1, u64::MAX, u64::MAX - 1, u64::MAX - 4];
    if self.r.chance(60) {
      let k = self.r.below(12) as i128;
      if self.r.chance(50) && k > 0 {
        (1i128 << 64) - k
      } else {
        k
      }
    } else {
      *self.r.pick(&e) as i128
    }
  }

  fn call(&mut self, kind: &str, early: bool) -> Call {
    let words: &[(&str, usize)] = if early {
      &[("mkdir", 8), ("write", 10), ("link", 10), ("open", 4)]
    } else if kind == "rename" {
      &[
        ("mkdir", 10), ("write", 6), ("link", 24), ("rename", 36), ("open", 6), ("canon", 3), ("meta", 2), ("lmeta", 2), ("metan", 4),
        ("readn", 2), ("rmtree", 1), ("cwd", 3), ("list", 2), ("rmfile", 1), ("rmdir", 1),
      ]
    } else if kind == "files" {
      &[
        ("mkdir", 5), ("write", 9), ("open", 16), ("link", 9), ("rename", 20), ("copy", 8), ("hard", 6), ("rmfile", 5), ("rmtree", 3), ("chmod", 2),
        ("utimes", 3), ("close", 3), ("readn", 8), ("seek", 7), ("setlen", 6), ("chmodn", 4), ("utimesn", 5), ("metan", 10), ("read", 3),
      ]
    } else {
      &[
        ("mkdir", 10), ("write", 9), ("open", 11), ("link", 15), ("rename", 14), ("copy", 6), ("hard", 5), ("rmfile", 5), ("rmdir", 5),
        ("rmtree", 2), ("canon", 8), ("meta", 6), ("lmeta", 5), ("readlink", 5), ("chmod", 4), ("utimes", 8), ("list", 6), ("cwd", 4),
        ("umask", 2), ("close", 3), ("readn", 5), ("seek", 6), ("setlen", 4), ("chmodn", 2), ("utimesn", 3), ("metan", 7), ("read", 5),
      ]
    };
    let mut k = self.r.below(words.iter().map(|w| w.1).sum());
    let mut op = "";
    for (w, n) in words {
      if k < *n {
        op = w;
        break;
      }
      k -= n;
    }
    let by_number = ["close", "readn", "seek", "setlen", "chmodn", "utimesn", "metan"];
    if self.state.opens.is_empty() && by_number.contains(&op) && self.r.chance(90) {
      op = "open";
    }
    self.want = match op {
      "open" | "read" | "copy" | "hard" | "rmfile" => 'f',
      "readlink" => 'l',
      "rmdir" | "list" | "rmtree" => 'd',
      "rename" | "link" if kind == "files" => *self.r.pick(&['f', 'f', 'd', '-']),
      _ => *self.r.pick(&['f', 'd', 'l', 'l', '-']),
    };
    let p = if early && self.r.chance(70) {
      // something new in a directory that is there
      let dirs: Vec<&Entry> = self.state.tree.iter().filter(|e| e.stat.kind == 'd').collect();
      let mut p = if dirs.is_empty() { String::new() } else { self.r.pick(&dirs).path.clone() };
      for _ in 0..if op == "mkdir" { 1 + self.r.below(2) } else { 1 } {
        p += "/";
        p += &self.name();
      }
      p.into_bytes()
    } else {
      self.path()
    };
    self.want = '-';
    match op {
      "canon" | "read" | "readlink" => {
        let l = self.lent();
        call(op, &[&p], &[l])
      }
      "meta" | "lmeta" => {
        let l = if self.dirty && self.r.chance(10) { 0 } else { 1 };
        call(op, &[&p], &[l])
      }
      "list" => {
        let (l, m) = (self.lent(), if self.dirty && self.r.chance(20) { self.r.below(4) as i128 } else { 100 });
        call(op, &[&p], &[l, m])
      }
      "cwd" | "rmfile" | "rmdir" | "rmtree" => call(op, &[&p], &[]),
      "umask" => call(op, &[], &[self.mode()]),
      "mkdir" => call(op, &[&p], &[self.time()]),
      "open" => {
        let n = self.unopened();
        let f = if early {
          1
        } else if self.r.chance(65) { *self.r.pick(&[0, 1, 5, 8, 9]) } else { self.r.below(32) as i128 };
        call(op, &[&p], &[n, f, self.mode(), self.time()])
      }
      "write" => {
        let d = self.data();
        call(op, &[&p, &d], &[self.time()])
      }
      "copy" | "hard" => {
        self.want = if self.r.chance(50) { 'f' } else { '-' };
        let q = if self.r.chance(8) { p.clone() } else { self.path() };
        self.want = '-';
        call(op, &[&p, &q], &[self.time()])
      }
      "link" => {
        let t = self.target();
        call(op, &[&t, &p], &[self.time()])
      }
      "rename" => {
        let q = match self.r.below(100) {
          0..=4 => p.clone(),
          5..=12 => {
            let mut q = p.clone();
            q.push(b'/');
            q.extend_from_slice(self.name().as_bytes());
            q
          }
          13..=16 if is_text(&p[..p.len() / 2]) => p[..p.len() / 2].to_vec(),
          _ => {
            self.want = *self.r.pick(&['f', 'd', 'l', '-', '-']);
            let mut q = self.path();
            for _ in 0..3 {
              if q == p {
                q = self.path();
              }
            }
            q
          }
        };
        self.want = '-';
        call(op, &[&p, &q], &[self.time()])
      }
      "chmod" => call(op, &[&p], &[self.mode()]),
      "utimes" => {
        let (a, m) = (self.time(), self.time());
        call(op, &[&p], &[a, m])
      }
      "close" => call(op, &[], &[self.opened()]),
      "readn" => {
        let n = self.opened();
        call(op, &[], &[n, self.r.below(7) as i128])
      }
      "seek" => {
        let (n, o) = (self.opened(), self.r.below(3) as i128);
        call(op, &[], &[n, o, self.offset()])
      }
      "setlen" => {
        let n = self.opened();
        call(op, &[], &[n, self.r.below(14) as i128])
      }
      "chmodn" => {
        let n = self.opened();
        call(op, &[], &[n, self.mode()])
      }
      "utimesn" => {
        let n = self.opened();
        let (a, m) = (self.time(), self.time());
        call(op, &[], &[n, self.r.below(4) as i128, a, m])
      }
      "metan" => {
        let n = self.opened();
        let l = if self.dirty && self.r.chance(10) { 0 } else { 1 };
        call(op, &[], &[n, l])
      }
      _ => unreachable!("{op}"),
    }
  }
}

pub fn jobs(kind: &str, seed: u64, jobs: u64, calls: u64) {
  for j in 0..jobs {
    let mut r = Rng(seed.wrapping_mul(1_000_003).wrapping_add(j));
    let all: Vec<String> = match kind {
      "long" => [200, 250, 254, 255].iter().map(|n| "L".repeat(*n)).chain(["a".into(), "M".repeat(255)]).collect(),
      _ => ["a", "b", "c", "d"].map(String::from).to_vec(),
    };
    let mut names: Vec<String> = if kind == "long" { all } else { all[..2 + r.below(3)].to_vec() };
    if kind != "long" && r.chance(25) {
      let more = ["ab", "a.", "...", "\u{e9}", "A", "..a", "a b", "a-"];
      names.push(r.pick(&more).to_string());
    }
    let (most, room) = match kind {
      "tight" => (3 + r.below(8) as u64, 14 + r.below(30) as u64),
      "long" => (4096, 1048576),
      _ => (512, 32768),
    };
    println!("job {kind}-{seed}-{j} {most} {room}");
    let mut m = Machine::new(most, room);
    let mut g = Gen { r, names, dirty: kind == "dirty", linked: kind == "links", state: m.state(), want: '-' };
    for i in 0..calls {
      let c = if i == 0 && kind != "fresh" && g.r.chance(90) {
        let n = g.r.below(3);
        let p: Vec<String> = (0..n).map(|_| g.name()).collect();
        call("mkdir", &[format!("/{}", p.join("/")).as_bytes()], &[0])
      } else {
        let early = kind != "fresh" && i < 12 && g.r.chance(85);
        g.call(kind, early)
      };
      println!("{}", c.line());
      m.perform(&c);
      g.state = m.state();
    }
  }
}
