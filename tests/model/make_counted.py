#!/usr/bin/env python3
"""Makes the counted copy of the Rust: links followed are counted, and 6 is tested where a path is formed on the walk.

usage: make_counted.py IN_MEMORY_RS OUT_RS.  Each edit must apply exactly once."""
import sys

src = open(sys.argv[1]).read()


def edit(old, new):
    global src
    assert src.count(old) == 1, (src.count(old), old)
    src = src.replace(old, new)


edit("""/// Same as Linux's limit.
""", """thread_local! {
  pub static LINKS: std::cell::Cell<u64> = const { std::cell::Cell::new(0) };
}

fn links_add() {
  LINKS.with(|l| l.set(l.get() + 1));
}

fn measured(path: PathBuf) -> Result<PathBuf> {
  if path.as_os_str().len() > 1024 {
    return Err(Error::new(ErrorKind::Other, "TOO LONG"));
  }
  Ok(path)
}

/// Same as Linux's limit.
""")
edit("          path = Cow::Owned(target_path);\n", "          path = Cow::Owned(measured(target_path)?);\n          links_add();\n")
edit("          path = Cow::Owned(resolved_path);\n", "          path = Cow::Owned(measured(resolved_path)?);\n          links_add();\n")
# rename finds the parents again, which is not counted (docs/DECISIONS.md, link counts)
edit("""    // remove the source entry
    let from_parent = inner""", """    let links = LINKS.with(|l| l.get());
    // remove the source entry
    let from_parent = inner""")
edit("""        to_parent.entries.insert(insert_pos, entry);
      }
    }

    Ok(())""", """        to_parent.entries.insert(insert_pos, entry);
      }
    }

    LINKS.with(|l| l.set(links));
    Ok(())""")
open(sys.argv[2], "w").write(src)
