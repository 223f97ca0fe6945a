#!/usr/bin/env python3
"""Tries how the program without proof is compiled in parts (tools/parts.py): what a file without bodies says, what a part hands out, and
that each file that may come without bodies is understood. Then it compiles the program, which has to come in parts.

  tests/parts.py [--texts]

With --texts it compiles nothing. The last line is `N passed, N failed`."""
import re
import subprocess
import sys
from pathlib import Path

ROOT = Path(__file__).resolve().parent.parent
sys.path.insert(0, str(ROOT / "tools"))
import front_end
import parts
import repository

SOURCE = """impl Pile {
    /// How many there are.
    pub fn count(&self) -> usize
        ensures { result ≡ length self.now }
    {
        let all = self.all.as_slice();
        all.len()
    }

    pub const fn most() -> usize {
        let most = 8;
        most
    }

    fn is_empty(&self) -> bool {
        self.count() == 0
    }
}

impl Drop for Pile {
    fn drop(self) {
        let Pile { all } = self;
        drop(all);
    }
}

pub fn put(
    pile: &mut Pile,
    pair: (u8, &[Option<u8>]),
) -> Result<(), AllocError> {
    for value in pair.1 {
        pile.push(value)?;
    }
    Ok(())
}
"""
WITHOUT = """impl Pile {
    /// How many there are.
    pub fn count(&self) -> usize
        ensures { result ≡ length self.now }
    {
        loop {
            crate::sqlkeep_left_out();
        }
    }

    pub const fn most() -> usize {
        let most = 8;
        most
    }

    fn is_empty(&self) -> bool {
        self.count() == 0
    }
}

impl Drop for Pile {
    fn drop(self) {
        let Pile { all } = self;
        drop(all);
    }
}

pub fn put(
    pile: &mut Pile,
    pair: (u8, &[Option<u8>]),
) -> Result<(), AllocError> {
    loop {
        crate::sqlkeep_left_out();
    }
}
"""
MARK = 'define internal void @"low::sqlkeep_left_out"() #0 {\n  ret void\n}\n'
CALLER = (
    'define i32 @main() #0 {\n  call void @"low::put"(ptr null)\n  ret i32 0\n}\n'
    'define internal void @"low::put"(ptr noundef %0) #0 {\n  call void @"low::sqlkeep_left_out"()\n  ret void\n}\n'
)
MAKER = 'define i32 @main() #0 {\n  ret i32 0\n}\ndefine internal void @"low::put"(ptr noundef %0) #0 {\n  ret void\n}\n'
JOINED = 'define i32 @main() #0 {\n  call void @"low::put"(ptr null)\n  ret i32 0\n}\ndeclare hidden void @"low::put"(ptr noundef %0)\n'
HANDED_OUT = 'define weak_odr hidden void @"low::put"(ptr noundef %0) #0 {\n  ret void\n}\n'


def refused(modules):
    """Why these modules don't fit, or nothing."""
    try:
        parts.handed_over(modules)
    except parts.NoPart as why:
        return str(why)
    return None


def bodies_left(crate):
    """The functions of a crate that keep a body of several lines where it is left out, other than drops."""
    found = []
    for name, text in parts.files_of(crate).items():
        lines = parts.without_bodies(text).split("\n")
        for at, line in enumerate(lines):
            head = parts.HEAD.match(line)
            block = parts.body(lines, at) if head and head[2] != "drop" else None
            if block and block[1] - block[0] > 2 and parts.LEFT_OUT not in lines[block[0] + 2]:
                found.append(f"{crate}/{name}: {head[2]}")
    return found


def kinds(pattern):
    """The alternatives of a pattern, outside of parentheses."""
    found, depth = [""], 0
    for sign in pattern:
        depth += (sign == "(") - (sign == ")")
        found = [*found, ""] if sign == "|" and depth == 0 else [*found[:-1], found[-1] + sign]
    return found


def texts():
    """Each test of the texts, with whether it passes."""
    yield "bodies are left out by the layout", parts.without_bodies(SOURCE) == WITHOUT
    yield "a call has a value for each parameter", front_end.calls("low", SOURCE) == ["    let _ = low::put(any(), any());\n"]
    yield "a method is called by its type", front_end.calls("low::Pile", SOURCE, r"^    pub fn (\w+)\(") == ["    let _ = low::Pile::count(any());\n"]
    caller, maker = parts.Module(CALLER), parts.Module(MAKER)
    names = parts.handed_over([caller, maker])
    yield "what is called and not made is handed over", names == {'@"low::put"'}
    yield "the part that calls it declares it", caller.joined(names, True) == JOINED
    yield "the part that makes it hands it out", maker.joined(names, False) == HANDED_OUT
    yield "what no part makes is told", refused([caller, parts.Module(MARK)]) == 'no part makes @"low::put"'
    for crate in sorted(repository.below([repository.PROGRAM, repository.LIBRARY], repository.crates())):
        yield f"every body of {crate} is found", bodies_left(crate) == []
    for library in parts.UNUSED:
        files = [file.relative_to(front_end.source(library)) for file in front_end.source(library).rglob("*.rt")]
        yield f"{library} has each kind of file that nothing uses", all(any(re.match(kind, file.as_posix()) for file in files) for kind in kinds(parts.UNUSED[library]))


def program():
    """Whether the program compiles in parts, and answers."""
    made = subprocess.run([sys.executable, str(ROOT / "tools" / "unproved.py")], capture_output=True, text=True, check=False)
    yield "the program compiles", made.returncode == 0
    yield "it comes in parts" + (": " + made.stderr if "one piece" in made.stderr else ""), "one piece" not in made.stderr
    ran = subprocess.run([str(ROOT / "out" / "unproved" / "sqlkeep"), str(ROOT / "examples" / "authors.sql")], capture_output=True, check=False)
    yield "it answers", ran.stdout == (ROOT / "examples" / "authors.out").read_bytes()


def main(words):
    passed = failed = 0
    for what, is_so in [*texts(), *([] if "--texts" in words else program())]:
        passed, failed = passed + is_so, failed + (not is_so)
        if not is_so:
            print(f"FAILED: {what}")
    print(f"{passed} passed, {failed} failed")
    return int(failed > 0)


if __name__ == "__main__":
    sys.exit(main(sys.argv[1:]))
