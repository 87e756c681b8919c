"""Rattle to Rust, word for word: contracts go, and a slice of a C function is a pointer and a length. What is proved of
the Rattle holds no more of the Rust: it serves to run edited sources, which nothing proves.
"""

import re
from pathlib import Path

# What Rattle's std offers: the handle of a program that reads and writes, each read and write of which is one of the
# system's.
STD = """pub struct HostRuntime;

impl HostRuntime {
    pub fn stdin(&self) -> &'static std::fs::File { file(0) }
    pub fn stdout(&self) -> &'static std::fs::File { file(1) }
}

fn file(descriptor: i32) -> &'static std::fs::File {
    Box::leak(Box::new(unsafe { std::os::fd::FromRawFd::from_raw_fd(descriptor) }))
}
"""

# What a function requires and ensures, maybe by a name; and what is ghost.
CLAUSE = re.compile(r"\b(?:requires|ensures)\*?(?:\s+[\w'-]+)?\s*\{")
GHOST = re.compile(r"\bghost\b[^{};]*\{")
# What asks for tactics, and what is derived that Rust does not have.
TACTIC = re.compile(r"^[ \t]*#!?\[tactic\(.*\)\][ \t]*\n", re.M)
DERIVED = re.compile(r"#\[derive\(([^)]*)\)\]\s*")
EXPORTED = re.compile(
    r'#\[unsafe\(no_mangle\)\]\s*pub extern "C" fn (\w+)_in_rattle\(([^)]*)\)\s*(->\s*[^{]*)?\{'
)
MAIN = re.compile(r"\bfn main\((\w+): HostRuntime\)([^{]*)\{")
# What is given by value is bound to be dropped.
DROPPED = re.compile(r"\s*\+ Drop\b")
SLICE = re.compile(r"&(mut )?\[([^;\]]+)\]")


def closing(text, opening):
    """The place after the brace that closes the one at `opening`."""
    depth = 0
    for at in range(opening, len(text)):
        depth += {"{": 1, "}": -1}.get(text[at], 0)
        if depth == 0:
            return at + 1
    raise SystemExit("a clause is not closed")


def without_clauses(text):
    text = re.sub(r"^\s*(?:pub )?ghost use [^;]*;", "", text, flags=re.M)
    while clause := CLAUSE.search(text):
        text = text[: clause.start()] + text[closing(text, clause.end() - 1) :]
    while ghost := GHOST.search(text):
        text = text[: ghost.start()] + re.sub(r"^\s*[;,]", "", text[closing(text, ghost.end() - 1) :])
    return text


def derived(match):
    names = [name for name in map(str.strip, match[1].split(",")) if name and name != "Drop"]
    return f"#[derive({', '.join(names)})]\n" if names else ""


def exported(text):
    """Each C function becomes a plain one, which crates call, with a C function before it that takes slices apart. Only C
    functions have names that start with wal_, and a library's function that a C function of this name calls."""
    text = re.sub(r"\b(wal_\w+)\(", r"\1_in_rattle(", text)

    def both(match):
        name, parameters, answer = match[1], match[2], match[3] or ""
        taken, passed = [], []
        for parameter in filter(None, (p.strip() for p in parameters.split(","))):
            word, kind = (part.strip() for part in parameter.split(":", 1))
            word = word.removeprefix("mut ")
            if cells := SLICE.fullmatch(kind):
                pointer, make = ("mut", "from_raw_parts_mut") if cells[1] else ("const", "from_raw_parts")
                taken += [f"{word}: *{pointer} {cells[2]}", f"{word}_len: usize"]
                passed.append(f"unsafe {{ core::slice::{make}({word}, {word}_len) }}")
            else:
                taken.append(f"{word}: {kind}")
                passed.append(word)
        plain = f"{name}_in_rattle"
        return (
            f'#[no_mangle]\npub extern "C" fn {name}({", ".join(taken)}) {answer}{{ {plain}({", ".join(passed)}) }}\n'
            f"pub fn {plain}({parameters}) {answer}{{"
        )

    return EXPORTED.sub(both, text)


def rust(text):
    text = re.sub(r"//[^\n]*", "", text)
    text = without_clauses(TACTIC.sub("", text))
    text = DERIVED.sub(derived, text)
    text = re.sub(r"\bprove!", "debug_assert!", text)
    text = DROPPED.sub("", text)
    text = MAIN.sub(r"fn main()\2{ let \1 = rattle_std::HostRuntime;", text)
    return exported(text)


# The crates with the C functions. Together they are the static library.
BOUNDARIES = ["c_header", "c_index", "c_readers_c", "c_db_file_reader"]


def crates_of(root, names):
    """The crates and all that they need, the needed ones first, each with those that it names."""
    needs = {}
    for line in (root / "crates.txt").read_text().splitlines():
        if (line := line.split("#")[0].strip()) and ":" in line:
            crate, words = line.split(":", 1)
            needs[crate.split()[0]] = words.split()
    needs = {crate: [word for word in words if word in needs] for crate, words in needs.items()}
    order = []

    def visit(crate):
        if crate not in order:
            for needed in needs[crate]:
                visit(needed)
            order.append(crate)

    for name in names:
        visit(name)
    return [(crate, needs[crate]) for crate in order]


def translated(crate):
    """The Rust text of each source file of a crate, by its path under src/."""
    source = Path(crate) / "src"
    return {str(f.relative_to(source).with_suffix(".rs")): rust(f.read_text()) for f in sorted(source.rglob("*.rt"))}
