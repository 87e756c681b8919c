"""What the scripts that try wrong versions share: edits of the crates' sources, and the crates compiled as Rust."""

import os
import shutil
import subprocess
import tempfile
from concurrent.futures import ThreadPoolExecutor
from pathlib import Path

from rattle_to_rust import BOUNDARIES, STD, translated

ROOT = Path(__file__).resolve().parent.parent
TIMEOUT = 300
# The library with the C functions.
LIBRARY = "wal_coordination"
SHARED = f"lib{LIBRARY}.so"


def replacements(edit):
    """(file, old, new) for each pair; a 'file:' line holds for the pairs after it."""
    file, old, pairs = "", "", []
    for line in edit.read_text().splitlines():
        if line.startswith("file: "):
            file = line.removeprefix("file: ")
        elif line.startswith("old: "):
            old = line.removeprefix("old: ")
        elif line.startswith("new:"):
            pairs.append((file, old, line.removeprefix("new:").removeprefix(" ")))
            old = ""
    return pairs


def edits_in(crates, folders):
    """The label, the crate and the file of each edit: the crates' must-fail edits, and those of differential/FOLDER."""
    for name, _ in crates:
        for edit in sorted((ROOT / "crates" / name / "must-fail").glob("*.edit")):
            yield f"{name}/{edit.stem}", name, edit
    for folder in (ROOT / "differential" / folder for folder in folders):
        if stray := set(folder.iterdir()).difference(folder / name for name, _ in crates):
            raise SystemExit(f"edits of no crate that is tried: {', '.join(map(str, sorted(stray)))}")
        for name, _ in crates:
            for edit in sorted((folder / name).glob("*.edit")):
                yield f"{folder.name}/{name}/{edit.stem}", name, edit


def edited_texts(crate, edit):
    """The crate's Rust texts after the edit's replacements in src/."""
    with tempfile.TemporaryDirectory() as folder:
        copy = Path(folder) / crate
        shutil.copytree(ROOT / "crates" / crate, copy)
        for file, old, new in replacements(edit):
            if file.startswith("src/"):
                text = (copy / file).read_text()
                if not old or text.count(old) != 1:
                    raise SystemExit(f"{edit}: its old text is not in {file} exactly once")
                (copy / file).write_text(text.replace(old, new))
        return translated(copy)


def compiled(crates, texts, folder, *kind, right=None):
    """Compiles the crates in a new folder, the last of them as this kind. Crates that have the texts of the right
    version, as all those that they need, are taken from its folder."""
    folder.mkdir()
    same = set()
    rustc = ["rustc", "--edition", "2021", "--cap-lints", "allow", "-O"]
    rustc += ["-L", str(folder), "--out-dir", str(folder), "--remap-path-prefix", f"{folder}=."]
    std = folder / "rattle_std.rs"
    std.write_text(STD)
    if right:
        shutil.copy(right.folder / "librattle_std.rlib", folder)
    else:
        subprocess.run(rustc + ["--crate-type", "rlib", str(std)], check=True)
    last, _ = crates[-1]
    for name, needs in crates:
        if right and name != last and texts[name] == right.texts[name] and same.issuperset(needs):
            shutil.copy(right.folder / f"lib{name}.rlib", folder)
            same.add(name)
            continue
        for path, text in texts[name].items():
            file = folder / "src" / name / path
            file.parent.mkdir(parents=True, exist_ok=True)
            file.write_text(text)
        # By its file, so that no other library of this name is taken.
        externs = [f"--extern={need}={folder / f'lib{need}.rlib'}" for need in ["rattle_std", *needs]]
        words = kind if name == last else ["--crate-type", "rlib"]
        root = "main.rs" if "main.rs" in texts[name] else "lib.rs"
        subprocess.run([*rustc, *words, "--crate-name", name, *externs, str(folder / "src" / name / root)], check=True)


class Version:
    """The version without an edit: its texts, and the folder with its compiled crates."""

    def __init__(self, crates, texts, folder, kind):
        self.texts = texts
        self.folder = folder
        compiled(crates, texts, folder, "--crate-type", kind)


def library(crates, texts, folder, *kind, right=None):
    """A library of this kind with the C functions."""
    compiled([*crates, (LIBRARY, BOUNDARIES)], texts, folder, *kind, right=right)


class Right(Version):
    """The library without an edit."""

    def __init__(self, crates, folder, kind):
        texts = {name: translated(ROOT / "crates" / name) for name, _ in crates}
        texts[LIBRARY] = {"lib.rs": "".join(f"extern crate {name};\n" for name in BOUNDARIES)}
        super().__init__([*crates, (LIBRARY, BOUNDARIES)], texts, folder, kind)


def each(edits, tried):
    """What becomes of each edit, in their order. tried is given its label, its crate, its file and a folder of its own.
    As many are tried at once as the machine has processors."""

    def in_folder(edit):
        with tempfile.TemporaryDirectory() as folder:
            try:
                return tried(*edit, Path(folder))
            except subprocess.CalledProcessError:
                raise SystemExit(f"{edit[0]}: what it makes of the sources does not compile")

    with ThreadPoolExecutor(os.cpu_count()) as pool:
        yield from zip(edits, pool.map(in_folder, edits))


def compared(words, env, timeout=TIMEOUT):
    """Whether ./compare shows a difference with these settings, and what it says."""
    words = [str(ROOT / "compare"), *words]
    try:
        run = subprocess.run(words, env={**os.environ, **env}, capture_output=True, text=True, timeout=timeout)
    except subprocess.TimeoutExpired:
        return True, "the port does not come to an end"
    if run.returncode < 0:
        return True, "the port stops the program"
    if run.returncode not in (0, 1):
        raise SystemExit(f"the comparison does not run:\n{run.stdout}{run.stderr}")
    if run.returncode == 1:
        return True, next(line for line in run.stdout.splitlines() if line.startswith("difference at: "))
    return False, run.stdout.strip()
