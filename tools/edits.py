"""The edits of the crates and checks of crates with edits, for .ci/check_mutants and tools/mutants.

An edit is a file of crates/NAME/must-fail or crates/NAME/mutants: a line 'file: src/PATH', and then pairs of lines
'old: TEXT' and 'new: TEXT'. The kit's own `rt` is loaded as a module, so that edits, crates, the arguments of a check
and kept libraries are those of `rt must-fail` and `rt ci`.
"""
import glob
import hashlib
import importlib.util
import json
import os
import re
import shutil
import subprocess
import sys
import tempfile
from importlib.machinery import SourceFileLoader

sys.dont_write_bytecode = True
SETS = ("must-fail", "mutants")
PARTS = ("src", "specs", "proofs")
FUNCTION = re.compile(r'(\s*)(?:pub(?:\([^)]*\))? )?(?:const |unsafe |extern "C" )*fn (\w+)')
BLOCK = re.compile(r"(impl|trait|macro_rules!)\b")
GENERICS = re.compile(r"^(?:impl|trait)\s*(<(?:[^<>]|<[^<>]*>|<[^<>]*<[^<>]*>[^<>]*>)*>)?")


def load(path):
    """Returns a program of the kit as a module."""
    loader = SourceFileLoader(os.path.basename(path), path)
    module = importlib.util.module_from_spec(importlib.util.spec_from_loader(loader.name, loader))
    loader.exec_module(module)
    return module


rt = load(os.path.realpath(shutil.which("rt")))


def read(path):
    with open(path, encoding="utf-8") as file:
        return file.read()


def write(path, text):
    with open(path, "w", encoding="utf-8") as file:
        file.write(text)


class Edit:
    """An edit, the functions that it changes, whether it must be tried alone, and the result of its trial."""

    def __init__(self, path):
        self.path, self.name, self.text = path, os.path.basename(path).removesuffix(".edit"), read(path)
        self.folder = os.path.dirname(os.path.dirname(path))
        self.functions, self.is_alone, self.result = set(), False, None

    def applied(self, folder):
        """Returns the texts of the files that it changes in a copy of its crate, or None and why it can't be
        applied."""
        odd = [line for line in self.text.splitlines() if not re.match(r"file: src/|old: |new:|\s*$", line)]
        return (None, f"a line is not read: {odd[0]}") if odd else rt.edited(self.text, folder)

    def find_functions(self, names):
        """Finds the functions that it changes, by their names in a check. The argument has the names of the functions
        of its crate."""
        crate, texts = os.path.basename(self.folder), self.applied(self.folder)[0] or {}
        for path, text in texts.items():
            lines = read(f"{self.folder}/{path}").split("\n")
            for at, line in enumerate(text.split("\n")):
                if line != lines[at]:
                    start = max((it for it in range(at + 1) if FUNCTION.match(lines[it])), default=-1)
                    self.functions |= {function_at(crate, path, lines, start, names)}
                    same = "\n".join([*lines[start:at], os.path.commonprefix([line, lines[at]])])
                    self.is_alone |= not is_in_body(same)
        if None in self.functions:
            # one in a macro, say
            self.functions, self.is_alone = set(), True


def is_in_body(text):
    """Returns whether a text that begins with the head of a function ends in its body, and not in its head or a
    clause."""
    while text != (less := re.sub(r"\{[^{}]*\}", ";", text)):
        text = less
    head, opened, _ = text.partition("{")
    return bool(opened) and not re.search(r"\b(requires|ensures|ghost)\b[^;]*$", head)


def function_at(crate, path, lines, start, names):
    """Returns the name of the function that begins in a line of a source, or None if it can't be determined."""
    if start < 0:
        return None
    indent, function = FUNCTION.match(lines[start]).groups()
    words = [crate, *path[len("src/") : -len(".rt")].split("/")]
    module = [it for it in words if it not in ("lib", "main", "mod")]
    if not indent:
        return "::".join([*module, function])
    block = max((it for it in range(start) if BLOCK.match(lines[it])), default=None)
    header = re.split(r"\{| where ", " ".join(lines[block : start + 1]))[0] if block is not None else ""
    header = GENERICS.sub("", header).replace("()", "Unit").replace("&", "Ref ")
    words = {it[0].upper() + it[1:] for it in re.findall(r"\w+", header) if it not in ("for", "mut")}

    def distance(name):
        # `impl From<A> for B` is BFromA; the functions of a type are below the module of the type
        *above, owner, _ = name.split("::")
        rest = re.sub("|".join([r"Tuple\d+|\+", *sorted(words, key=len, reverse=True)]), "", owner)
        return rest, sum(it not in owner for it in words), -len(os.path.commonprefix([above, module]))

    fits = [(distance(it), it) for it in names if it.endswith(f"::{function}") and it.count("::") > 1]
    fits = sorted(it for it in fits if not it[0][0])
    is_one = len(fits) == 1 or len(fits) > 1 and fits[0][0] < fits[1][0]
    return fits[0][1] if is_one else None


def lines_of_crates():
    """Returns the lines of crates.txt by the names of their crates, the lowest first."""
    lines = (line.split("#")[0].strip() for line in read("crates.txt").splitlines())
    return {re.split("[ :]", line)[0]: line for line in lines if line}


def edits_of(*sets):
    """Returns the edits of the crates that have some, by the names of the crates, the lowest first."""
    found = {}
    for name in lines_of_crates():
        paths = [path for it in sets for path in glob.glob(f"crates/{name}/{it}/*.edit")]
        if paths:
            found[name] = [Edit(path) for path in sorted(paths)]
    return found


def checksums(edits):
    """Returns the checksum of all that a trial of the mutants of each crate reads."""
    lines, known = lines_of_crates(), {}

    def sum_of(*parts):
        return hashlib.sha256(repr(parts).encode()).hexdigest()[:32]

    def sources(name):
        if name not in known:
            files = [path for it in PARTS for path in glob.glob(f"crates/{name}/{it}/**", recursive=True)]
            texts = [(path, read(path)) for path in sorted(files) if os.path.isfile(path)]
            words = sorted(lines[name].replace(":", " ").split())
            known[name] = sum_of(words, texts, [sources(it) for it in words if it in lines and it != name])
        return known[name]

    def mutants(name):
        return [(it.name, it.text) for it in edits[name] if "/mutants/" in it.path]

    return {name: sum_of(read(f"{rt.KIT}/KIT-ID").strip(), sources(name), mutants(name)) for name in edits}


def record(crate):
    """Returns the path of the record of a crate's last trial."""
    return f"crates/{crate}/mutants/TRIED"


def recorded(crate):
    """Returns the checksum in the record of a crate's last trial, if there is one."""
    found = re.search(r"^checksum (\w+)$", read(record(crate)) if os.path.isfile(record(crate)) else "", re.M)
    return found and found[1]


class Workshop:
    """A copy of the crates in a folder. The crates that a trial needs have their libraries: those that `rt ci` keeps of
    the same sources, or those in libs/crates/NAME/out."""

    def __init__(self, room, names, libs=None):
        for path in glob.glob("crates.txt") + glob.glob("HANDLES"):
            shutil.copyfile(path, f"{room}/{path}")
        for path in glob.glob("crates/*/*"):
            if os.path.basename(path) in PARTS:
                shutil.copytree(path, f"{room}/{path}")
        # (so that `rt` treats it as the top of a repository)
        os.mkdir(f"{room}/.git")
        rt.Crate.allowed, rt.Crate.cuts_libraries = rt.handles_of(room), True
        self.crates, self.ready = {it.name: it for it in rt.crates_of(room)}, set()
        needed = set().union(*(self.needed(it) for it in names))
        # (kit 13b keeps no libraries but these)
        libs = libs or ("." if not hasattr(rt, "Kept") else None)
        kept = None if libs else rt.Kept([*self.crates.values()])
        for crate in (it for name, it in self.crates.items() if name in needed):
            if libs and os.path.isdir(f"{libs}/crates/{crate.name}/out"):
                os.symlink(os.path.abspath(f"{libs}/crates/{crate.name}/out"), f"{crate.folder}/out")
                self.ready.add(crate.name)
            elif kept and kept.give(crate, False, kept.key(crate)):
                kept.is_built(crate)
                self.ready.add(crate.name)

    def needed(self, name):
        """Returns the names of the crates that a trial of a crate needs proved: those below it, and itself."""
        return {it.name for it in [*self.crates[name].below(), self.crates[name]]}

    def names(self, name):
        """Returns the names of a crate's functions in a check, or none for a static library."""
        path = f"{self.crates[name].folder}/out/rlib/{name}.rlib/toolchain/mir.json"
        return [it[0] for it in json.loads(read(path))] if os.path.isfile(path) else []

    def copy(self, name, to):
        for part in PARTS:
            if os.path.isdir(f"{self.crates[name].folder}/{part}"):
                shutil.copytree(f"{self.crates[name].folder}/{part}", f"{to}/{part}")

    def check(self, name, folder, functions, *flags):
        """Checks these functions of a copy of a crate and those that they call, or all of it where none is given.
        Returns the status, what was said and the seconds of processor time."""
        crate = self.crates[name]
        own = crate.words(["--jobs", "1"], tests=crate.has_tests(), keeps=False)
        words = [*rt.rtlib.guarded(), rt.rtlib.RATTLE, "check", *own]
        words += [word for it in functions for word in ("--only", it)]
        with tempfile.TemporaryFile("w+", errors="replace") as said:
            how = {"stdin": subprocess.DEVNULL, "stdout": said, "stderr": subprocess.STDOUT}
            run = subprocess.Popen([*words, *flags], cwd=folder, **how)
            _, status, used = os.wait4(run.pid, 0)
            run.returncode = os.waitstatus_to_exitcode(status)
            said.seek(0)
            return run.returncode, said.read(), used.ru_utime + used.ru_stime

    def apply(self, edits, folder):
        """Applies to a copy of the crate each edit that does not conflict with earlier ones, and returns the applied
        edits. One that can't be applied at all gets its result."""
        group, changed = [], set()
        for edit in edits:
            if group and (edit.is_alone or group[0].is_alone or edit.functions & changed):
                continue
            texts, why = edit.applied(folder)
            if why and not group:
                edit.result = ("bad", why)
            elif not why:
                for path, text in texts.items():
                    write(f"{folder}/{path}", text)
                group, changed = [*group, edit], changed | edit.functions
        return group

    def compile(self, name, edits):
        """Compiles edits of a crate, as many at a time as possible. One that does not compile gets its result."""
        while edits:
            with tempfile.TemporaryDirectory(prefix="mutants-") as folder:
                self.copy(name, folder)
                group = self.apply(edits, folder)
                said = self.check(name, folder, [""])[1] if group else "only="
            if not re.search(r"^only=", said, re.M):
                for edit in group if len(group) > 1 else []:
                    self.compile(name, [edit])
                if len(group) == 1:
                    group[0].result = ("bad", next((it for it in said.splitlines() if "error" in it), said[-200:]))
            edits = [it for it in edits if it not in group and not it.result]
