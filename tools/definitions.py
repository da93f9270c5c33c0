"""The definitions of specs/: their lines, and which other definitions each of them uses."""
import glob
import re

HEAD = re.compile(r"(\s*)(?:\w+ )*?pub (?:(record|data) )?([\w']+)")
IMPORT = re.compile(r"(?m)^use Rattle\.([\w.]+)\.\{([^}]*)\}")
WORD = re.compile(r"[A-Za-z_][\w']*")


def read(path):
    with open(path, encoding="utf-8") as file:
        return file.read()


def blocks_of(text):
    """Returns the lines of each definition of a file, without comments and blank lines, by its name."""
    found, name, indent, has_fields = {}, None, 0, False
    for line in re.sub(r"--.*", "", text).split("\n"):
        head = HEAD.match(line)
        if not line.strip() or line.startswith("use "):
            continue
        if line.lstrip().startswith("module "):
            name = None
        elif head and not (name and has_fields and len(head[1]) > indent):
            name, indent, has_fields = head[3], len(head[1]), head[2] is not None
        if name:
            found.setdefault(name, []).append(line)
    return found


class Definitions:
    """All definitions. One is named by its name and its file."""

    def __init__(self):
        crates = re.findall(r"(?m)^(\w+)[ :]", read("crates.txt"))
        found = [sorted(glob.glob(f"crates/{name}/specs/**/*.antt", recursive=True)) for name in crates]
        paths = [path for of_crate in found for path in of_crate]
        self.blocks = {path: blocks_of(read(path)) for path in paths}
        self.imports = {path: self.imports_of(read(path)) for path in paths}

    def imports_of(self, text):
        """Returns the file of each word that a file imports from another one."""
        files = {path[len("crates/") : -len(".antt")].replace("/", "."): path for path in self.blocks}
        return {word.strip(): files[module] for module, words in IMPORT.findall(text) if module in files
                for word in words.split(",")}

    def named(self, name):
        """Returns the definition of this name in the lowest crate that has one."""
        return next((name, path) for path, found in self.blocks.items() if name in found)

    def between(self, first, last):
        """Returns the definitions of a file from one to another."""
        path, names = next((path, [*it]) for path, it in self.blocks.items() if first in it and last in it)
        return [(name, path) for name in names[names.index(first) : names.index(last) + 1]]

    def used_by(self, name, path):
        """Yields the definitions that one mentions."""
        for word in set(WORD.findall("\n".join(self.blocks[path][name]))):
            where = path if word in self.blocks[path] else self.imports[path].get(word)
            if where and word in self.blocks[where]:
                yield word, where

    def all_of(self, named):
        """Returns definitions and all that they use."""
        found, left = set(), [*named]
        while left:
            it = left.pop()
            if it not in found:
                found.add(it)
                left += self.used_by(*it)
        return found

    def lines(self, named):
        return sum(len(self.blocks[path][name]) for name, path in named)
