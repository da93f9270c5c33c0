"""The public calls of a crate and those that it re-exports, read from the sources of the crates below it."""
import os
import re


def code_of(path):
    """Returns the text of a source without comments."""
    return re.sub(r"//[^\n]*", "", open(path, encoding="utf-8").read())


class Crate:
    """The sources of a crate by module, and the calls of its types and traits."""

    def __init__(self, name):
        self.name, self.modules, self.methods = name, {}, {}
        root = f"crates/{name}/src"
        for folder, _, files in os.walk(root):
            for file in files:
                path = os.path.relpath(os.path.join(folder, file), root)[: -len(".rt")]
                module = () if path == "lib" else tuple(path.split("/"))
                self.modules[module] = code_of(os.path.join(folder, file))
        for code in self.modules.values():
            for kind, of, body in re.findall(r"^(?:pub )?(impl|trait)\b(?:<[^{]*?>)? ?(\w+)([^\n]*\n.*?^\})", code, re.M | re.S):
                if kind == "trait" or " for " not in body.split("{")[0]:
                    self.methods.setdefault(of, []).extend(signatures(body, "    " + ("" if kind == "trait" else "pub ")))


def signatures(code, before):
    """Returns the names and signatures of the functions that are declared after these words."""
    return re.findall(rf"^{before}fn (\w+)(.*?)(?:\{{|;|\n\s*(?:ensures|requires)\b)", code, re.M | re.S)


def asks(signature):
    """Says whether a call takes an allocator, or can report an allocation failure of one that it stores."""
    return bool(re.search(r"\bGlobal\b|\bAllocGlobal\b|\bAllocError\b", signature))


def leaves(tree):
    """Yields the paths of a `use`, as lists of words."""
    head, brace, rest = tree.strip().partition("{")
    first = [word for word in head.strip().split("::") if word]
    if not brace:
        yield [re.sub(r"\s+as\s+\w+", "", word).strip() for word in first]
        return
    depth, part = 0, ""
    for char in rest.rstrip()[:-1] + ",":
        depth += (char == "{") - (char == "}")
        if char == "," and depth == 0:
            if part.strip():
                for leaf in leaves(part):
                    yield first + leaf
            part = ""
        else:
            part += char


class Face:
    """The public calls of a crate and those that it re-exports."""

    def __init__(self, name):
        self.crates, self.calls, self.seen = {}, set(), set()
        self.module(name, ())

    def crate(self, name):
        if name not in self.crates:
            self.crates[name] = Crate(name)
        return self.crates[name]

    def module(self, name, module):
        """Adds the calls of a public module."""
        code = self.crate(name).modules.get(module)
        if code is None or (name, module) in self.seen or "laws" in module:
            return
        self.seen.add((name, module))
        inner = dict(re.findall(r"^pub mod (\w+) \{(.*?)^\}", code, re.M | re.S))
        for part in [code, *inner.values()]:
            for tree in re.findall(r"^ *pub use ([^;]*);", part, re.M):
                for path in leaves(" ".join(tree.split())):
                    self.path(name, module, path)
        for child in re.findall(r"^pub mod (\w+);", code, re.M):
            self.module(name, (*module, child))
        for item in re.findall(r"^pub (?:struct|enum|trait) (\w+)", code, re.M):
            self.type(name, item)
        for call, signature in signatures(code, "pub "):
            self.function(call, signature)

    def path(self, name, module, path):
        """Adds what a `pub use` names."""
        if path[0] == "crate":
            place, path = (), path[1:]
        elif path[0] in ("self", "super"):
            place, path = module if path[0] == "self" else module[:-1], path[1:]
        elif os.path.isdir(f"crates/{path[0]}"):
            name, place, path = path[0], (), path[1:]
        else:
            place = module
        while path and (*place, path[0]) in self.crate(name).modules:
            place, path = (*place, path[0]), path[1:]
        if not path:
            self.module(name, place)
            return
        code = self.crate(name).modules[place]
        found = [it for it in signatures(code, "pub ") if it[0] == path[-1]]
        for call, signature in found:
            self.function(call, signature)
        if re.search(rf"^pub (?:struct|enum|trait) {path[-1]}\b", code, re.M):
            self.type(name, path[-1])
        for tree in re.findall(r"^ *(?:pub )?(?:\(crate\) )?use ([^;]*);", code, re.M):
            for leaf in leaves(" ".join(tree.split())):
                if not found and leaf[-1] == path[-1] and (name, place, path[-1]) not in self.seen:
                    self.seen.add((name, place, path[-1]))
                    self.path(name, place, leaf)

    def type(self, name, item):
        for call, signature in self.crate(name).methods.get(item, []):
            self.function(f"{item}::{call}", signature)

    def function(self, call, signature):
        if asks(signature):
            self.calls.add(call)
