"""Finds the functions of the crates in their sources, and the wrong bodies of these functions
(scripts/try-edits describes wrong bodies)."""
import collections
import os
import pathlib
import re

HEAD = re.compile(r"( *)(?:pub(?:\([a-z]+\))? )?(?:const )?fn (\w+)")
TRAIT = re.compile(r"( *)(?:pub(?:\([a-z]+\))? )?trait (\w+)")
IMPL = re.compile(r"( *)impl\b(.*)")


class Function(collections.namedtuple("Function", "module name path body")):
    """A function of a crate: its module, its name, its path below the crate, and its text."""

    def is_called(self, path):
        """Returns True if the checker's name of a function means this function or a closure in it."""
        within = f"{self.module}::" if self.module else ""
        return path == self.path or path.startswith(within) and f"::fn::{self.name}::" in f"::{path}"

    def has_proof(self, file):
        """Returns True if a file belongs to the function's own proof."""
        return file.startswith(f"proofs/{self.path.replace('::', '/')}/")


def module_of(file):
    module = file.removeprefix("src/").removesuffix(".rt").removesuffix("/mod").replace("/", "::")
    return "" if module in ("lib", "main") else module


def function_at(file, text, number):
    """Returns the function at line `number` of a file, counted from 1, or None. The lines of attributes above
    a function belong to it."""
    lines = text.split("\n")
    while number < len(lines) and lines[number - 1].lstrip().startswith("#["):
        number += 1
    start = next((it for it in range(min(number, len(lines)) - 1, -1, -1) if HEAD.match(lines[it])), None)
    if start is None:
        return None
    indent, name = HEAD.match(lines[start]).groups()
    end = start
    if not lines[start].rstrip().endswith(("{}", ";")):
        ends = (f"{indent}}}", f"{indent}{{}}")
        end = next((it for it in range(start, len(lines)) if lines[it].startswith(ends)), None)
    if end is None or end < number - 1:
        return None
    module = module_of(file)
    path = "::".join(filter(None, [module, type_at(lines, start, indent), name]))
    return Function(module, name, path, "\n".join(lines[start : end + 1]))


def type_at(lines, start, indent):
    """Returns the checker's name of the impl or trait of a method, or '' if the function is in neither."""
    if not indent:
        return ""
    for it in range(start, -1, -1):
        found = TRAIT.match(lines[it])
        if found and len(found[1]) < len(indent):
            return found[2]
        found = IMPL.match(lines[it])
        if found and len(found[1]) < len(indent):
            end = next((at for at in range(it, len(lines)) if "{" in lines[at]), it)
            return block_name(" ".join([found[2], *lines[it + 1 : end + 1]]).partition("{")[0])
    return ""


def block_name(head):
    """Returns the checker's name of an impl, from the text after the word `impl`: the type and the trait with
    its arguments, such as `AdoptFaultFromSqlError`, or the type with its arguments, such as
    `Through+MemKeeper+D`. Arguments that are only the impl's own parameters are left out."""
    given, rest = split_brackets(head.strip())
    own = {it.partition(":")[0].strip() for it in parts_of(given)}
    trait, is_of_trait, of = rest.strip().rpartition(" for ")
    refers, name, arguments = [*re.match(r"(&(?:'\w+ )?(?:mut )?)?([\w:]+)(.*)", of).groups()]
    arguments = split_brackets(arguments)[0]
    name = ("Ref" if refers else "") + name.split("::")[-1]
    name = "Any" if name in own else name
    if is_of_trait:
        trait, of_trait = [*re.match(r"([\w:]+)(.*)", trait).groups()]
        words = words_of(split_brackets(of_trait)[0])
        return name + ("" if trait == "Drop" else trait.split("::")[-1] + "".join(words))
    if all(it in own or it.startswith("'") for it in parts_of(arguments)):
        return name
    return "+".join([name, *words_of(arguments)])


def split_brackets(text):
    """Returns the text in the angle brackets at the start of a text, and the text after them. If a text
    begins otherwise, returns '' and the text."""
    depth = 0
    for at, sign in enumerate(text if text.startswith("<") else ""):
        depth += (sign == "<") - (sign == ">" and text[at - 1] != "-")
        if not depth:
            return text[1:at], text[at + 1 :]
    return "", text


def parts_of(text):
    """Returns the parts of a text between its commas. Commas in brackets do not count."""
    parts, depth = [""], 0
    for sign in text:
        depth += (sign in "<([") - (sign in ">)]")
        if sign == "," and not depth:
            parts.append("")
        else:
            parts[-1] += sign
    return [it.strip() for it in parts if it.strip()]


def words_of(text):
    """Returns the names of the types in a text, without their paths."""
    return [it.split("::")[-1] for it in re.findall(r"(?<!['\w])[A-Za-z_][\w:]*", text)]


class Edit:
    """A wrong body: the files that it changes, each with an old text and a new text, and the reason why it is
    kept, or ''."""

    def __init__(self, crate, name, lines, is_in_gate=False):
        self.crate, self.name, self.is_in_gate = crate, name, is_in_gate
        self.pairs, self.reason = [], ""
        file = old = None
        for line in lines:
            if line.startswith("file: "):
                file = line[len("file: ") :].strip()
            elif line.startswith("old: "):
                old = line[len("old: ") :]
            elif line.startswith(("reason: ", "# ")):
                self.reason = line.partition(" ")[2]
            elif line.startswith("new:"):
                self.pairs.append((file, old, line[len("new:") :].removeprefix(" ")))
            elif line:
                raise ValueError(f"{crate}/{name} has a line that begins with no known word: {line}")

    def apply(self, texts):
        """Applies the edit to the texts of the crate's files, and reads files that `texts` lacks. Returns
        True if each old text was in its file exactly once. Otherwise `texts` is not changed."""
        changed = {}
        for file, old, new in self.pairs:
            text = changed.get(file) or texts.get(file) or read(f"crates/{self.crate}/{file}")
            if not old or text.count(old) != 1:
                return False
            changed[file] = text.replace(old, new)
        texts.update(changed)
        return bool(changed)

    def function_of(self, file, old):
        """Returns the function in which a text in a file of src/ begins. Returns None for any other file, and
        if the file lacks the text."""
        text = read(f"crates/{self.crate}/{file}")
        before, is_there, _ = text.partition(old)
        if not is_there or not file.startswith("src/"):
            return None
        return function_at(file, text, before.count("\n") + 1)

    def functions(self):
        """Returns the functions that the edit changes, by path. Returns none if it changes more than
        functions and their proofs."""
        found = {}
        for file, old, _ in self.pairs:
            if file.startswith("proofs/"):
                continue
            own = self.function_of(file, old)
            if not own:
                return {}
            found[own.path] = own
        proofs = [file for file, _, _ in self.pairs if file.startswith("proofs/")]
        return found if all(any(it.has_proof(file) for it in found.values()) for file in proofs) else {}


def read(path):
    return pathlib.Path(path).read_text(encoding="utf-8")


def edits_in(crate):
    """Returns the edits of a crate: first the edits that the gate tries, then the edits of tests/edits.
    Raises ValueError if two edits have the same name, or if a line has no known form."""
    folder, path = f"crates/{crate}/must-fail", f"tests/edits/{crate}.edits"
    names = [it for it in sorted(os.listdir(folder)) if it.endswith(".edit")] if os.path.isdir(folder) else []
    found = [Edit(crate, it.removesuffix(".edit"), read(f"{folder}/{it}").split("\n"), True) for it in names]
    for paragraph in read(path).split("\n\n") if os.path.isfile(path) else []:
        head, *lines = paragraph.strip("\n").split("\n")
        if not head.startswith("edit: "):
            raise ValueError(f"a paragraph of {path} begins with no 'edit: NAME': {head}")
        found.append(Edit(crate, head[len("edit: ") :], lines))
    names = collections.Counter(it.name for it in found)
    twice = [name for name, count in names.items() if count > 1]
    if twice:
        raise ValueError(f"{crate} has two edits that are named {twice[0]}")
    return found
