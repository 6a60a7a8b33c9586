"""Planted edits by place: the lines that each changes, and the functions whose bodies have these.

An edit's texts are each one line, so an edited file has the lines of the crate's own, and edits of
different functions can be laid in it together. By the layout of `rt fmt` a function runs from the
line of its `fn` to the next `}` at that indentation, and its body begins with the `{` that stands
at that indentation after its clauses, or else at the end of the lines before.
"""
from __future__ import annotations

import dataclasses
import pathlib
import re
from collections.abc import Callable, Iterable, Iterator

FUNCTION = re.compile(
    r'( *)(?:(?:pub(?:\([^)]*\))?|const|unsafe|final|extern "C") )*fn (\w+)')
IMPL = re.compile(r'( *)impl\b(?:<.*?>)? (?:.* for )?&?(?:mut )?(?:\w+::)*(\w+)')
CALL = re.compile(r'(\.|\b\w+::)?\b([a-z_]\w*)')


@dataclasses.dataclass(frozen=True)
class Function:
    """A function of a crate: its file, the type whose impl has it, its name, and its lines: the
    first one, the one at whose end its body opens, and the last one."""

    file: str
    owner: str
    name: str
    first: int
    opens: int
    last: int

    def paths(self, crate: str, printed: Iterable[str]) -> list[str]:
        """The paths of this function of the crate among those that a check printed: of a method of
        a trait all of the methods of its name in its file, since a path joins the type's name and
        the trait's. None if it cannot be told from functions of other files."""
        parts = pathlib.PurePosixPath(self.file).with_suffix('').parts[1:]
        module = '::'.join([crate, *(part for part in parts if part not in ('lib', 'mod'))])
        alike = [path for path in printed if path.rpartition('::')[2] == self.name]
        exact = [path for path in alike
                 if path == '::'.join(filter(None, [module, self.owner, self.name]))]
        here = [path for path in alike if self.owner and path.rsplit('::', 2)[0] == module]
        of_owner = [path for path in alike
                    if self.owner and re.search(rf'\b{self.owner}\b', path)]
        return exact or here or (of_owner if len(of_owner) == 1 else [])


class Sources:
    """The files of a crate's src, its functions, and which of them calls which, as far as names
    tell."""

    def __init__(self, folder: pathlib.Path) -> None:
        self.lines = {str(file.relative_to(folder)): file.read_text(encoding='utf-8').split('\n')
                      for file in sorted(folder.glob('src/**/*.rt'))}
        self.functions = [function for file, lines in self.lines.items()
                          for function in functions_of(file, lines)]
        self.below: dict[Function, set[Function]] = {}

    def function_at(self, file: str, line: int, new: str) -> Function | None:
        """The function whose body has this line, and in whose body the new text of the line is."""
        found = [it for it in self.functions if it.file == file and it.opens <= line < it.last]
        if not found or line == found[-1].opens and not new.startswith(self.lines[file][line]):
            return None
        return found[-1]

    def reached(self, function: Function) -> set[Function]:
        """The functions that it calls, directly or not."""
        if function not in self.below:
            found, left = set(), {function}
            while left:
                left = {callee for it in left for callee in self.callees(it)} - found
                found |= left
            self.below[function] = found
        return self.below[function]

    def callees(self, function: Function) -> Iterator[Function]:
        """The functions whose names its body has: a method's after a dot, one of a type after the
        type, and any other alone or after a module."""
        text = '\n'.join(self.lines[function.file][function.opens:function.last + 1])
        named = {(before.rstrip(':') or '', name) for before, name in CALL.findall(text)}
        for it in self.functions:
            owners = {'.', 'Self', it.owner} if it.owner else {''}
            if any(name == it.name and (before in owners or not it.owner and before[:1].islower())
                   for before, name in named):
                yield it


def functions_of(file: str, lines: list[str]) -> Iterator[Function]:
    """The functions of a file that have a body of more than one line, outer ones first."""
    owner, ends = '', -1
    for first, line in enumerate(lines):
        impl = IMPL.match(line)
        if impl and line.rstrip().endswith('{'):
            owner, ends = impl[2], end_of(lines, first, impl[1])
        found = FUNCTION.match(line)
        if found:
            opens = opening_of(lines, first, found[1])
            last = end_of(lines, first, found[1])
            if opens is not None and last > opens:
                yield Function(file, owner if first < ends else '', found[2], first, opens, last)


def opening_of(lines: list[str], first: int, indentation: str) -> int | None:
    """The line at whose end a function's body opens, or None if the function has no body."""
    for at in range(first, len(lines)):
        text = lines[at].removeprefix(indentation)
        if text == '{' or text.endswith(' {') and (at == first or text.startswith(')')):
            return at
        if text.endswith(';') and not text.startswith(' '):
            return None
    return None


def end_of(lines: list[str], first: int, indentation: str) -> int:
    """The line at which an item that begins at a line ends."""
    return next((at for at in range(first, len(lines)) if lines[at] == f'{indentation}}}'), first)


@dataclasses.dataclass
class Edit:
    """A planted edit: its file, the texts that it makes of files of its crate, the lines in which
    they differ from the crate's own, and the functions whose bodies have all of these; none if
    some line is elsewhere."""

    path: pathlib.Path
    texts: dict[str, str]
    changes: dict[str, dict[int, str]]
    functions: set[Function]

    def has(self, file: str, line: int) -> bool:
        """Whether a line of a file is in a function of the edit."""
        return any(it.file == file and it.first <= line <= it.last for it in self.functions)

    def clashes(self, other: Edit) -> bool:
        """Whether both are of functions of one file and name, which a check may not tell apart."""
        return bool({(it.file, it.name) for it in self.functions}
                    & {(it.file, it.name) for it in other.functions})

    def meets(self, other: Edit, sources: Sources) -> bool:
        """Whether they clash, or one is of a function that a function of the other calls."""
        return self.clashes(other) or any(
            one in sources.reached(another) or another in sources.reached(one)
            for one in self.functions for another in other.functions)


def edit_of(path: pathlib.Path, texts: dict[str, str], sources: Sources,
            folder: pathlib.Path) -> Edit:
    """The edit that makes these texts of a crate's files."""
    changes = {}
    for file, text in texts.items():
        old = (folder / file).read_text(encoding='utf-8').split('\n')
        changes[file] = {at: new for at, (was, new) in enumerate(zip(old, text.split('\n')))
                         if was != new}
    found = [sources.function_at(file, at, new)
             for file, lines in changes.items() for at, new in lines.items()]
    functions = {it for it in found if it} if all(found) else set()
    return Edit(path, texts, changes, functions)


def texts_of(edits: Iterable[Edit], folder: pathlib.Path) -> dict[str, str]:
    """The texts of the files that these edits, each of other functions, change together."""
    lines: dict[str, list[str]] = {}
    for edit in edits:
        for file, changed in edit.changes.items():
            if file not in lines:
                lines[file] = (folder / file).read_text(encoding='utf-8').split('\n')
            for at, new in changed.items():
                lines[file][at] = new
    return {file: '\n'.join(of_file) for file, of_file in lines.items()}


def batches_of(edits: Iterable[Edit], most: int,
               is_apart: Callable[[Edit, Edit], bool]) -> list[list[Edit]]:
    """The edits in batches of at most so many, in each of which no two have to be apart."""
    found: list[list[Edit]] = []
    for edit in edits:
        for batch in found:
            if len(batch) < most and not any(is_apart(edit, it) for it in batch):
                batch.append(edit)
                break
        else:
            found.append([edit])
    return found
