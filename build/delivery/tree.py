"""The installed files and their places: the program, its tools, pages of the manual,
completions, documents and units of systemd with their user.

All of it is in PREFIX/lib/bitemporal, but for what has a place of its own. There the launcher is,
as in the repository, and next to it the program, by which it knows that it is installed, and a line
that says what the program is made from. The file `installed` lists all that was laid.
"""
import compileall
import os
import pathlib
import shutil

from builds import kit, sums, version

from . import notices

ROOT = sums.ROOT
LIBRARY, DOCUMENTS = 'lib/bitemporal', 'share/doc/bitemporal'
LIST = f'{LIBRARY}/installed'
# The tools by the names of their commands, and what else they are made of.
TOOLS = {f"bitemporal-{name.replace('_', '-')}": name for name in [
    'run', 'explain', 'load', 'answers', 'totals', 'durations', 'ever', 'timeline', 'versions',
    'over_days', 'to_postgresql', 'distribute', 'alter', 'dump', 'restore', 'history', 'diff',
    'forget', 'serve']}
MODULES = ['session', 'folders.py', 'in_package.py']
PACKAGES = ['bitemporal_tools', 'bitemporal_scale', 'bitemporal_server']
PROGRAMS = ['bitemporal', 'bitemporal_file']


class Tree:
    """Lays files below a folder, as what is to be at a prefix."""

    def __init__(self, folder: pathlib.Path, prefix: str) -> None:
        self.top, self.prefix = folder / prefix.lstrip('/'), prefix
        self.laid: list[str] = []

    def place(self, name: str) -> pathlib.Path:
        """The place of a new file with this name, which replaces one that exists."""
        path = self.top / name
        path.parent.mkdir(parents=True, exist_ok=True)
        path.unlink(missing_ok=True)
        self.laid.append(name)
        return path

    def copy(self, source: pathlib.Path, name: str, mode: int = 0o644) -> None:
        path = self.place(name)
        shutil.copyfile(source, path)
        path.chmod(mode)

    def write(self, name: str, text: str) -> None:
        path = self.place(name)
        path.write_text(text, encoding='utf-8')
        path.chmod(0o644)

    def link(self, name: str, to: str) -> None:
        """A link to another of the files, from its own folder."""
        self.place(name).symlink_to(os.path.relpath(to, os.path.dirname(name)))

    def copy_folder(self, source: pathlib.Path, name: str) -> None:
        for file in sorted(source.rglob('*')):
            if file.is_file() and '__pycache__' not in file.parts:
                mode = 0o755 if os.access(file, os.X_OK) else 0o644
                self.copy(file, f'{name}/{file.relative_to(source)}', mode)


def lay(tree: Tree, kind: str, completions: str = 'share/zsh/site-functions',
        is_compiled: bool = False) -> None:
    """Lays all that is installed of a build, `proved` or `quick`; the tools compiled too, if this
    Python is the one that runs them."""
    lay_program(tree, kind)
    lay_tools(tree)
    if is_compiled:
        compile_tools(tree)
    lay_documents(tree, kind)
    for page in sorted((ROOT / 'packaging/man').glob('*.1')):
        tree.copy(page, f'share/man/man1/{page.name}')
    for command in TOOLS:
        if not (ROOT / f'packaging/man/{command}.1').exists():
            tree.link(f'share/man/man1/{command}.1', 'share/man/man1/bitemporal-tools.1')
    lay_completions(tree, completions)
    for unit in sorted((ROOT / 'packaging/systemd').iterdir()):
        text = unit.read_text(encoding='utf-8').replace('@bin@', f'{tree.prefix}/bin')
        tree.write(f'lib/systemd/system/{unit.name}', text)
    tree.copy_folder(ROOT / 'packaging/sysusers', 'lib/sysusers.d')
    tree.write(LIST, ''.join(f'{name}\n' for name in sorted([*tree.laid, LIST])))


def lay_completions(tree: Tree, zsh: str) -> None:
    """Lays the completions of the programs and of the tools, whose names they have to list."""
    of_bash, of_zsh = [(ROOT / 'packaging/completions' / name).read_text(encoding='utf-8').replace(
        '@tools@', ' '.join(TOOLS)) for name in ('bitemporal.bash', '_bitemporal')]
    for name in [*PROGRAMS, *TOOLS]:
        tree.write(f'share/bash-completion/completions/{name}', of_bash)
    tree.write(f'{zsh}/_bitemporal', of_zsh)


def lay_program(tree: Tree, kind: str) -> None:
    build = sums.PROVED if kind == 'proved' else sums.QUICK
    tree.copy(build.file, f'{LIBRARY}/program/bitemporal', 0o755)
    tree.link(f'{LIBRARY}/program/bitemporal_file', f'{LIBRARY}/program/bitemporal')
    tree.copy(ROOT / 'bitemporal', f'{LIBRARY}/bitemporal', 0o755)
    tree.link(f'{LIBRARY}/bitemporal_file', f'{LIBRARY}/bitemporal')
    tree.write(f'{LIBRARY}/version', f'{version.made_from(kind)}\n')
    for name in PROGRAMS:
        tree.link(f'bin/{name}', f'{LIBRARY}/{name}')


def lay_tools(tree: Tree) -> None:
    for name in [*TOOLS.values(), *MODULES]:
        source = ROOT / 'tools' / name
        mode = 0o755 if os.access(source, os.X_OK) else 0o644
        tree.copy(source, f'{LIBRARY}/tools/{name}', mode)
    for name in PACKAGES:
        tree.copy_folder(ROOT / 'python' / name, f'{LIBRARY}/python/{name}')
    for command, name in TOOLS.items():
        tree.link(f'bin/{command}', f'{LIBRARY}/tools/{name}')


def compile_tools(tree: Tree) -> None:
    """Compiles the modules of the tools, whose users may not write there."""
    compileall.compile_dir(tree.top / LIBRARY, quiet=2)
    tree.laid += sorted(str(file.relative_to(tree.top))
                        for file in (tree.top / LIBRARY).rglob('__pycache__/*'))


def lay_documents(tree: Tree, kind: str) -> None:
    """The pages for users, the examples, the licences and what the program was made from."""
    for name in 'README.md', 'CHANGELOG.md', 'LICENSE', 'LICENSE-MIT', 'LICENSE-APACHE':
        tree.copy(ROOT / name, f'{DOCUMENTS}/{name}')
    tree.copy_folder(ROOT / 'docs', f'{DOCUMENTS}/docs')
    tree.copy_folder(ROOT / 'examples', f'{DOCUMENTS}/examples')
    tree.write(f'{DOCUMENTS}/NOTICES', notices.notices())
    tree.write(f'{DOCUMENTS}/made-from', made_from(kind))


def made_from(kind: str) -> str:
    """The sums of what a build is made from, as `sha256sum --check` takes them at the top of the
    repository, after the build's own sums, which are in its stamp."""
    build = sums.PROVED if kind == 'proved' else sums.QUICK
    toolchain = pathlib.Path(kit.module().KIT, 'KIT-ID').read_text(encoding='utf-8').splitlines()
    head = [version.made_from(kind), f'toolchain {toolchain[0]}',
            *build.stamp.read_text(encoding='utf-8').splitlines()]
    files = [file for part in ['crates.txt', *build.more, *sums.folders([*build.parts, 'proofs'])]
             for file in sums.within(ROOT / part) if file.is_file()]
    return ''.join([*(f'# {line}\n' for line in head),
                    *(f'{sums.sum_of_file(file)}  {file.relative_to(ROOT)}\n' for file in files)])


def remove(top: pathlib.Path) -> int:
    """Removes what was installed at a prefix, and the folders that this leaves empty. Gives how
    many files there were."""
    names = (top / LIST).read_text(encoding='utf-8').splitlines()
    for name in names:
        (top / name).unlink(missing_ok=True)
    for cache in list((top / LIBRARY).rglob('__pycache__')):  # of another Python, run by root
        shutil.rmtree(cache)
    # (the folders of a prefix may belong to other programs, even if they are empty)
    for name in sorted({str(folder) for name in names for folder in pathlib.Path(name).parents},
                       key=len, reverse=True):
        if 'bitemporal' in name and (top / name).is_dir() and not any((top / name).iterdir()):
            (top / name).rmdir()
    return len(names)
