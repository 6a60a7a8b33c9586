"""The packages of the program: one of Debian, and an archive that runs wherever it is unpacked."""
import gzip
import hashlib
import os
import pathlib
import re
import shutil
import subprocess
import tarfile
import tempfile
from typing import IO, cast

from builds import kit, sums, version

from . import tree

NAME = 'bitemporal'
DEBIAN = sums.ROOT / 'packaging/debian'


class Release:
    """The version of a package: its number, of a release or of the commit after one, and its
    moment, in seconds since 1970, which all files of a package get."""

    def __init__(self, kind: str) -> None:
        source = (sums.ROOT / 'crates/command_line/src').rglob('*.rt')
        [self.number] = {found for file in source for found in re.findall(
            r'VERSION: &str = "([0-9.]+)"', file.read_text(encoding='utf-8'))}
        self.kind = kind
        self.moment = int(version.git('show', '-s', '--format=%ct', 'HEAD') or 0)
        if version.git('describe', '--tags', '--exact-match') is None:
            day = version.git('show', '-s', '--format=%cs', 'HEAD') or '1970-01-01'
            commit = version.git('rev-parse', '--short=12', 'HEAD') or 'none'
            self.number += f"~git{day.replace('-', '')}.{commit}"

    def author(self) -> str:
        """The person who made the commit."""
        return version.git('show', '-s', '--format=%an <%ae>', 'HEAD') or f'{NAME} <root@localhost>'

    def date(self) -> str:
        return version.git('show', '-s', '--format=%cD', 'HEAD') or 'Thu, 1 Jan 1970 00:00:00 +0000'


def archive(release: Release, into: pathlib.Path) -> pathlib.Path:
    """Makes the archive, whose one folder may be put anywhere."""
    stem = f'{NAME}-{release.number}-x86_64-linux'
    made = into / f'{stem}.tar.gz'
    with tempfile.TemporaryDirectory() as name:
        top = pathlib.Path(name, stem)
        tree.lay(tree.Tree(top, '/'), release.kind)
        with open(made, 'wb') as file, gzip.GzipFile('', 'wb', 9, file, release.moment) as packed, \
                tarfile.open(fileobj=cast(IO[bytes], packed), mode='w') as tar:
            for path in [top, *sorted(top.rglob('*'))]:
                entry = tar.gettarinfo(path, str(path.relative_to(name)))
                entry.uid = entry.gid = 0
                entry.uname = entry.gname = 'root'
                entry.mtime = release.moment
                with open(path, 'rb') if entry.isreg() else open(os.devnull, 'rb') as bytes_of:
                    tar.addfile(entry, bytes_of)
    return made


def debian(release: Release, into: pathlib.Path) -> pathlib.Path:
    """Makes the package of Debian."""
    made = into / f'{NAME}_{release.number}-1_amd64.deb'
    with tempfile.TemporaryDirectory() as name:
        folder = pathlib.Path(name)
        folder.chmod(0o755)
        laid = tree.Tree(folder, '/usr')
        tree.lay(laid, release.kind, completions='share/zsh/vendor-completions')
        as_debian_wants(release, laid)
        control(release, laid, folder)
        for path in sorted(folder.rglob('*')):
            os.utime(path, (release.moment, release.moment), follow_symlinks=False)
            if path.is_dir():
                path.chmod(0o755)
        subprocess.run(['dpkg-deb', '--root-owner-group', '-Zxz', '--build', folder, made],
                       env={**os.environ, 'SOURCE_DATE_EPOCH': str(release.moment)}, check=True,
                       stdout=subprocess.DEVNULL)
    return made


def as_debian_wants(release: Release, laid: tree.Tree) -> None:
    """The form that Debian's rules ask for: a program without symbols, packed pages of the
    manual, its own Python, one file of copyrights, and two packed lists of changes."""
    documents, program = laid.top / tree.DOCUMENTS, laid.top / tree.LIBRARY / 'program/bitemporal'
    subprocess.run(['llvm-strip', program], check=True,
                   executable=pathlib.Path(kit.module().KIT, 'toolchain/bin/clang'))
    for page in sorted((laid.top / 'share/man/man1').iterdir()):
        packed = page.with_name(f'{page.name}.gz')
        if page.is_symlink():
            packed.symlink_to(f'{os.readlink(page)}.gz')
        else:
            pack(page.read_bytes(), packed)
        page.unlink()
    for tool in sorted((laid.top / tree.LIBRARY / 'tools').iterdir()):
        if tool.is_file():
            text = tool.read_text(encoding='utf-8')
            tool.write_text(re.sub(r'\A#!/usr/bin/env python3\n', '#!/usr/bin/python3\n', text),
                            encoding='utf-8')
    for name in 'LICENSE', 'LICENSE-MIT', 'LICENSE-APACHE':
        (documents / name).unlink()
    mit = (sums.ROOT / 'LICENSE-MIT').read_text(encoding='utf-8').partition('\n\n')[2]
    text = (DEBIAN / 'copyright').read_text(encoding='utf-8').replace('@mit@', indented(mit))
    (documents / 'copyright').write_text(text, encoding='utf-8')
    pack((documents / 'CHANGELOG.md').read_bytes(), documents / 'changelog.gz')
    (documents / 'CHANGELOG.md').unlink()
    pack(f'{NAME} ({release.number}-1) unstable; urgency=medium\n\n  * See changelog.gz.\n\n'
         f' -- {release.author()}  {release.date()}\n'.encode(), documents / 'changelog.Debian.gz')
    # (dpkg knows what it installed)
    (laid.top / tree.LIST).unlink()


def indented(text: str) -> str:
    """A text as a field of Debian's has it: each line a space further, or a point."""
    return '\n'.join(f' {line}' if line else ' .' for line in text.strip().splitlines())


def pack(data: bytes, file: pathlib.Path) -> None:
    file.write_bytes(gzip.compress(data, 9, mtime=0))


def control(release: Release, laid: tree.Tree, folder: pathlib.Path) -> None:
    """Writes what dpkg reads of a package: its fields, the sums of its files, and what compiles the
    tools and takes that away."""
    files = [path for path in sorted(laid.top.rglob('*')) if path.is_file()
             and not path.is_symlink()]
    program = (laid.top / tree.LIBRARY / 'program/bitemporal').read_bytes()
    library = max(tuple(map(int, found.decode().split('.')))
                  for found in re.findall(rb'GLIBC_(2\.[0-9]+)', program))
    (folder / 'DEBIAN').mkdir()
    text = (DEBIAN / 'control').read_text(encoding='utf-8')
    for mark, value in [('@version@', f'{release.number}-1'), ('@author@', release.author()),
                        ('@library@', '.'.join(map(str, library))),
                        ('@size@', str(sum(-(-path.stat().st_size // 1024) for path in files)))]:
        text = text.replace(mark, value)
    (folder / 'DEBIAN/control').write_text(text, encoding='utf-8')
    for script in 'postinst', 'prerm':
        shutil.copyfile(DEBIAN / script, folder / 'DEBIAN' / script)
        (folder / 'DEBIAN' / script).chmod(0o755)
    (folder / 'DEBIAN/md5sums').write_text(''.join(
        f'{hashlib.md5(path.read_bytes()).hexdigest()}  {path.relative_to(folder)}\n'
        for path in files), encoding='utf-8')
