"""The licence notices of the libraries that the program is made of, from the toolchain."""
import pathlib

from builds import kit, sums


def libraries() -> list[str]:
    """The toolchain's libraries that the program uses, and those that these use."""
    rt = kit.module()
    crate = rt.Crate(str(sums.ROOT / 'crates' / sums.PROGRAM), str(sums.ROOT), {})
    used = [it for each in [crate, *crate.below()] for it in each.of_kit]
    return sorted(word.partition(':')[0] for word in rt.kit_sources(used) if word != '--lib')


def notices() -> str:
    """Each licence text that is next to one of the libraries, once, with their names."""
    users: dict[str, list[str]] = {}
    folder = pathlib.Path(kit.module().KIT, 'rattle')
    for name in libraries():
        for file in sorted((folder / name).glob('LICENSE*')):
            users.setdefault(file.read_text(encoding='utf-8').strip(), []).append(
                f'{name} ({file.name})')
    parts = [f"{', '.join(names)}\n\n{text}\n" for text, names in users.items()]
    rule = '\n' + 78 * '-' + '\n\n'
    return rule.join(['The program is made of these libraries too, each under its licences.\n',
                      *parts])
