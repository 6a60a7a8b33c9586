"""A picture as PNG, by a converter that is installed."""
import pathlib
import re
import shutil
import subprocess
import tempfile

from bitemporal_tools.command_line import Fault

CHROMIUM = ('--headless', '--no-sandbox', '--disable-gpu', '--hide-scrollbars')
# Each converter with its words. Browsers need the size of the picture.
CONVERTERS = {
    'rsvg-convert': ('--output', '{png}', '{svg}'),
    'inkscape': ('--export-type=png', '--export-filename={png}', '{svg}'),
    **dict.fromkeys(('chromium-headless-shell', 'chromium', 'chromium-browser', 'google-chrome'), (
        *CHROMIUM, '--user-data-dir={folder}', '--window-size={width},{height}',
        '--screenshot={png}', 'file://{svg}')),
    'magick': ('{svg}', '{png}'),
}
SIGNATURE = b'\x89PNG\r\n\x1a\n'
SIZE = re.compile(r'<svg [^>]*width="(\d+)" height="(\d+)"')


def converter() -> str:
    """The first converter that is here."""
    found = next(filter(shutil.which, CONVERTERS), None)
    if found is None:
        raise Fault('--png needs a converter, and none is installed: install librsvg2-bin'
                    f' ({", ".join(CONVERTERS)} are known), or write --svg')
    return found


def png_of(svg: str) -> bytes:
    """The bytes of the picture."""
    name = converter()
    size = SIZE.search(svg)
    width, height = size.groups() if size else ('', '')
    with tempfile.TemporaryDirectory() as folder:
        source, target = (pathlib.Path(folder, f'picture.{kind}') for kind in ('svg', 'png'))
        source.write_text(svg, encoding='utf-8')
        words = [word.format(svg=source, png=target, folder=folder, width=width, height=height)
                 for word in CONVERTERS[name]]
        ran = subprocess.run([name, *words], stdout=subprocess.PIPE, stderr=subprocess.STDOUT,
                             check=False)
        data = target.read_bytes() if target.exists() else b''
    if not data.startswith(SIGNATURE):
        said = ran.stdout.decode(errors='replace').strip().splitlines() or ['it says nothing']
        raise Fault(f'{name} makes no PNG of the picture: {said[-1]}')
    return data
