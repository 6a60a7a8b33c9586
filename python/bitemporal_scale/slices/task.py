"""The task of a worker of a Dask cluster: this module's text is sent with each task, so it needs
nothing but Python's standard library there."""
import hashlib
import os
import subprocess
import tempfile


def run(program: bytes, words: list[str], script: bytes) -> tuple[int, bytes, bytes]:
    """Runs the program (its bytes) with these words on a script; its status and what it printed.

    The program stays in the worker's own folder, for the tasks that follow.
    """
    folder = worker_folder()
    path = os.path.join(folder, 'bitemporal_' + hashlib.sha256(program).hexdigest())
    if not os.path.exists(path):
        handle, made = tempfile.mkstemp(dir=folder)
        with os.fdopen(handle, 'wb') as file:
            file.write(program)
        os.chmod(made, 0o700)
        os.replace(made, path)
    ran = subprocess.run([path, *words], input=script, stdout=subprocess.PIPE,
                         stderr=subprocess.PIPE, check=False)
    return ran.returncode, ran.stdout, ran.stderr


def worker_folder() -> str:
    from distributed import get_worker  # pylint: disable=import-outside-toplevel,import-error
    return str(get_worker().local_directory)
