"""Commands as a reader types them: a folder with `recipe` in it, and a terminal."""
import os
import pathlib
import pty
import shutil
import subprocess
import sys
import tempfile
import tty

ROOT = pathlib.Path(__file__).resolve().parents[1]


def generator(tested):
    """The program to run: the first argument, otherwise the program recipe if it is built, otherwise the independent generator."""
    for path in map(pathlib.Path, sys.argv[1:] or [ROOT / 'crates/recipe/out/recipe', ROOT / 'target/independent/generate']):
        if os.access(path, os.X_OK):
            return path.resolve()
    print(f'no generator is built: {tested} not run')
    sys.exit()


def furnish(folder, program):
    """Gives the folder what is at the root of the repository, with this program as the one that is built."""
    for name in ('recipe', 'where', 'solve'):
        shutil.copy(ROOT / name, folder)
    shutil.copytree(ROOT / 'shell', folder / 'shell')
    (folder / 'examples').symlink_to(ROOT / 'examples')
    (folder / 'crates/recipe/out').mkdir(parents=True)
    (folder / 'crates/recipe/out/recipe').symlink_to(program)


def has_terminal():
    try:
        for end in pty.openpty():
            os.close(end)
    except OSError:
        return False
    return True


def shown(words, own_output=False, typed=None, **rest):
    """Runs a command on a terminal. Gives its status, what the terminal shows, and standard output if that is separate."""
    near, far = pty.openpty()
    if typed is None:
        tty.setraw(far)  # no line end is changed on the way
    else:
        os.write(near, typed)
        rest['stdin'] = far
    with tempfile.TemporaryFile() as output:
        running = subprocess.Popen(words, stdout=output if own_output else far, stderr=far, **rest)
        os.close(far)
        text = b''
        while part := more(near):
            text += part
        os.close(near)
        status = running.wait()
        output.seek(0)
        return status, text.decode(), output.read()


def more(near):
    """What the terminal shows next; nothing once the command has let go of it."""
    try:
        return os.read(near, 65536)
    except OSError:
        return b''
