"""Programs run in a folder of their own."""
import os
import resource
import signal
import subprocess
import tempfile
from collections import namedtuple

FOLDER = None  # what stands for the content of a file that is a folder
Link = namedtuple('Link', 'to')  # and of one that is a link
TESTS = os.path.dirname(os.path.dirname(os.path.abspath(__file__)))
SOURCE, FAULTS = os.path.join(TESTS, 'faults.c'), os.path.normpath(os.path.join(TESTS, '../target/faults.so'))


def make(path, content):
    if content is FOLDER:
        os.mkdir(path)
    elif isinstance(content, Link):
        os.symlink(content.to, path)
    else:
        with open(path, 'wb') as out:
            out.write(content)


def content(path):
    if os.path.islink(path):
        return Link(os.readlink(path))
    return FOLDER if os.path.isdir(path) else open(path, 'rb').read()


def faults(name, **after):
    """The environment in which a file's reads, writes and closes fail, or are short, by tests/faults.c."""
    if not os.path.exists(FAULTS) or os.path.getmtime(FAULTS) < os.path.getmtime(SOURCE):
        os.makedirs(os.path.dirname(FAULTS), exist_ok=True)
        subprocess.run(['gcc', '-shared', '-fPIC', '-O1', '-Wall', '-o', FAULTS, SOURCE], check=True)
    return dict(os.environ, LD_PRELOAD=FAULTS, FAULT_FILE=name,
                **{f'FAULT_{fault.upper()}': str(n) for fault, n in after.items()})


def run(program, files, env=None, most=None):
    """What the program writes on standard output and on standard error, and the files after it. Files are {name: content};
    where `most` is given no file may grow longer. A program ends with exit status 0, whatever it finds, where it can write."""
    def limited():
        if most is not None:
            signal.signal(signal.SIGXFSZ, signal.SIG_IGN)
            resource.setrlimit(resource.RLIMIT_FSIZE, (most, most))

    with tempfile.TemporaryDirectory() as folder:
        for name, of in files.items():
            make(os.path.join(folder, name), of)
        done = subprocess.run([os.path.abspath(program)], cwd=folder, capture_output=True, env=env, preexec_fn=limited)
        left = {name: content(os.path.join(folder, name)) for name in os.listdir(folder)}
    if done.returncode != 0:
        raise AssertionError(f'{program}: exit status {done.returncode}')
    return done.stdout.decode(), done.stderr.decode(), left
