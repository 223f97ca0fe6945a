"""The library of preload.c: it is built with the machine's C compiler, and a program is run under it."""
import os
import shutil
import subprocess
import tempfile

HERE = os.path.dirname(os.path.abspath(__file__))


class Library:
    """The built library, in a folder of its own that goes away at the end."""

    def __init__(self):
        self.folder = tempfile.mkdtemp(prefix='preload-')
        self.path, self.told = os.path.join(self.folder, 'preload.so'), os.path.join(self.folder, 'told')
        compiler = os.environ.get('CC', 'cc')
        subprocess.run([compiler, '-shared', '-fPIC', '-O1', '-o', self.path, os.path.join(HERE, 'preload.c')], check=True)

    def __enter__(self):
        return self

    def __exit__(self, *_):
        shutil.rmtree(self.folder)

    def run(self, program, script, words=(), **variables):
        """Standard output, status and standard error; the variables are those of preload.c."""
        settings = {name: str(value) for name, value in variables.items()}
        try:
            done = subprocess.run([program, *words], input=script, capture_output=True, timeout=300, check=False, env={'LD_PRELOAD': self.path, **settings})
            return done.stdout, done.returncode, done.stderr
        except subprocess.TimeoutExpired:
            return b'no answer in 300 s', -1, b''

    def counts(self, program, script, words=()):
        """How many requests for memory, reads and writes a run makes of which nothing is refused."""
        self.run(program, script, words, TELL=self.told)
        with open(self.told, encoding='ascii') as file:
            return [int(word) for word in file.read().split()]
