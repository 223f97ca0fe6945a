"""A server of PostgreSQL for the tests, in a folder of its own."""
import glob
import os
import pwd
import shutil
import subprocess

PACKAGES = "apt-get install postgresql python3-psycopg2"
# The interpreter of the system, for which Debian's package of psycopg2 is.
SYSTEM = "/usr/bin/python3"


def binaries():
    """The folder of PostgreSQL's programs; None if there is none."""
    found = sorted(glob.glob("/usr/lib/postgresql/*/bin"), key=lambda path: int(path.split("/")[4]))
    return found[-1] if found else None


def missing():
    """What has to be installed; None if nothing has."""
    has_client = os.path.exists(SYSTEM) and subprocess.run([SYSTEM, "-c", "import psycopg2"], stderr=subprocess.DEVNULL, check=False).returncode == 0
    return None if binaries() and has_client and shutil.which("psql") else PACKAGES


class Server:
    """A server on a socket in a folder, run by another user than root, whom it refuses."""

    def __init__(self, folder):
        self._programs, self.folder = binaries(), folder
        self.dsn = f"host={folder} dbname=postgres user=tester"

    def _run(self, *words):
        command = [os.path.join(self._programs, words[0]), *words[1:]]
        if os.getuid() == 0:
            command = ["setpriv", "--reuid=postgres", "--regid=postgres", "--clear-groups", *command]
        subprocess.run(command, cwd=self.folder, stdout=subprocess.DEVNULL, stderr=subprocess.PIPE, check=True)

    def __enter__(self):
        if os.getuid() == 0:
            os.chown(self.folder, pwd.getpwnam("postgres").pw_uid, pwd.getpwnam("postgres").pw_gid)
        data = os.path.join(self.folder, "data")
        self._run("initdb", "-D", data, "-U", "tester", "-A", "trust", "-E", "UTF8", "--no-locale", "--no-sync")
        options = f"-c listen_addresses='' -c unix_socket_directories={self.folder} -c fsync=off -c max_stack_depth=512kB -c statement_timeout=60s"
        self._run("pg_ctl", "-D", data, "-w", "-l", os.path.join(self.folder, "log"), "-o", options, "start")
        return self

    def __exit__(self, *_):
        self._run("pg_ctl", "-D", os.path.join(self.folder, "data"), "-m", "immediate", "stop")

    def psql(self, script, folder, settings, encoding):
        """Runs a script through psql, as superuser in this folder, with settings as PGOPTIONS has them and an encoding to begin with. It reads
        no .psqlrc."""
        command = [os.path.join(self._programs, "psql"), "-q", "-X", "-h", self.folder, "-U", "tester", "-d", "postgres", "-f", str(script)]
        return subprocess.run(command, cwd=folder, stdout=subprocess.PIPE, stderr=subprocess.STDOUT, env={**os.environ, "PGOPTIONS": settings, "PGCLIENTENCODING": encoding}, check=False).stdout
