"""A PostgreSQL server of its own for tests, examples and benches, in a folder that goes away with it."""
import glob
import os
import pwd
import shutil
import subprocess
import tempfile
import time


def tools():
    """The folder of the server's programs, or None."""
    found = sorted(glob.glob("/usr/lib/postgresql/*/bin/postgres")) + [path for path in [shutil.which("postgres")] if path]
    return os.path.dirname(os.path.realpath(found[-1])) if found else None


def why_skipped(python):
    """Why no test of PostgreSQL can run here, or None."""
    if tools() is None:
        return "there is no PostgreSQL server (Debian: postgresql-15)"
    if python and subprocess.run([python, "-c", "import psycopg2"], stderr=subprocess.DEVNULL).returncode:
        return f"{python} has no psycopg2 (Debian: python3-psycopg2)"
    return None


class Server:
    """It listens on a socket of its folder alone. Where root runs it, it runs as the user postgres, since a server refuses to run as root.

    Its files needn't outlast the machine here, only the server, so it doesn't wait for the disk, unless `durable` asks for it.
    `settings` are lines of its configuration, which go over those here."""

    def __init__(self, *, durable=False, settings=""):
        self.folder, self.tools, self.process = tempfile.mkdtemp(prefix="sihtolem-pg-"), tools(), None
        self.user = {}
        if os.geteuid() == 0:
            who = pwd.getpwnam("postgres")
            os.chown(self.folder, who.pw_uid, who.pw_gid)
            self.user = {"user": who.pw_uid, "group": who.pw_gid, "extra_groups": []}
        self.run("initdb", "-D", f"{self.folder}/data", "-U", "postgres", "-A", "trust", "--no-sync", "--no-locale", "-E", "UTF8")
        with open(f"{self.folder}/data/postgresql.conf", "a") as file:
            file.write(f"listen_addresses = ''\nunix_socket_directories = '{self.folder}'\nmax_prepared_transactions = 300\nmax_connections = 200\n")
            file.write("" if durable else "fsync = off\n")
            file.write(settings)
        self.start()

    def __enter__(self):
        return self

    def __exit__(self, *_):
        self.kill()
        shutil.rmtree(self.folder, ignore_errors=True)

    def run(self, tool, *words):
        done = subprocess.run([f"{self.tools}/{tool}", *words], cwd=self.folder, stdout=subprocess.PIPE, stderr=subprocess.STDOUT, text=True, **self.user)
        if done.returncode:
            raise RuntimeError(f"{tool}: {done.stdout}")
        return done.stdout

    def start(self):
        with open(f"{self.folder}/log", "a") as log:
            words = [f"{self.tools}/postgres", "-D", f"{self.folder}/data"]
            self.process = subprocess.Popen(words, cwd=self.folder, stdin=subprocess.DEVNULL, stdout=log, stderr=log, **self.user)
        for _ in range(600):
            if subprocess.run([f"{self.tools}/pg_isready", "-q", "-h", self.folder], cwd=self.folder).returncode == 0:
                return
            if self.process.poll() is not None:
                # The last one's processes are still at their end.
                time.sleep(0.2)
                return self.start()
            time.sleep(0.05)
        raise RuntimeError("the server doesn't start")

    def kill(self):
        """The server dies at once, as by a kill -9; its processes find out and end."""
        if self.process:
            self.process.kill()
            self.process.wait()

    def stop(self):
        self.run("pg_ctl", "-D", f"{self.folder}/data", "-m", "fast", "-w", "stop")
        self.process.wait()

    def psql(self, database, text):
        """The rows that a text of statements gives, columns divided by |."""
        return self.run("psql", "-h", self.folder, "-U", "postgres", "-d", database, "-X", "-q", "-At", "-v", "ON_ERROR_STOP=1", "-c", text).splitlines()

    def psql_file(self, path):
        with open(path) as file:
            text = file.read()
        words = [f"{self.tools}/psql", "-h", self.folder, "-U", "postgres", "-d", "postgres", "-X", "-q", "-v", "ON_ERROR_STOP=1"]
        subprocess.run(words, input=text, text=True, check=True, cwd=self.folder, stdout=subprocess.DEVNULL, **self.user)
