"""What the cases about programs share: the program, a server of this machine, and a holder of a token who asks it."""
import functools
import os
import pathlib
import shlex
import subprocess
import sys
import time

ROOT = pathlib.Path(__file__).resolve().parent.parent
HOST, KEY, SECRET = "127.0.0.1", "404142434445464748494a4b4c4d4e4f", "000102030405060708090a0b0c0d0e0f"


def fail(why, status=1):
    print(f"{pathlib.Path(sys.argv[0]).stem}: {why}", file=sys.stderr)
    sys.exit(status)


def given(default):
    """The number that the case is run with, or this one."""
    try:
        return type(default)(*sys.argv[1:]) if len(sys.argv) > 1 else default
    except (TypeError, ValueError):
        fail("it takes a number, or nothing", 2)


@functools.cache
def osc():
    """The program that OSC names, or ./osc, which scripts/build makes first where it is missing or older than the crates."""
    named = os.environ.get("OSC")
    if not named:
        subprocess.run(["bash", ROOT / "scripts/build"], check=True, stdout=sys.stderr)
    return pathlib.Path(named or ROOT / "osc").resolve()


def library(folder, name):
    """The library of bench/NAME.c, which is loaded before a program."""
    made = folder / f"{name}.so"
    try:
        subprocess.run([*shlex.split(os.environ.get("CC", "cc")), "-O2", "-shared", "-fPIC", "-o", made, ROOT / f"bench/{name}.c"], check=True)
    except (OSError, subprocess.CalledProcessError):
        fail(f"bench/{name}.c isn't compiled: it needs a C compiler, cc or the one that CC names", 2)
    return made


class Server:
    """A server at a port of this machine, with these lines more in its settings. Its settings and its log are in the folder."""

    def __init__(self, folder, port, *lines, words=(), env=None):
        settings, self.log, self.process = folder / "server.toml", folder / "server.log", None
        settings.write_text("\n".join([f'bind = "{HOST}:{port}"', f'key = "{KEY}"', 'audience = "door"', *lines]) + "\n")
        self.words, self.env = [osc(), "server", *words, "--config", settings], env

    def said(self):
        return self.log.read_text()

    def start(self):
        with open(self.log, "w") as log:
            self.process = subprocess.Popen(self.words, stdin=subprocess.DEVNULL, stderr=log, env=self.env)

    def wait(self):
        """Waits until it listens."""
        while "listening on" not in self.said():
            if self.process.poll() is not None:
                fail(f"the server doesn't start: {self.said()}")
            time.sleep(0.001)

    def kill(self):
        if self.process is not None:
            self.process.kill()
            self.process.wait()

    def __enter__(self):
        self.start()
        self.wait()
        return self

    def __exit__(self, *_):
        self.kill()


class Holder:
    """Who holds the token of this id with this scope, and asks at this port, from a port of its own: any, where it is 0."""

    def __init__(self, folder, port, scope, id="01", secret=SECRET, own=0):
        words = ["--key", KEY, "--aud", "door", "--id", id, "--secret", secret, "--scope", scope, "--for", "1d"]
        self.token = subprocess.run([osc(), "token", *words], capture_output=True, text=True, check=True).stdout.strip()
        self.config, self.secret, self.own = folder / f"{id}.toml", secret, own
        self.asks_at(port)

    def asks_at(self, port):
        self.config.write_text(f'bind = "{HOST}:{self.own}"\npeer = "{HOST}:{port}"\ntoken = "{self.token}"\nsecret = "{self.secret}"\n')

    def words(self, method, path, *more, timeout=20):
        """The words of a request."""
        return [osc(), "client", "--timeout", str(timeout), "--method", method, "--path", path, *more, "--config", self.config]

    def ask(self, *words, **more):
        """What is printed of a request."""
        ran = subprocess.run(self.words(*words, **more), capture_output=True, text=True, check=False)
        return ran.stdout.strip() or ran.stderr.strip()
