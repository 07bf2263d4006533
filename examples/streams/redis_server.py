"""A Redis server of one's own: on a free port of the loopback address, its files in a folder that is given."""
import contextlib
import pathlib
import socket
import subprocess
import time
from collections.abc import Iterator

import redis

from log import connect

SECONDS_TO_START = 20
SECONDS_TO_STOP = 10


def free_port() -> int:
    with socket.socket() as probe:
        probe.bind(("127.0.0.1", 0))
        return probe.getsockname()[1]


def words_of(port: int, folder: pathlib.Path) -> list[str]:
    """Each append is on the disk before it is answered; and the server ends where the process that started it does."""
    settings = {"bind": "127.0.0.1", "port": str(port), "dir": str(folder), "save": "", "appendonly": "yes", "appendfsync": "always"}
    words = ["setpriv", "--pdeathsig", "KILL", "redis-server"]
    return words + [word for name, value in settings.items() for word in (f"--{name}", value)]


def answers(port: int, child: subprocess.Popen) -> bool:
    """Whether it is this child that answers on the port."""
    try:
        return connect(port).info("server")["process_id"] == child.pid
    except redis.ConnectionError:
        return False


def wait_for(port: int, child: subprocess.Popen, output: pathlib.Path) -> None:
    deadline = time.monotonic() + SECONDS_TO_START
    while not answers(port, child):
        if child.poll() is not None or time.monotonic() > deadline:
            raise SystemExit(f"redis-server does not answer:\n{output.read_text()}")
        time.sleep(0.02)


@contextlib.contextmanager
def redis_server(folder: pathlib.Path) -> Iterator[int]:
    """Starts a server, gives its port, and stops it at the end."""
    port, output = free_port(), folder / "redis.log"
    with open(output, "wb") as sink:
        child = subprocess.Popen(words_of(port, folder), stdout=sink, stderr=subprocess.STDOUT)
    try:
        wait_for(port, child, output)
        yield port
    finally:
        child.terminate()
        try:
            child.wait(SECONDS_TO_STOP)
        except subprocess.TimeoutExpired:
            child.kill()
            child.wait()
