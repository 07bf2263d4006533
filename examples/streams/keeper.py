"""Keeps programs running: kills each some times, starts it again, and waits until each has ended by itself."""
import random
import signal
import subprocess
import time
from dataclasses import dataclass

MOST_MOMENTS = 60
MOST_SECONDS = 1.5
LOOK_EVERY = 0.005


@dataclass
class Program:
    """A program of a kind (feeder or host), the words that start it, and how often it may still be killed."""

    kind: str
    words: list[str]
    kills_left: int
    killed: int = 0
    done: bool = False
    child: subprocess.Popen | None = None
    kill_at: float | None = None

    def start(self, draw: random.Random, step: bool) -> None:
        """Starts it, to be killed at an append or by the clock; with `step`, just after its first append each time."""
        words, self.kill_at = self.words, None
        if self.kills_left:
            if step:
                words = [*words, "--die-at", "1"]
            elif draw.random() < 0.5:
                words = [*words, "--die-at", str(draw.randrange(MOST_MOMENTS))]
            else:
                self.kill_at = time.monotonic() + draw.uniform(0, MOST_SECONDS)
        self.child = subprocess.Popen(words)

    def look(self) -> bool:
        """Whether it has to be started again; it kills the program whose time has come."""
        if self.kill_at is not None and time.monotonic() > self.kill_at:
            self.child.kill()
            self.child.wait()
        status = self.child.poll()
        if status == -signal.SIGKILL:
            self.killed += 1
            self.kills_left -= 1
            return True
        if status:
            raise SystemExit(f"{' '.join(self.words)}: status {status}")
        self.done = status == 0
        return False

    def stop(self) -> None:
        if self.child is not None:
            self.child.kill()
            self.child.wait()


@dataclass
class Keeper:
    """Programs, what is drawn by chance, and whether each is killed after every single append."""

    programs: list[Program]
    draw: random.Random
    step: bool

    def run(self, seconds: float) -> None:
        """Returns when all programs have ended by themselves with status 0."""
        try:
            for program in self.programs:
                program.start(self.draw, self.step)
            self._wait_for_all(time.monotonic() + seconds)
        finally:
            for program in self.programs:
                program.stop()

    def _wait_for_all(self, deadline: float) -> None:
        while running := [program for program in self.programs if not program.done]:
            if time.monotonic() > deadline:
                raise SystemExit(f"time is up, and {len(running)} programs still run")
            for program in running:
                if program.look():
                    program.start(self.draw, self.step)
            time.sleep(LOOK_EVERY)

    def killed(self, kind: str) -> int:
        return sum(program.killed for program in self.programs if program.kind == kind)
