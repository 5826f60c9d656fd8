"""A line on standard error that moves on while something is built."""
import subprocess
import sys
import time

# How often a line is written where nobody looks at a terminal, in seconds.
EVERY = 30


class Progress:
    """How long it has taken, and what is being done: one line of a terminal, else one now and then."""

    def __init__(self, what):
        self.begun, self.what, self.told, self.is_open = time.time(), None, 0, sys.stderr.isatty()
        self.tell(what)

    def tell(self, what):
        """Says at once what is being done now."""
        self.what, self.told = what, 0
        self.tick()

    def tick(self):
        """Moves the line on, if it is time."""
        now = time.time()
        if now - self.told < (0.9 if self.is_open else EVERY):
            return
        self.told = now
        minutes, seconds = divmod(int(now - self.begun), 60)
        line = f"strc: {minutes}:{seconds:02}, {self.what}"
        start, end = ("\r\033[K", "") if self.is_open else ("", "\n")
        print(f"{start}{line}", end=end, file=sys.stderr, flush=True)

    def wait(self, command, **how):
        """Runs a command, and moves the line on meanwhile. Gives its status."""
        with subprocess.Popen(command, stdin=subprocess.DEVNULL, **how) as child:
            try:
                while True:
                    try:
                        return child.wait(0.2)
                    except subprocess.TimeoutExpired:
                        self.tick()
            finally:
                child.kill()

    def end(self):
        if self.is_open:
            print(file=sys.stderr)
