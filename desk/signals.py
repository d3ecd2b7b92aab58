"""Interrupts: an exception where one can be borne, kept back where it can't."""

import contextlib
import os
import signal

NUMBERS = (signal.SIGINT, signal.SIGTERM, signal.SIGHUP)


class Interrupted(BaseException):
    """A signal came; its argument is the number."""


class Watch:
    keeping, came = False, None

    def arrived(self, number, frame):
        if self.keeping:
            self.came = number
        else:
            raise Interrupted(number)


WATCH = Watch()


def watch():
    """A signal that whoever started the script had ignored stays ignored."""
    for number in NUMBERS:
        if signal.getsignal(number) is not signal.SIG_IGN:
            signal.signal(number, WATCH.arrived)


@contextlib.contextmanager
def kept_back():
    """Inside, a signal waits until the end: a process is started and noted down, or ended, as a whole."""
    WATCH.keeping = True
    try:
        yield
    finally:
        WATCH.keeping = False
    if WATCH.came:
        raise Interrupted(WATCH.came)


def die(number):
    """Ends the script as the signal would have, so that a shell sees it; answers a status in case it doesn't."""
    signal.signal(number, signal.SIG_DFL)
    os.kill(os.getpid(), number)
    return 128 + number
