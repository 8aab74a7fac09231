"""How far a tool is, on one line of a terminal: none where standard error is no terminal."""
import sys
import time
import typing

STEP = 0.2  # seconds between two lines


class Progress:
    """The line of a tool that has so many of something to do. It goes when the work is done."""

    def __init__(self, whole: int, what: str) -> None:
        self.whole, self.what, self.done, self.shown = whole, what, 0, ''
        self.begun = self.last = time.monotonic()
        try:
            self.is_shown = sys.stderr.isatty()
        except ValueError:
            self.is_shown = False

    def add(self, number: int = 1, more: str = '') -> None:
        """Says that so many more are done."""
        self.done += number
        now = time.monotonic()
        if self.is_shown and (now - self.last > STEP or self.done >= self.whole):
            self.last = now
            self.show(self.line(now) + more)

    def line(self, now: float) -> str:
        left = (now - self.begun) * (self.whole - self.done) / self.done if self.done else 0
        return f'{self.done} of {self.whole} {self.what}, {in_words(left)} left'

    def show(self, text: str) -> None:
        sys.stderr.write('\r' + text.ljust(len(self.shown)))
        sys.stderr.flush()
        self.shown = text

    def end(self) -> None:
        """Takes the line away."""
        if self.shown:
            self.show('')
            sys.stderr.write('\r')
            sys.stderr.flush()

    def __enter__(self) -> 'Progress':
        return self

    def __exit__(self, *_: typing.Any) -> None:
        self.end()


def in_words(seconds: float) -> str:
    """A time in minutes and seconds."""
    minutes, rest = divmod(round(seconds), 60)
    return f'{minutes} min {rest} s' if minutes else f'{rest} s'
