"""Standard input and output of the commands that write files: what cannot be read is status 2, what cannot be written 3."""
import os
import sys


def fail(command, status, sentence):
    print(f"{command}: {sentence}", file=sys.stderr)
    sys.exit(status)


def text(command):
    """All of standard input, as text."""
    if sys.stdin is None:
        fail(command, 2, "standard input is closed")
    try:
        return sys.stdin.read()
    except (OSError, UnicodeDecodeError) as error:
        fail(command, 2, f"standard input cannot be read: {error}")


def write(command, data):
    """Writes these bytes and nothing else to standard output."""
    if sys.stdout is None:
        fail(command, 3, "standard output is closed")
    try:
        sys.stdout.buffer.write(data)
        sys.stdout.buffer.flush()
    except OSError as error:
        os.dup2(os.open(os.devnull, os.O_WRONLY), 1)
        fail(command, 3, f"the answer could not be written: {error}")
