"""Runs a script. Any fault ends it with one line on the standard error, never with a traceback."""
import os
import sys


class Fault(Exception):
    """One line that says why a script can't go on."""


def shown(text):
    """The text, with `?` instead of each character that doesn't print."""
    return "".join(c if c.isprintable() else "?" for c in text)


def say(line):
    try:
        print(shown(line), flush=True)
    except OSError:
        # Python still holds the line, and would fail again when it ends
        os.dup2(os.open(os.devnull, os.O_WRONLY), 1)
        raise Fault("cannot write the standard output")


def run(main):
    """Calls main with the words of the command, and prints the lines that it gives."""
    try:
        if sys.stdout is None:
            raise Fault("there is no standard output")
        sys.stdout.reconfigure(errors="replace")
        for line in main(*sys.argv[1:]):
            say(line)
        return
    except Fault as fault:
        told = str(fault)
    except OSError as fault:
        told = ": ".join(str(word) for word in (fault.filename, fault.strerror) if word)
    except MemoryError:
        told = "out of memory"
    except KeyboardInterrupt:
        told = "interrupted"
    sys.exit("%s: %s" % (os.path.basename(sys.argv[0]), shown(told)))
