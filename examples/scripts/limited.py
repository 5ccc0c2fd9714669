"""Runs other programs, each with a limit of time and memory, without a shell, in a temporary folder."""
import os
import resource
import select
import shutil
import signal
import subprocess
import time

from one_line import Fault

MEMORY, WRITTEN, SAID = 4 << 30, 1 << 28, 4096  # bytes: of memory, of each file, and of what is read of a program's lines


class Clock:
    """How many seconds are left for all."""

    def __init__(self, seconds):
        self.seconds, self.end = seconds, time.monotonic() + seconds

    def left(self, share):
        """How many seconds a step has that may take this share of all."""
        left = self.end - time.monotonic()
        if left <= 0:
            raise Fault("not done after %d seconds: --seconds gives it more" % self.seconds)
        return min(share * self.seconds, left)


def found(package, *names):
    """The path of the first program that is installed."""
    for name in names:
        path = shutil.which(name)
        if path:
            return path
    raise Fault("%s isn't installed: it is in Debian's package %s" % (names[0], package))


def limits():
    for what, most in ((resource.RLIMIT_AS, MEMORY), (resource.RLIMIT_FSIZE, WRITTEN), (resource.RLIMIT_CORE, 0)):
        hard = resource.getrlimit(what)[1]
        # the hard limit stays: a build of draw for trials takes a large range of addresses, and can lift the soft one
        resource.setrlimit(what, (most if hard == resource.RLIM_INFINITY else min(most, hard), hard))


def start(words, **more):
    # a session of its own, so that what the program starts ends with it
    more = {"stdin": subprocess.DEVNULL, "stdout": subprocess.DEVNULL, "stderr": subprocess.DEVNULL, **more}
    try:
        return subprocess.Popen(words, preexec_fn=limits, start_new_session=True, **more)
    except (OSError, subprocess.SubprocessError) as fault:
        raise Fault("%s is no program: %s" % (os.fsdecode(words[0]), getattr(fault, "strerror", None) or "it can't be started"))


def stop(program):
    try:
        os.killpg(program.pid, signal.SIGKILL)
    except OSError:
        pass
    program.wait()


def run(words, seconds, room, environment=None):
    """The status of a program, None after so many seconds, and the last that it says."""
    said = os.path.join(room, "said")
    with open(said, "wb") as out:
        program = start(words, cwd=room, env=environment, stdout=out, stderr=out)
        try:
            status = program.wait(seconds)
        except subprocess.TimeoutExpired:
            status = None
        finally:
            stop(program)
    with open(said, "rb") as file:
        file.seek(max(0, os.path.getsize(said) - SAID))
        return status, file.read().decode(errors="replace").strip()


class Stopped(Exception):
    """Why a step of FreeCAD has no answer."""


class FreeCad:
    """FreeCAD, which is asked for one step after the other."""

    def __init__(self, room):
        self.room, self.program = room, None
        self.command = found("freecad", "freecadcmd", "FreeCADCmd")
        shutil.copy(os.path.join(os.path.dirname(os.path.realpath(__file__)), "in_freecad.py"), room)

    def begin(self):
        asked, self.ask_by = os.pipe()
        self.told_by, told = os.pipe()
        # FreeCAD writes its settings into the folder of the user
        environment = {name: value for name, value in os.environ.items() if not name.startswith("XDG_")}
        environment.update(HOME=self.room, QT_QPA_PLATFORM="offscreen", PART_ASKED=str(asked), PART_TOLD=str(told))
        try:
            self.program = start([self.command, "in_freecad.py"], cwd=self.room, env=environment, pass_fds=(asked, told))
        finally:
            os.close(asked)
            os.close(told)
        self.told = b""

    def ask(self, step, seconds):
        """The numbers that a step gives."""
        if not self.program:
            self.begin()
        end = time.monotonic() + seconds
        try:
            os.write(self.ask_by, step.encode() + b"\n")
            while b"\n" not in self.told:
                if not select.select([self.told_by], [], [], max(0, end - time.monotonic()))[0]:
                    raise Stopped("FreeCAD isn't done after %d seconds: --seconds gives it more" % seconds)
                more = os.read(self.told_by, 4096)
                if not more:
                    raise Stopped("FreeCAD has crashed, or needs more than %d GB of memory" % (MEMORY >> 30))
                self.told += more
        except (OSError, Stopped) as fault:
            self.end()
            raise Stopped(str(fault) if isinstance(fault, Stopped) else "FreeCAD has crashed")
        line, self.told = self.told.split(b"\n", 1)
        how, _, answer = line.decode(errors="replace").partition(" ")
        if how != "done":
            raise Stopped("FreeCAD says: %s" % (answer[:160] or "nothing"))
        return [int(word) for word in answer.split()]

    def end(self):
        if self.program:
            stop(self.program)
            os.close(self.ask_by)
            os.close(self.told_by)
            self.program = None
