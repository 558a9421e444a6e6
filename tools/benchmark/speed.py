"""Runs the program `speed`, which does one part of the call as often as it is asked to: crates/speed/src/main.rt has its input."""
import os
import subprocess
import tempfile

from sheets import ROOT

CHECKS = {k: f"check {k}" for k in range(1, 10)}
DERIVED_TIMES, WORK_END = 10, 12
IN_TURN = 100  # added to a part: on several sheets
ROOM = 399_000  # bytes for their texts


def program():
    """Its path; it is proved and compiled where that is to be done."""
    if subprocess.run([os.path.join(ROOT, "tools", "build"), "speed"], stdout=subprocess.DEVNULL).returncode:
        raise SystemExit(1)
    return os.path.join(ROOT, "crates", "speed", "out", "speed")


def processor_seconds(program, part, count, text):
    """Its processor time, and the number that it prints."""
    with tempfile.TemporaryFile() as given, tempfile.TemporaryFile() as got:
        given.write(b"%d\n%d\n%b" % (part, count, text))
        given.seek(0)
        child = subprocess.Popen([program], stdin=given, stdout=got)
        _, status, used = os.wait4(child.pid, 0)
        child.returncode = os.waitstatus_to_exitcode(status)
        got.seek(0)
        if child.returncode:
            raise SystemExit(f"benchmark: speed ended with {child.returncode}")
        return used.ru_utime + used.ru_stime, int(got.read())


def seconds(program, part, text, more):
    """Of one run of a part, and what it prints: the difference of two counts, so that all that is done once is not in it."""
    once, _ = processor_seconds(program, part, 1, text)
    all_of_them, printed = processor_seconds(program, part, 1 + more, text)
    return (all_of_them - once) / more, printed
