"""What the scripts of this folder share: a command that is run and measured, and the program where it isn't given."""

import os
import statistics
import subprocess
import time

TOP = os.path.dirname(os.path.dirname(os.path.abspath(__file__)))
CRATE = os.path.join(TOP, "crates", "cfa_program")


def peak_of(pid):
    """The peak of a process's memory so far in bytes, 0 where it has ended."""
    try:
        with open(f"/proc/{pid}/status") as status:
            for line in status:
                if line.startswith("VmHWM:"):
                    return int(line.split()[1]) * 1024
    except OSError:
        pass
    return 0


class Measured:
    """A command that ended: its status, the seconds of the clock and of the processor, and the peak of its memory in bytes."""

    def __init__(self, command, folder, output=os.devnull):
        begun, self.peak, ended = time.monotonic(), 0, 0
        with open(output, "wb") as out:
            child = subprocess.Popen(command, cwd=folder, stdout=out, stderr=subprocess.DEVNULL)
            while not ended:
                self.peak = max(self.peak, peak_of(child.pid))
                ended, status, used = os.wait4(child.pid, os.WNOHANG)
                time.sleep(0 if ended else 0.0005)
        child.returncode = self.status = os.waitstatus_to_exitcode(status)
        self.clock, self.cpu = time.monotonic() - begun, used.ru_utime + used.ru_stime


def program_of(words):
    """The path of the program: the first word, or what `rt run` builds where there is none."""
    if words:
        return os.path.abspath(words[0])
    subprocess.run(["rt", "run"], cwd=CRATE, check=True, stdout=subprocess.DEVNULL)
    return os.path.join(CRATE, "out", "cfa_program")


def growth(value, before):
    """How many times more than before, as text."""
    return times(value / before if before else None)


def times(number):
    """How many times more, as text, where it is known."""
    return f"{number:7.1f}" if number else "      -"


def in_turns(run, before=None, rounds=5):
    """A run of some, the one with the median of their processor time, and how many times more of it they take than runs of what
    was measured before, in the median. The speed of a machine may change from one second to the next by far more than a growth
    that is looked for, so ten runs of what was measured before stand beside each run."""
    runs, times = [], []
    for _ in range(rounds):
        beside = [before().cpu for _ in range(10)] if before else []
        runs.append(run())
        times += [runs[-1].cpu / statistics.mean(beside)] if before else []
    return sorted(runs, key=lambda one: one.cpu)[rounds // 2], statistics.median(times) if before else None
