"""What the programs that measure runs have in common: one run of graftlab, and what else the machine did meanwhile."""
import os
import resource
import subprocess
import sys
import tempfile
import time
from typing import NamedTuple

# Where more than this part of the machine's time went elsewhere, times aren't worth much.
QUIET = 0.02


class Run(NamedTuple):
    """Seconds of wall time and of processor time, and the most memory, in MB."""
    wall: float
    processor: float
    memory: float


def graftlab(program, text, workers, processor=None):
    """What a run of graftlab on the input takes; on one processor where that is named."""
    def bound():
        if processor is not None:
            os.sched_setaffinity(0, {processor})
    with tempfile.TemporaryFile() as given:
        given.write(text)
        given.seek(0)
        begin = time.monotonic()
        process = subprocess.Popen([program, "run", "--workers", str(workers)], stdin=given, stdout=subprocess.DEVNULL, preexec_fn=bound)
        _, status, used = os.wait4(process.pid, 0)
        wall = time.monotonic() - begin
    process.returncode = os.waitstatus_to_exitcode(status)
    if process.returncode != 0:
        sys.exit(f"{program} run --workers {workers}: status {process.returncode}")
    return Run(wall, used.ru_utime + used.ru_stime, used.ru_maxrss / 1024)


def processor_of_ours():
    used = [resource.getrusage(who) for who in (resource.RUSAGE_SELF, resource.RUSAGE_CHILDREN)]
    return sum(it.ru_utime + it.ru_stime for it in used)


class Meanwhile:
    """What the machine does from now on: our processor time, that of others, and what its host took away."""

    def __init__(self):
        self.begin = self.now()
        self.load = os.getloadavg()[0]

    @staticmethod
    def now():
        with open("/proc/stat") as file:
            user, nice, system, _, _, interrupts, soft, steal = (int(word) for word in file.readline().split()[1:9])
        tick = os.sysconf("SC_CLK_TCK")
        return time.monotonic(), (user + nice + system + interrupts + soft) / tick, processor_of_ours(), steal / tick

    def told(self):
        """A sentence on it, once all our processes have ended."""
        wall, busy, ours, steal = (after - before for before, after in zip(self.begin, self.now()))
        all_of_it = wall * os.cpu_count()
        other = max(busy - ours, 0) / all_of_it
        quiet = "Nothing else of note ran" if other <= QUIET else "NOT QUIET: something else ran"
        return (f"{quiet}. In {wall:.0f} s of {os.cpu_count()} processors {ours / all_of_it:.1%} of their time was ours, {other:.1%} went to "
                f"other processes, {steal / all_of_it:.1%} to the machine's host; load average {self.load:.2f} before, "
                f"{os.getloadavg()[0]:.2f} after.")
