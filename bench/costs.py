"""What a run of a program costs, for the scripts beside this one: instructions, seconds and the most memory that it held at once."""
import os, re, shutil, subprocess, time
from typing import NamedTuple

TOP = os.path.dirname(os.path.dirname(os.path.abspath(__file__)))


def instructions(words, folder):
    """Counted by the processor, where `perf` can, or else by valgrind's callgrind; none where neither is there."""
    counters = [(["perf", "stat", "-x,", "-e", "instructions:u"], r"^(\d+),,instructions:u"),
                (["valgrind", "--tool=callgrind", f"--callgrind-out-file={os.path.join(folder, 'callgrind.out')}"], r"Collected : (\d+)")]
    for counter, told in counters:
        if shutil.which(counter[0]):
            found = re.search(told, subprocess.run([*counter, *words], stdout=subprocess.DEVNULL, stderr=subprocess.PIPE, text=True).stderr, re.M)
            if found:
                return int(found.group(1))
    return None


def cost(words, folder):
    """Instructions, or else the mean seconds of twenty runs."""
    counted = instructions(words, folder)
    if counted is not None:
        return counted, "instructions"
    start = time.perf_counter()
    for _ in range(20):
        subprocess.run(words, stdout=subprocess.DEVNULL)
    return (time.perf_counter() - start) / 20, "seconds"


class Run(NamedTuple):
    status: int
    seconds: float
    megabytes: float


def run(words, to=os.devnull):
    """One run, with what it prints put into a file."""
    with open(to, "w") as out:
        start = time.perf_counter()
        child = subprocess.Popen(words, stdout=out)
        _, status, used = os.wait4(child.pid, 0)
        child.returncode = os.waitstatus_to_exitcode(status)
    return Run(child.returncode, time.perf_counter() - start, used.ru_maxrss / 1024)
