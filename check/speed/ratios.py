"""Prints the least user time of some runs of two programs, taken in turns, over each file that is given."""
import math
import os
import resource
import subprocess
import sys

RUNS = 5


def user_time(command):
    before = resource.getrusage(resource.RUSAGE_CHILDREN).ru_utime
    subprocess.run(command, stdout=subprocess.DEVNULL, check=True)
    return resource.getrusage(resource.RUSAGE_CHILDREN).ru_utime - before


def main(machine, interpreter, files):
    logarithms = []
    for file in files:
        pairs = [(user_time([machine, file]), user_time([interpreter, file])) for _ in range(RUNS)]
        ours = min(pair[0] for pair in pairs)
        theirs = min(pair[1] for pair in pairs)
        logarithms.append(math.log(theirs / ours))
        name = os.path.basename(file)
        print(f"{name}: machine {ours:.2f} s, C {theirs:.2f} s, ratio {theirs / ours:.2f}", flush=True)
    print(f"geometric mean of the ratios: {math.exp(sum(logarithms) / len(logarithms)):.2f}")


main(sys.argv[1], sys.argv[2], sys.argv[3:])
