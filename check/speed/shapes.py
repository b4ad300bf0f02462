"""Prints how long a program takes to infer the tables of actions of many shapes, and its greatest memory.

The program gets a file, which is written here, and how often it infers the table. The time is that of one
inference: the least of three runs with one, less the least of three with none.
"""
import os
import resource
import subprocess
import sys

RUNS = 3
SIZES = (4096, 16384, 65536)
# a shape isn't tried at the next size where it took so many seconds
LONG = 4
# bytes of memory that a run may take
MEMORY = 2 << 30


def right(operator, leaf, count):
    return f"{leaf} {operator} (" * (count - 1) + leaf + ")" * (count - 1)


def left(operator, leaf, count):
    return "(" * (count - 1) + leaf + f" {operator} {leaf})" * (count - 1)


def tokens(count, names=64):
    return [f'"t{i % names:02d}"' for i in range(count)]


def nested(front, middle, behind, count):
    return front * count + middle + behind * count


def binds_right(count):
    binds = [f"bind {token} to 1" for token in tokens(count)]
    return " before (".join(binds) + ")" * (count - 1)


def binds_left(count):
    binds = [f"bind {token} to 1" for token in tokens(count)]
    return "(" * (count - 1) + binds[0] + "".join(f" before {bind})" for bind in binds[1:])


def scopes(count):
    fronts = [f"(furthermore bind {token} to 1) hence (" for token in tokens(count)]
    return "".join(fronts) + "complete" + ")" * count


def procedures(count):
    names = tokens(count, 60)
    bodies = ["complete"] + [f"enact the abstraction bound to {name}" for name in names[:-1]]
    fronts = [
        f"(furthermore bind {name} to closure abstraction of ({body})) hence ("
        for name, body in zip(names, bodies)
    ]
    return "".join(fronts) + f"enact the abstraction bound to {names[-1]}" + ")" * count


# each shape: an action of at most n nodes and yielders
SHAPES = {
    "and then, to the right": lambda n: right("and then", "complete", n // 2),
    "and then, to the left": lambda n: left("and then", "complete", n // 2),
    "and then of send": lambda n: right("and then", "send 1", n // 3),
    "then, to the right": lambda n: "give 1 then (" + right("then", "give the given integer", n // 3 - 1) + ")",
    "then, to the left": lambda n: left("then", "give 1", n // 3),
    "or, to the right": lambda n: right("or", "complete", n // 2),
    "or, to the left": lambda n: left("or", "complete", n // 2),
    "bind before, to the right": lambda n: binds_right(n // 3),
    "bind before, to the left": lambda n: binds_left(n // 3),
    "hence, to the right": lambda n: right("hence", "rebind", n // 2),
    "hence, to the left": lambda n: left("hence", "rebind", n // 2),
    "furthermore bind hence": lambda n: scopes(n // 4 - 1),
    "unfolding": lambda n: nested("unfolding (", "complete", ")", n - 1),
    "unfolding unfold or": lambda n: nested("unfolding (unfold or (", "complete", "))", n // 3 - 1),
    "closures in closures": lambda n: nested("give closure abstraction of (", "complete", ")", n // 2 - 1),
    "enacted where it is made": lambda n: nested("enact closure abstraction of (", "complete", ")", n // 2 - 1),
    "one give of many": lambda n: "give (" + ", ".join(["1"] * (n - 1)) + ")",
    "one give of a sum": lambda n: "give " + nested("sum(1, ", "1", ")", n // 2 - 1),
    "or over closures": lambda n: right("or", "give closure abstraction of complete", n // 4),
    "procedures, each calls one": lambda n: procedures(n // 7),
    "bound, then enacted": lambda n: nested(
        '(furthermore bind "f" to closure abstraction of (',
        "complete",
        ')) hence (enact the abstraction bound to "f")',
        n // 6 - 1,
    ),
}


def run(program, path, times):
    command = ["timeout", "30", program, path, str(times)]
    limit = lambda: resource.setrlimit(resource.RLIMIT_AS, (MEMORY, MEMORY))
    process = subprocess.Popen(
        command, stdout=subprocess.PIPE, stderr=subprocess.STDOUT, preexec_fn=limit
    )
    printed = process.stdout.read().decode().strip()
    _, status, usage = os.wait4(process.pid, 0)
    answer = printed if status == 0 else "not ended"
    return usage.ru_utime + usage.ru_stime, usage.ru_maxrss // 1024, answer


def measure(program, path):
    without = min(run(program, path, 0)[0] for _ in range(RUNS))
    first = run(program, path, 1)
    runs = [first] + [run(program, path, 1) for _ in range(RUNS - 1) if first[0] < LONG]
    time, memory, answer = min(runs)
    return max(time - without, 0), memory, answer


def main(program, path):
    for name, shape in SHAPES.items():
        before = 0
        for size in SIZES:
            with open(path, "w") as file:
                file.write(shape(size))
            time, memory, answer = measure(program, path)
            growth = f"{time / before:5.1f}" if before > 0.001 else "     "
            print(f"{name:28} {size:6} {time:8.3f} s {growth} {memory:6} MB  {answer}", flush=True)
            if time > LONG:
                break
            before = time


main(sys.argv[1], sys.argv[2])
