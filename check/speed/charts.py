"""Prints the user time of scanning and charts, and of scanning, charts and picks, over sources that are made here."""
import os
import resource
import subprocess
import sys

RUNS = 3


def sums(count):
    words = []
    while len(words) + 6 < count:
        if words:
            words.append("*" if len(words) % 3 == 0 else "+")
        words.append("( 1 + 1 )" if len(words) % 5 == 0 else "1")
        words = " ".join(words).split()
    return words


def imp(count):
    parts = [
        "x := x + 1 * x ;",
        "while read < 1 do x := x + 1 ; print x ; done",
        "if x = 1 then print 1 ; else call f ( x ) ; fi",
        "print ( x - 1 ) ;",
    ]
    words = "program var x := 1 ; begin".split()
    while True:
        more = parts[len(words) % 4].split()
        if len(words) + len(more) + 1 > count:
            return words + ["end"]
        words += more


def parentheses(count):
    words = []
    while len(words) + 802 <= count:
        words += (["+"] if words else []) + ["("] * 400 + ["1"] + [")"] * 400
    return words


SOURCES = [
    ("imp", "imp", imp),
    ("expressions", "expressions", sums),
    ("400 levels of parentheses", "expressions", parentheses),
    ("left list", "left", lambda count: ["x"] * count),
    ("right list", "right", lambda count: ["x"] * count),
    ("S S", "worst", lambda count: ["x"] * count),
]


def user_time(command):
    before = resource.getrusage(resource.RUSAGE_CHILDREN).ru_utime
    subprocess.run(command, stdout=subprocess.DEVNULL, check=True)
    return resource.getrusage(resource.RUSAGE_CHILDREN).ru_utime - before


def least(command):
    return min(user_time(command) for _ in range(RUNS))


def seconds(command):
    """The user time of one turn; command(n) runs n turns."""
    once = least(command(1))
    turns = max(1, min(200, int(0.3 / max(once, 0.002))))
    return once if turns == 1 else least(command(turns)) / turns


def rows(title, grammar, source, program, path, more, what):
    times = []
    for count in [1000, 2000, 4000]:
        words = source(count)
        with open(path, "w") as file:
            file.write(" ".join(words))
        time = seconds(lambda turns: [program, grammar, path, str(turns)] + more)
        times.append(time)
        print(f"{title}, {what}: {len(words)} lexemes, {time * 1e3:.2f} ms, {time * 1e6 / len(words):.2f} us a lexeme", flush=True)
    print(f"{title}, {what}: growth {times[-1] / times[0]:.1f}", flush=True)


def main(program, folder):
    path = os.path.join(folder, "source")
    for title, grammar, source in SOURCES:
        rows(title, grammar, source, program, path, [], "scan and chart")
        rows(title, grammar, source, program, path, ["pick"], "with pick")


if __name__ == "__main__":
    main(sys.argv[1], sys.argv[2])
