"""Times a program that checks descriptions on descriptions of about a megabyte, of many shapes.

descriptions.py PROGRAM FOLDER: the texts are written into the folder.
"""
import os
import resource
import subprocess
import sys
import time

SIZE = 1000000


def description(productions, declarations, equations):
    """The text of a description."""
    lines = ["grammar"] + productions + ["semantics"] + declarations + equations + ["end ."]
    return "\n".join(lines) + "\n"


def production(name, alternatives):
    return name + " = " + "\n| ".join("[[ %s ]]" % a for a in alternatives) + " ."


def repeated(size, line):
    """Lines, each made of its number, of so many bytes in all."""
    lines, length = [], 0
    while length < size:
        lines.append(line(len(lines)))
        length += len(lines[-1]) + 1
    return lines


def many_nonterminals():
    count = 8400
    return description(
        [production("N%d" % n, ['"(%d" N%d ")"' % (n, n), "numeral"]) for n in range(count)],
        ["f%d _ : N%d ." % (n, n) for n in range(count)],
        ['f%d [[ "(%d" X:N%d ")" ]] = f%d X .\nf%d [[ V:numeral ]] = give value of V .' % (n, n, n, n, n)
         for n in range(count)],
    ), "16800 equations"


def many_alternatives():
    count = 14000
    return description(
        [production("P", ["numeral"] + ['"w%d" P "and" identifier' % n for n in range(count)])],
        ["f _ : P ."],
        ['f [[ "w%d" X:P "and" I:identifier ]] = f X .' % n for n in range(count)],
    ), "14000 equations"


def long_name_with_alternatives():
    name = "P" + "a" * 350000
    alternatives = repeated(SIZE - 350000, lambda n: '"w%d" numeral' % n)
    return description([production(name, alternatives)], ["f _ : %s ." % name], []), "0 equations"


def long_name_with_equations():
    name = "P" + "a" * 250000
    alternatives = ['"w%d"' % n for n in range(14000)]
    equations = ['f [[ "w%d" ]] = fail .' % n for n in range(14000)]
    return description([production(name, alternatives)], ["f _ : %s ." % name], equations), "14000 equations"


def long_name_used_often():
    name = "P" + "a" * 200000
    action = " then ".join(["f X"] * 66000)
    return description(
        [production(name, ["numeral", name])], ["f _ : %s ." % name], ["f [[ X:%s ]] = %s ." % (name, action)],
    ), "1 equations"


def names_alike():
    front = "a" * 1000
    names = ["P%s%d" % (front, n) for n in range(450)]
    return description(
        [production(name, ["numeral"]) for name in names], ["f%d _ : %s ." % (n, name) for n, name in enumerate(names)],
        [],
    ), "0 equations"


def functions_alike():
    front = "a" * 500
    names = ["f%s%d" % (front, n) for n in range(950)]
    return description(
        [production("P", ["numeral"])], ["%s _ : P ." % name for name in names],
        ["%s [[ X:numeral ]] = fail ." % name for name in names],
    ), "950 equations"


def short_names():
    names = repeated(300000, lambda n: "N%d" % n)
    return description(
        [production(name, ["numeral"]) for name in names], ["f _ : N0 ."], [],
    ), "0 equations"


def literals_alike():
    front = "a" * 1000
    return description(
        [production("P", ['"%s%d"' % (front, n) for n in range(950)])], ["f _ : P ."], [],
    ), "0 equations"


def many_literals():
    alternatives = repeated(SIZE, lambda n: '"%d"' % n)
    return description([production("P", alternatives)], ["f _ : P ."], []), "0 equations"


def many_parts():
    parts = '"a" ' * 120000
    return description([production("P", [parts])], ["f _ : P ."], ["f [[ %s ]] = fail ." % parts]), "1 equations"


def alternatives_alike():
    front = '"a" ' * 250
    alternatives = ['%s "%d"' % (front, n) for n in range(490)]
    equations = ["f [[ %s ]] = fail ." % a for a in alternatives]
    return description([production("P", alternatives)], ["f _ : P ."], equations), "490 equations"


def many_variables():
    count = 26000
    pattern = " ".join("X%d:P" % n for n in range(count))
    action = " then ".join("f X%d" % (count - 1 - n) for n in range(count))
    return description(
        [production("P", [" ".join(["P"] * count), "numeral"])], ["f _ : P ."], ["f [[ %s ]] = %s ." % (pattern, action)],
    ), "1 equations"


def the_last_equation_is_repeated():
    count = 19000
    equations = ['f [[ "w%d" ]] = complete .' % n for n in range(count)]
    return description(
        [production("P", ['"w%d"' % n for n in range(count)])], ["f _ : P ."], equations + equations[-1:],
    ), "rule 6, item %d" % (count + 2)


SHAPES = [
    many_nonterminals, many_alternatives, long_name_with_alternatives, long_name_with_equations, long_name_used_often,
    names_alike, functions_alike, short_names, literals_alike, many_literals, many_parts, alternatives_alike,
    many_variables, the_last_equation_is_repeated,
]


def main():
    program, folder = sys.argv[1], sys.argv[2]
    wrong = 0
    for shape in SHAPES:
        text, wanted = shape()
        path = os.path.join(folder, shape.__name__)
        with open(path, "w") as file:
            file.write(text)
        times = []
        for _ in range(3):
            before = resource.getrusage(resource.RUSAGE_CHILDREN)
            start = time.monotonic()
            run = subprocess.run([program, path], stdout=subprocess.PIPE, check=False)
            wall = time.monotonic() - start
            after = resource.getrusage(resource.RUSAGE_CHILDREN)
            times.append((after.ru_utime + after.ru_stime - before.ru_utime - before.ru_stime, wall))
        found = run.stdout.decode().strip()
        note = "" if found == wanted else "  WANTED %s" % wanted
        wrong += found != wanted
        processor, wall = min(times)
        print("%-32s %8d bytes  %.2f s of processor, %.2f s  %s%s"
              % (shape.__name__.replace("_", " "), len(text), processor, wall, found, note), flush=True)
    sys.exit(1 if wrong else 0)


main()
