"""Prints where our instructions go: `python3 profile.py CALLGRIND-FILE PROGRAM REPETITIONS`.

First by function, as the archive names them; the compiler inlines most of the library's functions, and what is inlined
counts for the function that it stands in. Then the runs of instructions that are carried out equally often, the heaviest
first, with their code. All numbers are for one file: what was counted, over the repetitions."""

import re
import subprocess
import sys

RUNS, CODE = 12, 5  # how many runs of instructions are listed, and how many with their code


def read(path, program):
    """The cost of each instruction of the program by its address, the function that it stands in, and the cost of each
    function, those of other objects too."""
    cost, owner, total, skip = {}, {}, {}, False
    place = function = ""
    with open(path, encoding="utf-8") as lines:
        for line in lines:
            if line.startswith("ob="):
                place = line[3:].strip()
            elif line.startswith("fn="):
                function = line[3:].strip()
            elif line.startswith("calls="):
                skip = True  # the next line is what the call cost inside
            elif line.startswith("0x"):
                if not skip:
                    address, _, count = line.split()
                    at, count = int(address, 16), int(count)
                    total[function] = total.get(function, 0) + count
                    if place == program:
                        cost[at] = cost.get(at, 0) + count
                        owner[at] = function
                skip = False
    return cost, owner, total


def disassembly(program):
    """The instructions of the program by their addresses."""
    done = subprocess.run(["objdump", "-d", "--no-show-raw-insn", program], capture_output=True, text=True, check=True)
    found = re.findall(r"^\s*([0-9a-f]+):\t(.*)$", done.stdout, re.M)
    return {int(address, 16): text.strip() for address, text in found}


def runs_of(cost, owner, code):
    """Neighbouring instructions of one function that are carried out equally often: (total, first, last, how often)."""
    runs, last = [], None
    for at in sorted(code):
        if at not in cost:
            last = None
            continue
        if last is not None and cost[at] == cost[last] and owner[at] == owner[last]:
            total, first, _, often = runs[-1]
            runs[-1] = (total + cost[at], first, at, often)
        else:
            runs.append((cost[at], at, at, cost[at]))
        last = at
    return sorted(runs, reverse=True)


def by_function(total, repetitions):
    everything = sum(total.values())
    print("| Function | Instructions for one file | Share |\n|---|---:|---:|")
    for function, count in sorted(total.items(), key=lambda each: -each[1]):
        print(f"| `{function}` | {count / repetitions:,.0f} | {count / everything:.1%} |")
    print()


def by_run(cost, owner, code, repetitions):
    heaviest = runs_of(cost, owner, code)[:RUNS]
    print("| Instructions | Function | How many | How often | Instructions for one file |\n|---|---|---:|---:|---:|")
    for total, first, last, often in heaviest:
        count = sum(first <= at <= last for at in code)
        print(f"| `{first:x}` to `{last:x}` | `{owner[first]}` | {count} | {often / repetitions:,.1f} | "
              f"{total / repetitions:,.0f} |")
    for total, first, last, _ in heaviest[:CODE]:
        print(f"\n    {owner[first]}: {total / repetitions:,.0f}")
        for at in sorted(a for a in code if first <= a <= last):
            print(f"    {at:x}  {code[at]}")


def main():
    path, program, repetitions = sys.argv[1], sys.argv[2], int(sys.argv[3])
    code = disassembly(program)
    cost, owner, total = read(path, program)
    by_function(total, repetitions)
    by_run(cost, owner, code, repetitions)


if __name__ == "__main__":
    main()
