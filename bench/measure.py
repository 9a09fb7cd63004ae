"""Runs the measured programs: instructions by callgrind, nanoseconds by the clock, bytes of stack."""

import os
import re
import subprocess
import sys
from fractions import Fraction

from inputs import inputs, runs


def called(path, function):
    """How often a function was called, and what was counted inside it and all that it calls, as a file of callgrind has it."""
    calls, cost, callee, times = 0, 0, None, None
    with open(path, encoding="utf-8") as lines:
        for line in lines:
            if line.startswith("cfn="):
                callee = line[4:].strip()
            elif line.startswith("calls="):
                times = int(line[6:].split()[0])
            elif times is not None:  # the line behind has the cost
                if callee == function:
                    calls, cost = calls + times, cost + int(line.split()[-1])
                times = None
    return calls, cost


def stop(message):
    sys.exit(f"bench: {message}")


class Bench:
    """The programs in `folder`/bin on the files in `folder`/inputs. What was counted once is not counted again."""

    # inih reads at most 200 bytes of a line, and the long DomainName has more.
    CANNOT_LOAD = {("inih", "strings.psk")}

    SWEEPS = 8

    def __init__(self, folder):
        self.folder = folder
        self.inputs = inputs()
        self.runs = runs()
        self.counted = {}
        self.timed = {}

    def program(self, name):
        return os.path.join(self.folder, "bin", name)

    def path(self, file):
        return os.path.join(self.folder, "inputs", file)

    def run(self, *command):
        done = subprocess.run(command, capture_output=True, text=True, check=False)
        if done.returncode:
            stop(f"{' '.join(command)} failed:\n{done.stderr}")
        return done

    def loads(self, program, file):
        """Whether a parser loads a file. That it cannot must be known beforehand, and it must give every value."""
        if (program, file) in self.CANNOT_LOAD:
            return False
        self.holds_all(program, file)
        return True

    def gives(self, program, file, *task):
        """What the program gives when it does the work once, which must not be 0."""
        return int(self.run(self.program(program), "once", self.path(file), *task).stdout)

    def holds_all(self, program, file, *task):
        """Stops unless the program accepts the file and gives as many values as the file has settings."""
        values = self.gives(program, file, *task)
        expected = self.inputs[file].settings
        if values != expected:
            stop(f"{program} gives {values} values of {file}, which has {expected}")

    def collected(self, program, file, task, times):
        """The instructions of a whole run with so many repetitions."""
        done = self.run("valgrind", "--tool=callgrind", "--callgrind-out-file=/dev/null",
                        self.program(program), str(times), self.path(file), *task)
        return int(re.search(r"Collected : (\d+)", done.stderr).group(1))

    def instructions(self, program, file, *task):
        """For one file: the difference between n and 2n repetitions, over n, so that starting up cancels out."""
        key = (program, file, task)
        if key not in self.counted:
            n = max(10, 20000 // os.path.getsize(self.path(file)))
            once = self.collected(program, file, task, n)
            twice = self.collected(program, file, task, 2 * n)
            self.counted[key] = Fraction(twice - once, n)
        return self.counted[key]

    def for_a_byte(self, run, task, answer):
        """For one byte more in a run, by a task of ours that must give this answer for both files."""
        short, long = self.runs[run]
        for each in (short, long):
            if self.gives("ours", each.name, task) != answer:
                stop(f"{each.name} is not answered with {answer}")
        more = self.instructions("ours", long.name, task) - self.instructions("ours", short.name, task)
        return more / (len(long.name) + long.bytes - len(short.name) - short.bytes)

    def inside(self, program, file, task, function):
        """Inside a function and all that it calls, for one call of it; none where the compiler has inlined it."""
        path = os.path.join(self.folder, "inside.out")
        self.run("valgrind", "--tool=callgrind", "--compress-strings=no", "--compress-pos=no",
                 f"--callgrind-out-file={path}", self.program(program), "100", self.path(file), task)
        calls, cost = called(path, function)
        return cost / calls if calls else None

    def time_all(self, works):
        """Times each work, a program with a file and perhaps a task, in several sweeps, so that one busy moment of the
        machine does not fall on all rounds of a work; the least counts."""
        for _ in range(self.SWEEPS):
            for program, file, *task in works:
                spent = float(self.run(self.program(program), "time", self.path(file), *task).stdout)
                key = (program, file, *task)
                self.timed[key] = min(spent, self.timed.get(key, spent))

    def nanoseconds(self, *work):
        """For one file: the least that the sweeps found."""
        return self.timed[work]

    def stack(self, file, function):
        return int(self.run(self.program("stack"), self.path(file), function).stdout)
