"""Prints every table of the benchmark in Markdown: `python3 report.py FOLDER`, where the programs and inputs stand."""

import datetime
import platform
import re
import subprocess
import sys
from fractions import Fraction
from math import ceil

from inputs import ADDRESSES
from measure import Bench

WHOLE = ("shop.config", "six.config", "full.config", "Desk 4.psk", "Desk 6.psk", "comments.psk", "strings.psk")
PEERS = ("ell", "glib", "inih")
TASKS = ("check", "record", "records")

# A file, the parser that it is held to, and the share of that parser's instructions that ours may take at most.
TARGETS = (
    ("shop.config", "glib", "0.13"),
    ("full.config", "glib", "0.14"),
    ("Desk 4.psk", "ell", "0.29"),
    ("comments.psk", "ell", "0.52"),
)

# The file whose records are all asked for, beside GLib.
ALL_RECORDS = "full.config"

# What a run of bytes is, the task that meets it, and what that gives: an unknown key is refusal 9, the others are accepted.
RUNS = (
    ("a key", "refusal", 9),
    ("a line of blanks", "qewaris_check_connman", 1),
    ("a ConnMan name's stem", "qewaris_check_connman", 1),
)

ENTRY_POINTS = (
    ("qewaris_check_iwd", "strings.psk"),
    ("qewaris_check_connman", "full.config"),
    ("qewaris_iwd_settings_of", "strings.psk"),
    ("qewaris_service_settings_of", "full.config"),
    ("qewaris_iwd_passphrase", "strings.psk"),
    ("qewaris_iwd_domain_name", "strings.psk"),
    ("qewaris_global_name", "full.config"),
    ("qewaris_global_description", "full.config"),
    ("qewaris_service_name", "full.config"),
    ("qewaris_service_passphrase", "full.config"),
    ("qewaris_service_domain", "full.config"),
    ("qewaris_iwd_record", "strings.psk"),
    ("qewaris_service_record", "full.config"),
    ("qewaris_write_iwd", "full.config"),
    ("qewaris_move_service", "move.config"),
)

# Our functions for an IPv6 address, each with the entry point that it is met through, and glibc's beside it.
READS = ("ipv6::reading::read_address", "qewaris_check_iwd", "inet_pton")
WRITES = ("ipv6::writing::put_address", "qewaris_write_iwd", "inet_ntop")

SHOWN = {"ell": "ell", "glib": "GLib", "inih": "inih"}


def number(x):
    return "—" if x is None else f"{float(x):,.0f}"


def hundredths(x):
    return f"{float(x):.2f}"


def share(ours, peer):
    """With three digits, rounded up: what is above a bound of two digits is shown above it."""
    return "—" if ours is None or peer is None else f"{ceil(1000 * ours / peer) / 1000:.3f}"


def is_number(cell):
    return cell == "—" or cell[0].isdigit()


def table(head, rows):
    """Prints a table; columns that hold only numbers are set to the right."""
    rows = list(rows)
    right = [all(is_number(row[i]) for row in rows) for i in range(len(head))]
    print("| " + " | ".join(head) + " |")
    print("|" + "|".join("---:" if each else "---" for each in right) + "|")
    for row in rows:
        print("| " + " | ".join(row) + " |")
    print()


def section(title, *paragraphs):
    print(f"## {title}\n")
    for paragraph in paragraphs:
        print(paragraph + "\n")


def gcc_version():
    return subprocess.run(["gcc", "-dumpfullversion"], capture_output=True, text=True, check=True).stdout.strip()


def version(package):
    done = subprocess.run(["dpkg-query", "-W", "-f", "${Version}", package], capture_output=True, text=True, check=False)
    return re.split(r"[-+]", done.stdout.split(":")[-1])[0]


def machine():
    """The kind of machine, and the versions of what was measured."""
    with open("/proc/cpuinfo", encoding="utf-8") as info:
        cpu = dict(re.findall(r"^(.+?)\s*: (.*)$", info.read().split("\n\n")[0], re.M))
        info.seek(0)
        cores = len(re.findall(r"^processor\s*:", info.read(), re.M))
    with open("/etc/debian_version", encoding="utf-8") as debian:
        release = debian.read().strip()
    kind = f"{cpu.get('model name', platform.machine())}, family {cpu.get('cpu family')}, model {cpu.get('model')}"
    print(f"Measured {datetime.date.today()} on {kind}; {cores} cores; Debian {release}; gcc {gcc_version()}, "
          f"valgrind {version('valgrind')}; ell {version('libell-dev')}, GLib {version('libglib2.0-dev')}, "
          f"inih {version('libinih-dev')}.\n")


def peers_of(bench, file):
    """The other parsers that load a file; ell only iwd's, since it refuses ConnMan's keys with dots."""
    return [p for p in PEERS if (p != "ell" or bench.inputs[file].is_iwd) and bench.loads(p, file)]


def whole_rows(bench, measured):
    for file in WHOLE:
        each = bench.inputs[file]
        peers = peers_of(bench, file)
        ours = [measured("ours", file, task) for task in TASKS]
        if each.is_iwd:
            ours[2] = None
        others = [measured(p, file) if p in peers else None for p in PEERS]
        alone = measured("ours", file, record_alone(bench, file))
        yield [f"`{file}`"] + [number(x) for x in [ours[1], ours[0], alone, ours[2]] + others]


def whole_files(bench):
    section("The files")
    table(["File", "What it is", "Bytes", "Settings", "Services"],
          [[f"`{f}`", bench.inputs[f].what, number(bench.inputs[f].bytes), str(bench.inputs[f].settings),
            str(bench.inputs[f].services)] for f in WHOLE])
    head = ["File", "check and record", "check alone", "record alone", "check and all records", "ell", "GLib", "inih"]
    section("Instructions for one file",
            "The first four columns are ours; the record of a ConnMan file is that of its last service.")
    table(head, whole_rows(bench, bench.instructions))
    section("Nanoseconds for one file")
    table(head, whole_rows(bench, bench.nanoseconds))


def record_alone(bench, file):
    return "qewaris_iwd_record" if bench.inputs[file].is_iwd else "qewaris_service_record"


def target_row(bench, file, peer, most):
    job = record_alone(bench, file)
    ours, theirs = bench.instructions("ours", file, job), bench.instructions(peer, file)
    twice = bench.instructions("ours", file, "record")
    clock = share(bench.nanoseconds("ours", file, job), bench.nanoseconds(peer, file))
    holds = ours / theirs <= Fraction(most)
    return [f"`{file}`", SHOWN[peer], most, number(ours), number(theirs), share(ours, theirs),
            "holds" if holds else "**misses**", clock, share(twice, theirs)]


def targets(bench):
    section("Targets",
            "The whole job, check and record, may take at most so much of the instructions with which the other parser loads the "
            "file and gets every value. It is one call: asking for the record checks the file by every rule and refuses whatever "
            "the check refuses. The last two columns are for comparison: the share of the time, and the share of the "
            "instructions where a caller asks for the check first and then for the record, in two calls. A target holds or is "
            "missed by the instructions themselves; every share is shown with three digits, rounded up.")
    table(["File", "Parser", "Ours at most", "Ours", "The parser", "Share", "", "Time", "In two calls"],
          [target_row(bench, *target) for target in TARGETS])


def size_row(bench, kib, file, peer):
    each = bench.inputs[file]
    ours, theirs = bench.instructions("ours", file, "record"), bench.instructions(peer, file)
    return [f"{kib} KiB", str(each.settings), number(ours), hundredths(ours / each.bytes), number(theirs),
            hundredths(theirs / each.bytes), share(ours, theirs)]


def sizes(bench):
    section("Growth with size",
            "iwd: every key, so that only the comments grow. ConnMan: half of each file is settings, in half a service, 2 "
            "services and 8.")
    for dialect, peer, files in (("iwd", "ell", ("size1.psk", "size4.psk", "comments.psk")),
                                 ("ConnMan", "glib", ("size1.config", "size4.config", "grow8.config"))):
        name = SHOWN[peer]
        table([dialect, "Settings", "Check and record", "for a byte", name, f"{name} for a byte", "Share"],
              [size_row(bench, kib, file, peer) for kib, file in zip((1, 4, 16), files)])


def service_row(bench, n, file):
    check, record, records = (bench.instructions("ours", file, task) for task in TASKS)
    glib = bench.instructions("glib", file)
    return [str(n), number(bench.inputs[file].bytes), number(check), number(record), number(records), number(glib),
            share(record, glib)]


def services(bench):
    section("Growth with the number of services",
            "First every service brings 2 KiB with it, then the file has 16 KiB whatever the number. Each service has every "
            "key.")
    for prefix in ("grow", "even"):
        table(["Services", "Bytes", "Check", "Check and record", "Check and all records", "GLib", "Share"],
              [service_row(bench, n, f"{prefix}{n}.config") for n in range(1, 9)])


def all_records(bench):
    file, count = ALL_RECORDS, bench.inputs[ALL_RECORDS].services
    calls, glib = bench.instructions("ours", file, "records"), bench.instructions("glib", file)
    check = bench.instructions("ours", file, "qewaris_check_connman")
    beyond = sum(bench.instructions("ours", file, f"qewaris_service_record:{n}") - check for n in range(1, count + 1))
    section("All records of a file",
            f"`{file}` has {count} services. Whoever wants all their records asks for each, and each call reads the file again. "
            "**The second row is computed and not built**: no function gives all records in one pass. It is the check alone, "
            f"{number(check)}, and what the {count} records take beyond it, {number(beyond)} together; both are measured.")
    table(["All records", "Instructions", "Share of GLib"],
          [[f"ours in {count + 1} calls: the check, and each record", number(calls), share(calls, glib)],
           ["ours in one pass, computed and not built", number(check + beyond), share(check + beyond, glib)],
           ["GLib: load, and get every value", number(glib), share(glib, glib)]])


def key_byte(bench):
    section("A key byte",
            "How many instructions the check of a file takes for one byte more. A byte of a key and a blank are also passed over "
            "by the search for the end of their line, sixteen at a time.")
    table(["One byte more in", "Instructions"], [[run, hundredths(bench.for_a_byte(run, *how))] for run, *how in RUNS])


def entry_points(bench):
    section("The entry points",
            "One call each, on the last service; the stack is as many bytes as the call went down from its caller's.")
    rows = [[f"`{function}`", f"`{file}`", number(bench.instructions("ours", file, function)),
             number(bench.nanoseconds("ours", file, function)), number(bench.stack(file, function))]
            for function, file in ENTRY_POINTS]
    table(["Function", "File", "Instructions", "Nanoseconds", "Bytes of stack"], rows)


def address_cells(bench, file, function, entry_point, peer):
    ours, theirs = bench.inside("ours", file, entry_point, function), bench.inside("inet", file, peer, peer)
    return [number(ours), number(theirs), share(ours, theirs)]


def addresses(bench):
    section("IPv6 addresses beside glibc",
            "Instructions inside our function that reads an address, and inside the one that writes it, with all that they call, "
            "for one call; beside them glibc's, which write a dotted tail where ours write none.")
    table(["Address", "Read", "`inet_pton`", "Share", "Write", "`inet_ntop`", "Share"],
          [[f"`{address}`"] + address_cells(bench, f"address{n}.open", *READS) + address_cells(bench, f"address{n}.open", *WRITES)
           for n, address in enumerate(ADDRESSES)])


def timed_works(bench):
    """Everything of which the time is shown."""
    for file in WHOLE:
        for task in TASKS + (record_alone(bench, file),):
            yield "ours", file, task
        for peer in peers_of(bench, file):
            yield peer, file
    for function, file in ENTRY_POINTS:
        yield "ours", file, function


def main():
    bench = Bench(sys.argv[1])
    for file in bench.inputs:
        for task in TASKS:
            bench.holds_all("ours", file, task)
        peers_of(bench, file)
    bench.time_all(list(dict.fromkeys(timed_works(bench))))
    machine()
    targets(bench)
    whole_files(bench)
    sizes(bench)
    services(bench)
    all_records(bench)
    key_byte(bench)
    entry_points(bench)
    addresses(bench)


if __name__ == "__main__":
    main()
