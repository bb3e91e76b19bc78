#!/usr/bin/env python3
"""Measures `validate` of files from the command line beside the same requests by `batch`, each run a process of its own.

    bench/delivery.py [--quick] [PROGRAM]

A row is what a processor takes for files of some 8 MiB, by `validate`, as a text, as JSON and with a page, and by `batch`, least of
five runs in turn; how many times as long `validate` takes for the text; and the most memory of both. The first has the schema of
example/assembly and no culprits, the second a rule that each of its instances violates, so that all culprits are told. With --quick
the files are a hundredth. What `validate --json` writes is compared with the reply of `batch`.
"""
import os
import subprocess
import sys

from harness import BATCH, FILE_LIMIT, Table, request, run_bench
from validate import SIZE_OF_A_PART, assembly_text, file_of, lines, model_of_parts, part

RUNS = 5


def ran(folder, words, text=b""):
    """What a processor took for a run of the program, the most bytes that it held, and what it wrote."""
    with open(os.path.join(folder.path, "input"), "wb") as it:
        it.write(text)
    with open(os.path.join(folder.path, "input"), "rb") as given, \
            subprocess.Popen([folder.program, *words], cwd=folder.path, stdin=given, stdout=subprocess.PIPE) as process:
        written = process.stdout.read()
        _, status, usage = os.wait4(process.pid, 0)
        process.returncode = os.waitstatus_to_exitcode(status)
    if process.returncode not in (0, 1):
        sys.exit(f"bench: the program ended with status {process.returncode}")
    return usage.ru_utime + usage.ru_stime, usage.ru_maxrss * 1024, written


def requests(schema, files):
    """The lines of a batch that has the repository do what a delivery does."""
    told = []
    for number, file in enumerate(files, 1):
        told += [request("create_model", name=f"{number:02}", schema=schema),
                 request("put", owner="ann", model=f"{number:02}", file=file)]
    told.append(request("create_group", name="all", schema=schema))
    told += [request("include", group="all", owner="ann", model=f"{number:02}") for number in range(1, len(files) + 1)]
    return b"".join([*told, request("validate", owner="ann", group="all")])


def measure(folder, table, name, schema, text, files):
    folder.configure(measured=text)
    for number, file in enumerate(files):
        folder.write(f"{number}.step", file)
    words = ["validate", "--schema", "measured.exp", *(f"{number}.step" for number in range(len(files)))]
    batch = requests(schema, files)
    runs = [[ran(folder, words), ran(folder, [*words, "--json"]), ran(folder, [*words, "--html", "page.html"]), ran(folder, BATCH, batch)]
            for _ in range(RUNS)]
    told, as_json, page, by_batch = zip(*runs)
    reply = by_batch[0][2].splitlines()[-1].replace(b'["ann",', b'["me",')
    if as_json[0][2] != reply + b"\n":
        sys.exit("bench: --json and batch differ")
    seconds = [min(it)[0] for it in (told, as_json, page, by_batch)]
    table.row(name, sum(map(len, files)), *seconds, seconds[0] / seconds[3], told[0][1], by_batch[0][1],
              os.path.getsize(os.path.join(folder.path, "page.html")))


def measure_all(folder, share):
    table = Table({"files": "30", "bytes": "12,", "text": "8.3f", "json": "8.3f", "page": "8.3f", "batch": "8.3f", "text/batch": "10.2f",
                   "memory": "13,", "of batch": "13,", "page's bytes": "13,"})
    # (names of later parts are the longest)
    parts = min(190_000 // SIZE_OF_A_PART, FILE_LIMIT // len(part(2_000, "P02000"))) // share - 1
    for count in (1, 3):
        files = [file_of("MECHANICAL_ASSEMBLY", model_of_parts(1 + parts * place, parts)) for place in range(count)]
        measure(folder, table, f"{count} of parts", "MECHANICAL_ASSEMBLY", assembly_text(), files)
    count = min(190_000, FILE_LIMIT // 43) // share
    file = file_of("S", lines(count, lambda k: f"E('number {k:022}')"))
    measure(folder, table, f"1, {count:,} culprits", "S", "SCHEMA s; ENTITY e; a : STRING; WHERE w : FALSE; END_ENTITY; END_SCHEMA;", [file])


if __name__ == "__main__":
    is_quick = "--quick" in sys.argv
    run_bench(lambda folder: measure_all(folder, 100 if is_quick else 1), [it for it in sys.argv[1:] if it != "--quick"])
