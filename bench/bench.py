"""bench.py FOLDER: counts and times the programs that bench/bench.sh built there, and prints the tables of docs/PERFORMANCE.md."""
import platform
import subprocess
import sys

import inputs

FOLDER = sys.argv[1]
PROGRAMS = ("library", "baseline")


def run(words, program, turns, calls, data, more=()):
    ran = subprocess.run([*words, f"{FOLDER}/{program}", str(turns), str(calls), *more], input=data, capture_output=True, check=True)
    return ran.stdout.split(), ran.stderr


def counted(program, calls, data, few=10, many=20):
    """The result, and the instructions of one turn: those of `many` turns without those of `few`, each of the turns between."""
    words = ["qemu-x86_64", "-plugin", f"{FOLDER}/libcount.so"]
    (less_out, less), (more_out, more) = (run(words, program, turns, calls, data) for turns in (few, many))
    assert less_out == more_out
    return more_out, (int(more) - int(less)) // (many - few)


def instructions(data):
    """Of one call of each program; the turns without a call, which only put the table back, are taken off. Both have to come to the same result."""
    results, costs = [], []
    for program in PROGRAMS:
        result, cost = counted(program, 1, data)
        results.append(result)
        costs.append(cost - counted(program, 0, data)[1])
    assert results[0] == results[1]
    return costs


def rates(data, turns=20000):
    """Calls a second of each program, on x86-64."""
    for program in PROGRAMS:
        with_calls, without = (int(run([], program, turns, calls, data, ["time"])[0][1]) for calls in (1, 0))
        yield round(turns * 1e9 / (with_calls - without))


def row(cells):
    print("| " + " | ".join(cells) + " |", flush=True)


def main():
    native = platform.machine() == "x86_64"
    titles = ["Case", "Library, instructions", "Baseline, instructions", "Ratio"]
    titles += ["Library, calls a second", "Baseline, calls a second"] if native else []
    row(titles)
    row(["---"] * len(titles))
    costs = {}
    for name, data in inputs.cases():
        costs[name] = instructions(data)
        ours, theirs = costs[name]
        row([name, f"{ours:,}", f"{theirs:,}", f"{ours / theirs:.2f}"] + ([f"{rate:,}" for rate in rates(data)] if native else []))
    few, many = (costs[f"ULR, table of {count}"] for count in (15, 240))
    ours, theirs = ((more - less) / 225 for less, more in zip(few, many))
    print(f"\nA record more in the table costs a ULR {ours:.0f} instructions in the library, {theirs:,.0f} in the baseline.")
    if not native:
        print("Calls a second are left out: this is no x86-64 machine, and times under the emulator say nothing.")


main()
