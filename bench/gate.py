#!/usr/bin/env python3
"""What the gate takes, crate by crate: seconds of processors and most memory of a proof from nothing, and of the proof with
its tests, each with one job.

  gate.sh [CRATE..]           one line for each of these crates, by default for all
  gate.sh --edits [CRATE..]   its edits are tried too, from nothing, as checks/edits.sh does: the checks that they took and
                              the seconds of these, the proof that they begin with among them
  gate.sh --table [CRATE..]   the same as rows of the table of GATE.md

`rt ci` proves the crates below first, or takes what it has kept. Run it on a machine without other work. The seconds do not
have what `rt ci` takes to compile programs and tests, and to run them.
"""
import glob
import os
import sys
import tempfile

sys.dont_write_bytecode = True
sys.path.insert(0, os.path.join(os.path.dirname(os.path.dirname(os.path.abspath(__file__))), "checks"))
import edits as trials


def has_tests(name):
    sources = glob.glob(f"{trials.HOME}/crates/{name}/src/**/*.rt", recursive=True)
    return any("#[test]" in trials.read(source) for source in sources)


def check(trial, *flags):
    """Seconds of processors, gigabytes at most, and whether it passed."""
    with tempfile.TemporaryDirectory(prefix="gate-") as folder:
        trials.copy_crate(trial.name, folder)
        status, _, seconds, most = trials.run([*trial.words, *flags], folder)
    return seconds, most / 1048576, status == 0


def try_edits(trial):
    """How many edits there are, how many are refused, how many checks they took, and the seconds of these."""
    os.makedirs(trial.room)
    found = trial.try_all(trials.edits_of(trial.name), from_nothing=True)
    return len(found), sum(kind not in trials.FAULTS for kind, _ in found.values()), trial.checks, trial.spent


def row(name, proof, tests, tried, is_table):
    """A line of the crate."""
    if is_table:
        cells = [f"{proof[0]:.0f} | {proof[1]:.1f}", f"{tests[0]:.0f} | {tests[1]:.1f}" if tests else " | "]
        cells.append(f"{tried[0]} | {tried[2]} | {tried[3]:.0f}" if tried else " |  | ")
        return f"| `{name}` | {' | '.join(cells)} |"
    line = f"{name:20} {proof[0]:8.1f} {proof[1]:5.1f}"
    line += f" {tests[0]:8.1f} {tests[1]:5.1f}" if tests else f" {'':8} {'':5}"
    return line + (f" {tried[1]:3} of {tried[0]:3} {tried[2]:6} {tried[3]:8.1f}" if tried else "")


def main():
    words = sys.argv[1:]
    if words[:1] in (["-h"], ["--help"]):
        print(__doc__.strip())
        return 0
    is_table, has_edits = words[:1] == ["--table"], words[:1] in (["--table"], ["--edits"])
    crates = trials.listed()
    names = words[has_edits:] or list(crates)
    for name in names:
        if name not in crates:
            sys.exit(f"gate.sh: crates.txt lists no crate {name}")
    sums, faults = [0.0, 0.0, 0, 0, 0.0], []
    if is_table:
        print("| crate | proof | GB | tests | GB | edits | checks | their time |\n|---|---|---|---|---|---|---|---|")
    else:
        print(f"{'crate':20} {'proof s':>8} {'GB':>5} {'tests s':>8} {'GB':>5} {'refused':>10} {'checks':>6} {'their s':>8}")
    with tempfile.TemporaryDirectory(prefix="gate-") as room:
        os.chmod(room, 0o711)
        trials.prove_below(names, crates, room)
        for name in names:
            trial = trials.Trial(name, crates, room, trials.kit())
            proof = check(trial)
            tests = check(trial, "--test") if has_tests(name) else None
            tried = try_edits(trial) if has_edits and trials.edits_of(name) else None
            print(row(name, proof, tests, tried, is_table), flush=True)
            faults += [f"{name}: {what} not proved" for what, it in (("it is", proof), ("its tests are", tests)) if it and not it[2]]
            if tried and tried[0] != tried[1]:
                faults.append(f"{name}: {tried[0] - tried[1]} edits are not refused")
            for at, much in enumerate((proof[0], tests[0] if tests else 0.0, *((tried[0], *tried[2:]) if tried else (0, 0, 0.0)))):
                sums[at] += much
    if is_table:
        print(f"| all | {sums[0]:.0f} |  | {sums[1]:.0f} |  | {sums[2]} | {sums[3]} | {sums[4]:.0f} |")
    else:
        print(f"{'all':20} {sums[0] + sums[1] + sums[4]:8.1f} s")
    print("".join(f"{fault}\n" for fault in faults), end="", file=sys.stderr)
    return 1 if faults else 0


if __name__ == "__main__":
    sys.exit(main())
