#!/usr/bin/env python3
"""Checks one crate over what is proved already, for a change of that crate alone.

  crate.sh CRATE [FLAG..]   FLAG: one of `rattle check`, as --only FUNCTION, --allow-holes, --start FUNCTION or --test

`rt ci` proves the crates below on the first run, or takes what it has kept on this machine; their libraries stay in
crates/CRATE/out/below until one of these crates changes. `rt check` proves all of them again in a fresh clone. What was
checked of the crate itself stays in crates/CRATE/out/incremental, where `rt check` and edits.sh begin too.
Statuses: those of `rattle check`; 1 if the crates below are not proved.
"""
import os
import shutil
import sys
import tempfile

sys.dont_write_bytecode = True
import edits as trials


def sum_below(name, crates):
    """A sum of all that the libraries of the crates below are made of."""
    words = [trials.read(f"{trials.kit()}/KIT-ID")]
    for dep in trials.below(name, crates):
        words.append(repr((dep, crates[dep])))
        for path, file in trials.texts(dep, *trials.PARTS).items():
            words += [path, trials.read(file)]
    return trials.sum_of(*words)


def libraries(name, crates):
    """The folder with the libraries of the crates below, which are proved if they are not there."""
    place, wanted = f"{trials.HOME}/crates/{name}/out/below", sum_below(name, crates)
    if os.path.isfile(f"{place}/sum") and trials.read(f"{place}/sum") == wanted:
        return place
    shutil.rmtree(place, ignore_errors=True)
    os.makedirs(place)
    with tempfile.TemporaryDirectory(prefix="crate-") as room:
        # rt runs programs as the user `nobody`, which has to reach the folders below.
        os.chmod(room, 0o711)
        trials.prove_below([name], crates, room)
        # (without the sources: `rt ci` refuses those that no line of crates.txt names)
        for dep in trials.below(name, crates):
            part = f"tree/crates/{dep}/out/rlib"
            shutil.copytree(f"{room}/{part}", f"{place}/{part}")
    with open(f"{place}/sum", "w", encoding="utf-8") as file:
        file.write(wanted)
    return place


def main():
    words = sys.argv[1:]
    if not words or words[0] in ("-h", "--help"):
        print(__doc__.strip())
        return 0 if words else 1
    name, flags, crates = words[0], words[1:], trials.listed()
    if name not in crates:
        print(f"crate.sh: crates.txt lists no crate {name}", file=sys.stderr)
        return 1
    trial = trials.Trial(name, crates, libraries(name, crates), trials.kit())
    given = trial.words[:-1]
    given += ["1" if any(it.startswith("--only") for it in flags) else str(min(2, len(os.sched_getaffinity(0))))]
    os.chdir(f"{trials.HOME}/crates/{name}")
    sys.stdout.flush()
    os.execv(given[0], [*given, "--incremental", "out/incremental", *flags])


if __name__ == "__main__":
    sys.exit(main())
