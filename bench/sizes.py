"""Whether the entries that are certified at one size are certified at others too, and right at every size.

    python3 -B bench/sizes.py COMMIT FILE..

A program is built from the commit with its run-time checks taken out (bench/states.py says how and what for), and surveys
the entries of the files, sources or compiled, at 24 by 80, at six sizes more, and for every size. A line for each has the
number of entries with a yes, the seconds of the processor, and the entries whose answer differs from that at 24 by 80. It
needs the toolchain, gcc and some six minutes of a processor."""

import os
import resource
import subprocess
import sys
import tempfile

import states

SIZES = ((24, 80), (2, 2), (3, 9), (43, 132), (200, 2), (2, 500), (200, 500))


def answers(program, words, files):
    """The answer for each entry of the files at the size in the words, by its place and name, and the processor's seconds."""
    before = resource.getrusage(resource.RUSAGE_CHILDREN)
    words = [program, "survey", *words, *files]
    lines = subprocess.run(words, stdout=subprocess.PIPE, stderr=subprocess.DEVNULL, check=False).stdout.splitlines()
    after = resource.getrusage(resource.RUSAGE_CHILDREN)
    found = {}
    for place, line in enumerate(lines):
        # the last line of a survey of one size has the totals
        if line.startswith(b"total ") and line == lines[-1]:
            break
        name, _, answer = line.decode("latin-1").partition(" ")
        found[place, name] = answer
    return found, after.ru_utime + after.ru_stime - before.ru_utime - before.ru_stime


def main(commit, files):
    """Prints a line for each size."""
    with tempfile.TemporaryDirectory() as work:
        program = states.program_of(states.rt(), commit, work)
        # the last step of a build leaves the folder that it was in
        os.chdir(states.HERE)
        first = None
        for words in [*((str(rows), str(cols)) for rows, cols in SIZES), ("--every-size",)]:
            found, seconds = answers(program, words, files)
            yes = {key for key, answer in found.items() if answer == "yes"}
            first = yes if first is None else first
            differ = sorted(f"{name}: {found.get((place, name), 'no answer')}" for place, name in yes ^ first)
            print(f"{' by '.join(words)}: {len(found)} entries, {len(yes)} yes, {seconds:.1f} s" + "".join(
                f"\n    {line}" for line in differ), flush=True)


if __name__ == "__main__":
    if len(sys.argv) < 3:
        sys.exit(__doc__)
    main(sys.argv[1], [os.path.abspath(path) for path in sys.argv[2:]])
