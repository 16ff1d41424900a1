#!/bin/sh
# Refuses each allocation in turn to the program lockrun, with each script of a folder and with `threads 4`, and to the programs of the
# examples, and looks what each run prints:
# - a script: its answers and status 0, or a beginning of them in whole lines, `lockrun: no memory` and status 3;
# - `threads 4`: `4` and status 0, or nothing, `lockrun: no memory` or `lockrun: thread failed`, and status 3;
# - an example: what it prints with ample memory and status 0, or status 1.
# The runs go on to one that is refused nothing. Status 1 where a run does otherwise. The last line has the figures.
#
# Each program is built once, in a copy of the repository in which it throws away as many allocations first as its first argument says:
# of all runs the same allocation is refused. Nothing is proved.
#
# Run it at the top of the repository, with `rt` on the PATH: bench/refuse-allocations.sh [FOLDER]. FOLDER, with files NAME.script and
# NAME.answers, is scripts if left out. It takes six minutes of a processor.
set -eu

python3 - "${1:-scripts}" <<'PYTHON'
import glob
import os
import re
import shutil
import subprocess
import sys
import tempfile

folder = sys.argv[1]
here = f"{os.getcwd()}/bench"

# How many a run of lockrun makes at most, beside those of a World, and a run of `threads 4` and of each example.
RUN, WORLD, THREADS = 24, 10, 120
EXAMPLES = {"first_lock": 60, "lock_examples": 3600}
# For how many seconds a run may go on.
PATIENCE = 10
WORLDS = re.compile(r"^(mutex|rwlock|semaphore|cell|barrier) ", re.MULTILINE)

THROWS_AWAY = """
// As many allocations as the argument says.
fn throw_away<R: std::rt::Env + AllocGlobal>(rt: &R) -> Option<()> {
    let mut words = std::env::args(rt).ok()?;
    let _ = words.next();
    let often = words.next()?.parse::<u64>().ok()?;
    for number in 0..often {
        let _ = Box::new(rt.alloc(), number);
    }
    Some(())
}
"""

MAIN = "fn main(rt: HostRuntime) -> ExitCode {\n"
runs = refused = 0
wrong = []


def text_of(path):
    with open(path) as file:
        return file.read()


def copy_of(crate, top):
    """Copies the repository, in which this program throws allocations away first."""
    shutil.copytree("crates", f"{top}/crates", ignore=shutil.ignore_patterns("out"))
    for name in ("HANDLES", "crates.txt"):
        shutil.copy(name, top)
    path = f"{top}/crates/{crate}/src/main.rt"
    text = text_of(path)
    if text.count(MAIN) != 1:
        sys.exit(f"{path}: its main isn't as this script knows it")
    text = text.replace(MAIN, f"{MAIN}    let _ = throw_away(&rt);\n").replace("words.as_slice(),", "words.as_slice().split_at(1).1,")
    if "use std::alloc::AllocGlobal;" not in text:
        text = text.replace("\nuse std::process::ExitCode;\n", "\nuse std::alloc::AllocGlobal;\nuse std::process::ExitCode;\n")
    with open(path, "w") as file:
        file.write(text + THROWS_AWAY)
    return os.path.dirname(os.path.dirname(path))


def run_all(crate, cases):
    """Runs a program by its cases, each a name with its input, its arguments and the number of the allocation that is refused. Returns
    what each prints, its status and what it tells."""
    most = max(number for _, _, number in cases.values())
    found = {}
    with tempfile.TemporaryDirectory() as top:
        command = [sys.executable, f"{here}/kept-program.py", f"{top}/program", str(most)]
        subprocess.run(command, cwd=copy_of(crate, top), stdin=subprocess.DEVNULL, capture_output=True, check=True)
        for name, (given, arguments, number) in cases.items():
            words = [f"{top}/program", str(most - number), *arguments]
            try:
                ran = subprocess.run(words, input=given, capture_output=True, text=True, timeout=PATIENCE)
                found[name] = (ran.stdout, ran.returncode, ran.stderr.splitlines())
            except subprocess.TimeoutExpired as late:
                found[name] = ((late.stdout or b"").decode(), "waits", [])
    return found


def judge(name, found, is_right, whole):
    """Counts the runs of a name that are refused, and those that do otherwise. The last one has to be whole."""
    global runs, refused
    for number, (printed, ended, told) in enumerate(found, 1):
        runs += 1
        if (printed, ended) == (whole, 0):
            continue
        refused += 1
        if not is_right(printed, ended, told):
            wrong.append(f"{name}: allocation {number}: status {ended}, {printed!r}, {told}")
    if found[-1][:2] != (whole, 0):
        wrong.append(f"{name}: it makes more allocations than {len(found)}")


def is_beginning(answers):
    return lambda printed, ended, told: (
        ended == 3 and answers.startswith(printed) and printed[-1:] in ("", "\n") and told == ["lockrun: no memory"]
    )


def is_no_number(printed, ended, told):
    return ended == 3 and printed == "" and told in (["lockrun: no memory"], ["lockrun: thread failed"])


def lockrun():
    cases, names = {}, {}
    for path in sorted(glob.glob(f"{folder}/*.script")):
        name = os.path.basename(path).removesuffix(".script")
        text = text_of(path)
        names[name] = RUN + WORLD * len(WORLDS.findall(text))
        cases |= {f"{name}@{number}": (text, ["script"], number) for number in range(1, names[name] + 1)}
    cases |= {f"threads@{number}": ("", ["threads", "4"], number) for number in range(1, THREADS + 1)}
    found = run_all("lockrun", cases)
    for name, last in names.items():
        answers = text_of(f"{folder}/{name}.answers")
        judge(name, [found.get(f"{name}@{number}", ("", "not run", [])) for number in range(1, last + 1)], is_beginning(answers), answers)
    threads = [found.get(f"threads@{number}", ("", "not run", [])) for number in range(1, THREADS + 1)]
    judge("threads 4", threads, is_no_number, "4\n")


def example(crate, last):
    found = run_all(crate, {str(number): ("", [], number) for number in range(1, last + 1)})
    whole = text_of(f"crates/{crate}/stdout")
    runs_of_it = [found.get(str(number), ("", "not run", [])) for number in range(1, last + 1)]
    judge(crate, runs_of_it, lambda printed, ended, told: ended == 1, whole)


lockrun()
for crate, last in EXAMPLES.items():
    example(crate, last)
for row in wrong:
    print(row, file=sys.stderr)
print(f"{runs} runs of lockrun and of examples, {refused} allocations refused, {len(wrong)} differences")
sys.exit(1 if wrong else 0)
PYTHON
