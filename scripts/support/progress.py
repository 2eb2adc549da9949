"""Says on standard error what goes on in the processes below the one that started this: at most every 15 seconds, and at least once a minute.

    progress.py NAME [LOG]    NAME begins each line; LOG has the output of `rt ci`, which says of each crate whether it is proved.

It looks at /proc. Where that isn't there, or anything else goes wrong, it says nothing, and nothing depends on it.
"""

import glob
import os
import re
import sys
import time

ROOT = os.path.dirname(os.path.dirname(os.path.dirname(os.path.abspath(__file__))))
EVERY = float(os.environ.get("PROGRESS_SECONDS", 15))
FUNCTION = re.compile(r'^ *(?:pub(?:\(\w+\))? )?(?:const )?(?:unsafe )?(?:extern "C" )?fn ', re.M)


def text_of(path):
    with open(path, errors="replace") as file:
        return file.read()


def processes_below(top):
    """Returns the words and the folder of each."""
    inner, found, inside = {}, [], [top]
    for number in filter(str.isdigit, os.listdir("/proc")):
        try:
            inner.setdefault(int(text_of(f"/proc/{number}/stat").rpartition(")")[2].split()[1]), []).append(int(number))
            found.append((int(number), text_of(f"/proc/{number}/cmdline").split("\0"), os.readlink(f"/proc/{number}/cwd")))
        except OSError:
            pass  # It has ended, or is another user's.
    for number in inside:
        inside += inner.get(number, [])
    return [(words, folder) for number, words, folder in found if number in inside[1:]]


def functions_in(folder):
    return sum(len(FUNCTION.findall(text_of(file))) for file in glob.glob(f"{folder}/src/**/*.rt", recursive=True))


def work_of(words, folder):
    """Returns the kind of work and its subject. How many functions are proved shows only where a check keeps them, as that of `rt run` does, not that of `rt ci`."""
    script = re.search(r"scripts/(\w+)\.sh$", " ".join(words[:2]))
    if script:
        return "running", script[1]
    if os.path.basename(words[0]) != "rattle" or "--crate-name" not in words:
        return None
    if "/mutants-" in folder:
        return None  # The script of the mutants says itself what goes on.
    name = words[words.index("--crate-name") + 1]
    if "/rt-edit-" in folder:
        return "trying mutants of", name
    if "--only" in words or "--crate-checked" in words:
        return "compiling", name
    if "--test" in words:
        return "proving", f"the tests of {name}"
    proved, count = len(glob.glob(f"{folder}/out/incremental/*/*-proofs.*.Met.oantt")), functions_in(folder)
    return "proving", f"{name} ({f'{min(proved, count)} of ' if proved else ''}{count} functions)"


def ended(log):
    """Returns how many crates `rt ci` is done with, and how many functions these have."""
    done = set(re.findall(r"^rt: (\w+) (?:proved|is kept|NOT PROVED)", text_of(log), re.M))
    counts = {os.path.basename(it): functions_in(it) for it in glob.glob(f"{ROOT}/crates/*") if os.path.isdir(f"{it}/src")}
    of = sum(counts.get(it, 0) for it in done)
    return [f"{len(done)} of {len(counts)} crates have ended, with {of} of {sum(counts.values())} functions"] if done else []


def main(name, log=None):
    top, began, last, when = os.getppid(), time.monotonic(), "", 0.0
    while os.getppid() == top:
        processes, now = processes_below(top), time.monotonic()
        work = sorted({it for it in (work_of(*each) for each in processes) if it})
        said = [f"{kind} {', '.join(of for other, of in work if other == kind)}" for kind in dict.fromkeys(kind for kind, _ in work)]
        text = "; ".join(said + (ended(log) if log else []))
        if work and (text != last or now - when >= 60):
            print(f"{name}: {int(now - began) // 60} min: {text}", file=sys.stderr, flush=True)
            last, when = text, now
        time.sleep(EVERY if last else 2)


try:
    main(*sys.argv[1:])
except Exception:
    pass
