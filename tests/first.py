"""Answers the stored run of the program before any proof, proves the program and every crate below it, and answers the run again
by what is proved. Called by first.sh.

  --try    only the first answer

`rt try` reads sources alone, keeps no file and waits for no other run of rt, so it needs no copy. A proof keeps all others
out of the crates below its own. So each crate is proved in a copy of its own as soon as those below it are, several side by
side, and what that keeps goes to crates/*/out. Proofs leave two processors to the first answer: it runs in a session of its
own, and between sessions Linux need not go by how far processes give way.
"""
import os
import re
import shutil
import subprocess
import sys
import tempfile
import time
from concurrent.futures import FIRST_COMPLETED, ThreadPoolExecutor, wait

import kit
import source

PROGRAM = "spand"
PROGRAM_FOLDER = f"{source.TOP}/crates/{PROGRAM}"
ARGUMENTS = ["--", "script", "--dir", "data", "--set", "FUT"]
# What a check holds at most, but for a few, in bytes; no machine is asked for more than it has free.
HELD = 5 * 2**30
BEGAN = time.time()


def say(text):
    print(f"{(time.time() - BEGAN) / 60:.1f} min: {text}", flush=True)


def say_replies(head, replies):
    """Says the replies, with their head before each line."""
    lines = replies.decode(errors="replace").splitlines()
    say("\n".join([f"the stored run, {head}", *(f"    {head}: {it}" for it in lines)]))


def first_answer():
    """Runs the stored run without any proof, and returns its replies, or None."""
    data = [word for it in sorted(os.listdir(f"{PROGRAM_FOLDER}/data")) for word in ("--data", f"data/{it}=data/{it}")]
    with open(f"{PROGRAM_FOLDER}/stdin", "rb") as lines:
        words = ["rt", "try", *data, *ARGUMENTS]
        ran = subprocess.run(words, cwd=PROGRAM_FOLDER, stdin=lines, capture_output=True, check=False)
    if ran.returncode:
        say(f"the stored run gave NO ANSWER before its proof:\n{ran.stderr.decode(errors='replace')}")
        return None
    say_replies("NOT YET PROVED", ran.stdout)
    return ran.stdout


def proved_answer():
    """Proves and builds the program and runs it, and returns its replies, or None."""
    jobs = max(1, min(processors(), 4, free_memory() // HELD))
    with open(f"{PROGRAM_FOLDER}/stdin", "rb") as lines:
        words = kit.command("run", "--jobs", str(jobs), *ARGUMENTS)
        ran = subprocess.run(words, cwd=PROGRAM_FOLDER, stdin=lines, stdout=subprocess.PIPE, check=False)
    if ran.returncode:
        say(f"{PROGRAM} NOT PROVED, or its run failed (status {ran.returncode})")
        return None
    say_replies("PROVED", ran.stdout)
    return ran.stdout


def processors():
    return len(os.sched_getaffinity(0))


def free_memory():
    with open("/proc/meminfo", encoding="utf-8") as it:
        return int(re.search(r"MemAvailable:\s+(\d+) kB", it.read())[1]) * 1024


def copy_of(crate, room):
    """Makes a copy of the crate with the libraries below it, as they are built; what the crate kept moves there."""
    crates = [*crate.below(), crate]
    shutil.copy(f"{source.TOP}/HANDLES", room)
    with open(f"{source.TOP}/crates.txt", encoding="utf-8") as lines, open(f"{room}/crates.txt", "w", encoding="utf-8") as to:
        to.writelines(line for line in lines if line.partition(":")[0].split()[:1] in [[it.name] for it in crates])
    for it in crates:
        to = f"{room}/crates/{it.name}"
        shutil.copytree(it.folder, to, ignore=shutil.ignore_patterns("out"))
        if it is not crate:
            shutil.copytree(f"{it.folder}/out/rlib", f"{to}/out/rlib", copy_function=os.link)
    if os.path.isdir(f"{crate.folder}/out"):
        shutil.move(f"{crate.folder}/out", f"{room}/crates/{crate.name}/out")


def heights(crates):
    """Returns for each crate the size of the longest chain from it upwards."""
    found = {}
    # (lowest first, so that each crate comes behind those below it)
    for it in reversed(crates):
        longest = max((found[one] for one in crates if it in one.below() and one in found), default=0)
        found[it] = source.size_of(it.folder) + longest
    return found


def prove(crate, jobs, give_way):
    """Returns the crate, whether it is proved and built, what rt said, and the seconds that it took."""
    began = time.time()
    with tempfile.TemporaryDirectory(prefix="first-", dir=f"{source.TOP}/out") as room:
        copy_of(crate, room)
        folder = f"{room}/crates/{crate.name}"
        how = {"stdin": subprocess.DEVNULL, "stdout": subprocess.PIPE, "stderr": subprocess.STDOUT, "text": True}
        words = ["nice", "-n", str(give_way), *kit.command("lib", "--jobs", str(jobs))]
        ran = subprocess.run(words, cwd=folder, **how, errors="replace", check=False)
        if os.path.isdir(f"{folder}/out"):
            shutil.move(f"{folder}/out", f"{crate.folder}/out")
    return crate, ran.returncode == 0 and crate.is_built(), ran.stdout, time.time() - began


def tell(crate, is_proved, said, seconds, crates):
    """Says what became of a crate, and how far the proofs are."""
    functions = re.search(r"^logic=proved functions=(\d+)", said, re.M)
    told = f"{functions[1]} functions, {seconds:.0f} s" if is_proved and functions else f"{seconds:.0f} s"
    done = len([it for it in crates if it.is_built()])
    say(f"{crate.name} {'proved' if is_proved else 'NOT PROVED'} ({told}); {done} of {len(crates)} crates")
    if not is_proved:
        print(said, flush=True)


def prove_all(crates, first):
    """Proves the crates, each once those below it are; returns whether all are proved."""
    at_once = max(1, min(processors(), free_memory() // HELD))
    waiting, running, failed, above = [it for it in crates if not it.is_built()], set(), False, heights(crates)
    with ThreadPoolExecutor(at_once) as pool:
        while (waiting and not failed) or running:
            free = (at_once if first.done() else max(1, at_once - 2)) - len(running)
            ready = [it for it in waiting if all(one.is_built() for one in it.below())] if not failed else []
            for it in sorted(ready, key=lambda it: -above[it])[: max(free, 0)]:
                waiting.remove(it)
                is_longest = all(above[one] <= above[it] for one in crates if not one.is_built())
                running.add(pool.submit(prove, it, *share_of(is_longest, first.done())))
            ended = wait(running if first.done() else running | {first}, return_when=FIRST_COMPLETED).done & running
            running -= ended
            for it in ended:
                tell(*it.result(), crates)
                failed |= not it.result()[1]
    return not failed


def share_of(is_longest, is_answered):
    """Returns how many jobs a proof has, and how far it gives way to others."""
    # (the crate below the longest chain comes first, and all others give way to it; several jobs prove a crate sooner, but
    # take a quarter more processor time, so only that one has them, and not while the first answer is awaited)
    return (min(processors(), 4) if is_answered else 1, 0) if is_longest else (1, 15)


def main(words):
    if words not in ([], ["--try"]):
        print(__doc__)
        return 2
    if words:
        return int(first_answer() is None)
    kit.sum_once()
    program = next(it for it in kit.crates(source.TOP) if it.name == PROGRAM)
    if all(it.is_built() for it in program.below()) and os.path.isfile(f"{PROGRAM_FOLDER}/out/{PROGRAM}"):
        # (an answer before the proof would come after the proved one)
        return int(proved_answer() is None)
    os.makedirs(f"{source.TOP}/out", exist_ok=True)
    with ThreadPoolExecutor(1) as pool:
        first = pool.submit(first_answer)
        try:
            is_proved = prove_all(program.below(), first)
        finally:
            shutil.rmtree(f"{source.TOP}/out", ignore_errors=True)
        proved = proved_answer() if is_proved else None
    if proved is None:
        return 1
    if proved != first.result():
        say("the replies of the PROVED program DIFFER from those that came first")
        return 1
    say("the replies are those that came first, and now they are proved")
    return 0


if __name__ == "__main__":
    sys.exit(main(sys.argv[1:]))
