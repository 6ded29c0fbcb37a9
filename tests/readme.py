"""Runs every command of README.md and compares what it prints; README shows the hosts of examples/ as they are, and its table names every reason."""
import re
import subprocess
import sys
from pathlib import Path

ROOT = Path(__file__).resolve().parent.parent
WHOLE_TEST = "./test\n"  # this test is a part of it
SHOWN = {"c": "examples/check.c", "python": "examples/desk.py"}  # each in one block
REFUSED = re.compile(r"^(\./show examples/refused/\S+)$", re.M)  # commands that end with status 1
HERE = re.compile(r"(?<=<<'END'\n).*?^END\n", re.S | re.M)  # what a command is given
BLOCK = re.compile(r"^```(\w+)\n(.*?)^```\n", re.S | re.M)
REASONS = [*range(10, 16), *range(20, 28), *range(40, 49)]


def blocks(text):
    """(kind, content, whether the next block follows with no words between)."""
    found = list(BLOCK.finditer(text))
    for block, after in zip(found, found[1:] + [None]):
        joined = after is not None and not text[block.end():after.start()].strip()
        yield block[1], block[2], joined


def run(commands):
    commands = REFUSED.sub(r"status=0; \1 || status=$?; [ $status -eq 1 ]", commands)
    done = subprocess.run(["sh", "-eu", "-c", commands], cwd=ROOT, capture_output=True, text=True)
    if done.returncode:
        sys.exit("README: failed: %s%s%s" % (commands, done.stdout[-2000:], done.stderr[-2000:]))
    return done.stdout


def main():
    text = (ROOT / "README.md").read_text(encoding="utf-8")
    listed = list(blocks(text))
    kinds = [kind for kind, _, _ in listed]
    if set(kinds) != {"sh", "text", *SHOWN} or any(kinds.count(kind) != 1 for kind in SHOWN):
        sys.exit("README: unexpected kinds of blocks: %s" % kinds)
    commands = shown = 0
    for at, (kind, content, joined) in enumerate(listed):
        if kind in SHOWN and content != (ROOT / SHOWN[kind]).read_text(encoding="utf-8"):
            sys.exit("README: the program is not %s" % SHOWN[kind])
        if kind != "sh" or content == WHOLE_TEST:
            continue
        printed = run(content)
        commands += HERE.sub("", content).count("\n")
        if joined and listed[at + 1][0] == "text":
            shown += 1
            if printed != listed[at + 1][1]:
                sys.exit("README: %sprinted\n%s" % (content, printed))
    if shown != kinds.count("text"):
        sys.exit("README: an output does not stand right after its commands")
    if [int(number) for number in re.findall(r"^\| (\d\d) \|", text, re.M)] != REASONS:
        sys.exit("README: its table does not name the reasons in their order")
    print("README: %d commands run" % commands)


if __name__ == "__main__":
    main()
