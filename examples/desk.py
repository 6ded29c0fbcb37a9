"""Keeps a register from another program: a call is one line to the desk, and its reply one line back."""
import subprocess
from pathlib import Path

ROOT = Path(__file__).resolve().parent.parent
desk = subprocess.Popen([ROOT / "desk"], cwd=ROOT, stdin=subprocess.PIPE, stdout=subprocess.PIPE, encoding="utf-8")


def reply(call):
    print(call, file=desk.stdin, flush=True)
    return desk.stdout.readline().split() or ["none: the desk ended with status", str(desk.wait())]


for call in ("model examples/w/model.tab", "delivery examples/w/bounds.cer", "upper 0 0 1", "upper 0 0 9"):
    print(call, "->", *reply(call))
desk.stdin.close()
raise SystemExit(desk.wait())
