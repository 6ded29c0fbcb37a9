"""A stand-in for the repository and for a machine, in which the scripts show, desk and test can be tried in no time: crates of a line each, an rt that
builds by copying and goes by its stamps as the true one does, and only the commands that a test lets in."""
import os
import shutil
import signal
import subprocess
import tempfile
from contextlib import contextmanager
from pathlib import Path
from typing import NamedTuple

SCRIPTS = ("show", "desk", "test", "common.sh")
PATIENCE = 20  # seconds until a script counts as hanging
NOBODY = 65534
BASE = "sh awk sed tr find flock tee cat rm mkdir mv cp mktemp mkfifo readlink dirname true env git chmod cksum grep sleep seq sort".split()
CRATES = "# who needs whom\nlow:\nhigh may_wait=0: low io\nshowbounds: high # and not: other\ndesk: low\nother:\n"

RT = r"""#!/bin/sh
# Builds a crate unless its stamp says that neither its text nor what was made of it has changed.
build() { # CRATE
    out=crates/$1/out
    text=$(find crates.txt crates/low crates/high "crates/$1" -regex 'crates/[^/]*/out' -prune -o -type f -exec cat {} + | cksum)
    if [ "$(cat "$out/stamp" 2>/dev/null)" = "$text $(cat "$out/made" "$out/$1" 2>/dev/null | cksum)" ]; then
        [ ! -e "$out/$1" ] || echo "rt: nothing has changed since the last proved build, by out/$1.stamp, so nothing is checked now"
        return
    fi
    rm -f "$out/stamp"
    mkdir -p "$out"
    echo "rt: chose --jobs 2 for $1"
    seq 100
    ! grep -q '^WRONG' "crates/$1"/src/* || return 1
    if [ -f "crates/$1/src/main.rt" ]; then
        cp "crates/$1/src/main.rt" "$out/$1" && chmod +x "$out/$1"
    else
        echo "$text" >"$out/made"
    fi
    echo "$text $(cat "$out/made" "$out/$1" 2>/dev/null | cksum)" >"$out/stamp"
}

run() { # PROGRAM
    cd ../..
    for crate in low high; do
        build "$crate" || { echo "rt: the library $crate did not build, so nothing above it was checked"; exit 1; }
    done
    build "$1" || exit 1
    [ ! -e "$STATE/edit-beside" ] || { rm "$STATE/edit-beside"; echo more >>crates/low/src/lib.rt; }
    echo "rt: running out/$1; to give it other input, run that file yourself"
    cd "crates/$1"
}

ci() {
    rm -rf crates/*/out
    [ ! -e "$STATE/layout" ] || { echo "rt: low NOT PROVED"; echo "0 passed, 4 failed"; exit 1; }
    for crate in low high showbounds desk; do
        build "$crate" | sed 1d
        rm "crates/$crate/out/stamp"
        echo "rt: $crate proved"
    done
    [ ! -e "$STATE/ci-fails" ] || { echo "rt: FAILED: low/wrong.edit"; echo "6 passed, 1 failed"; exit 1; }
    [ -e "$STATE/untold" ] || echo "rt: ok; handles allowed: none; must-fail edits: 12 refused$(cat "$STATE/bad" 2>/dev/null); every proof and must-fail edit was done in this run"
    echo "7 passed, 0 failed"
}

[ "$1" != version ] || exec cat "$STATE/kit"
name=${PWD##*/}
echo "$* in $name" >>"$STATE/rt"
cat >/dev/null
[ ! -e "$STATE/slow" ] || sleep 0.5
case $1 in
run)
    run "$name" >&2
    exec "out/$name"
    ;;
ci) ci ;;
esac
"""
APT_GET = r"""#!/bin/sh
put() { # NAME TEXT
    printf '%s\n' '#!/bin/sh' "$2" >"$STATE/../tools/$1"
    chmod +x "$STATE/../tools/$1"
}

echo "$*" >>"$STATE/apt-get"
case $1 in
update) : >"$STATE/lists" ;;
install)
    [ -e "$STATE/lists" ] && [ ! -e "$STATE/apt-get-fails" ] || exit 100
    case "$* " in *" gcc libc6-dev "*) put gcc 'cat >/dev/null'; put cc : ;; esac
    case "$* " in *" python3 "*) put python3 : ;; esac
    ;;
esac
"""
SUDO = '#!/bin/sh\n[ "$1" = -n ] && [ ! -e "$STATE/sudo-refuses" ] || exit 1\nshift\necho "$*" >>"$STATE/sudo"\nexec "$@"\n'
ID = '#!/bin/sh\ncat "$STATE/uid"\n'
TESTS = '#!/bin/sh\necho "the tests ran"\n[ ! -e "$STATE/tests-fail" ]\n'


class Ran(NamedTuple):
    status: int
    out: bytes
    err: str

    def lines(self):
        return self.err.splitlines()


def nobody():
    """Words for subprocess that take root's rights away."""
    return dict(user=NOBODY, group=NOBODY, extra_groups=[]) if os.geteuid() == 0 else {}


def write(path, text, mode=0o644):
    path.parent.mkdir(parents=True, exist_ok=True)
    path.write_text(text)
    path.chmod(mode)


class Tree:
    """The folder `root` has the scripts and the crates, `state` what the stand-ins are told and tell, `tools` all commands, `room` temporary files."""

    def __init__(self, folder, scripts, programs):
        self.folder, self.started = Path(folder), []
        self.root, self.state, self.tools, self.room, self.work = (self.folder / name for name in ("the tree", "state", "tools", "room", "work"))
        for path in (self.root, self.state, self.tools, self.room, self.work):
            path.mkdir()
            path.chmod(0o777)
        for name in SCRIPTS:
            shutil.copy(scripts / name, self.root / name)
        for name, program in programs.items():
            shutil.copy(program, self.state / name)
            (self.state / name).chmod(0o755)
        self.make_crates()
        self.make_tools()

    def make_crates(self):
        write(self.root / "crates.txt", CRATES)
        for name in ("low", "high", "other"):
            write(self.root / "crates" / name / "src/lib.rt", name + "\n")
            write(self.root / "crates" / name / "proofs/Proof.antt", name + "\n")
        write(self.root / "crates/low/must-fail/wrong.edit", "file: src/lib.rt\n")
        write(self.root / "tests/run", TESTS, 0o755)
        self.set_program("showbounds", 'exec "$STATE/showbounds"')
        self.set_program("desk", "exec cat")

    def make_tools(self):
        for name in BASE:
            found = shutil.which(name)
            if found:
                (self.tools / name).symlink_to(os.path.realpath(found))
        for name, text in (("rt", RT), ("apt-get", APT_GET), ("sudo", SUDO), ("id", ID)):
            write(self.tools / name, text, 0o755)
        for name in ("gcc", "cc", "python3"):
            write(self.tools / name, "#!/bin/sh\n", 0o755)
        self.tell("kit", "kit one\n")
        self.tell("uid", "0\n")

    def tell(self, name, text=""):
        write(self.state / name, text)

    def lines_of(self, path):
        return path.read_text().splitlines() if path.exists() else []

    def told(self, name):
        """The lines that a stand-in left."""
        return self.lines_of(self.state / name)

    def set_program(self, name, text):
        write(self.root / "crates" / name / "src/main.rt", "#!/bin/sh\n" + text + "\n")

    def start(self, command, **options):
        """A process of its own group, in folder `work` where no other is given. `settings` are added to its few variables."""
        settings = {"PATH": str(self.tools), "STATE": str(self.state), "TMPDIR": str(self.room), "HOME": str(self.room), **options.pop("settings", {})}
        options = {"stdin": subprocess.PIPE, "stdout": subprocess.PIPE, "stderr": subprocess.PIPE, "cwd": self.work, **options}
        process = subprocess.Popen([str(word) for word in command], env=settings, start_new_session=True, **options)
        self.started.append(process)
        return process

    def end_started(self):
        for process in self.started:
            if process.poll() is None:
                os.killpg(process.pid, signal.SIGKILL)
                process.wait()

    def run(self, script, *words, given=b"", **options):
        """Runs a script to its end."""
        command = [script if isinstance(script, Path) else self.root / script, *words]
        process = self.start(options.pop("by", []) + command, **options)
        try:
            out, err = process.communicate(given, timeout=PATIENCE)
        except subprocess.TimeoutExpired:
            self.end_started()
            return Ran(-1, b"", "it hangs\n")
        return Ran(process.returncode, out or b"", (err or b"").decode(errors="replace"))


@contextmanager
def tree(scripts, programs):
    """A fresh tree, which the user nobody can reach too. Nothing of it is left."""
    with tempfile.TemporaryDirectory() as folder:
        os.chmod(folder, 0o755)
        made = Tree(folder, scripts, programs)
        try:
            yield made
        finally:
            made.end_started()
