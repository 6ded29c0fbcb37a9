"""Tries the scripts show, desk and test as a new user would: every status, every line of wrong use, what is built again and when, files that cannot be
read, what a machine lacks. All of it in a stand-in for the repository (tests/standin.py), in which only the programs given are the true ones.

With --wrong 0 each of the wrong scripts of tests/wrongscripts.py is tried instead, and must be noticed.
"""
import argparse
import os
import select
import shutil
import signal
import stat
import subprocess
import sys
import tempfile
from pathlib import Path

import standin
import wrongscripts

ROOT = Path(__file__).resolve().parent.parent
EXAMPLES = ROOT / "examples"
W = EXAMPLES / "w"
W_PRINTED = (W / "expected.txt").read_bytes()
FILES = ("model.tab", "bounds.cer")
REFUSED_EMPTY = {"model.tab": b"refused 10 0 0\n", "bounds.cer": b"refused 20 0 0\n"}  # what an empty file gets beside the other of W


class Wrong(Exception):
    """What a script did wrong."""


def need(holds, what, ran=None):
    if not holds:
        raise Wrong(what if ran is None else "%s: status %d, printed %r, said %r" % (what, ran.status, ran.out[:200], ran.err[:600]))


def need_ran(what, ran, status, out=None, lines=None):
    """Holds a run to its status, to what it printed, and to how many lines it said."""
    need(ran.status == status, "%s: not status %d" % (what, status), ran)
    need(out is None or ran.out == out, "%s: printed something else" % what, ran)
    need(lines is None or len(ran.lines()) == lines, "%s: not %s lines on standard error" % (what, lines), ran)


def put(folder, example=W):
    """A folder with an example's two files."""
    folder.mkdir(parents=True, exist_ok=True)
    for name in FILES:
        shutil.copy(example / name, folder / name)
    return folder


# What show tells of a folder.

def shows_examples(tree):
    for expected in sorted(EXAMPLES.rglob("expected.txt")):
        printed = expected.read_bytes()
        ran = tree.run("show", expected.parent)
        need_ran("show %s" % expected.parent.name, ran, 1 if printed.startswith(b"refused ") else 0, printed)
    need_ran("files missing", tree.run("show"), 1, b"refused 10 0 0\n", lines=0)


def refuses_wrong_use(tree):
    for folder in (".", "w", "-x"):
        put(tree.work / folder)
    (tree.work / "plain").write_text("no folder")
    need_ran("show before", tree.run("show"), 0, W_PRINTED)
    uses = [("-",), ("--",), ("",), ("--", ""), ("-x",), ("-h",), ("--halp",), ("w", "w"), ("w", ""), ("--", "w", "w"), ("w", "--help"), ("missing",), ("--", "-missing"),
            ("plain",), ("/missing",), ("two\nlines",)]
    for words in uses:
        ran = tree.run("show", *words)
        need_ran("show %s" % (words,), ran, 2, b"", lines=1)
        need(ran.err.startswith("show: ") and ran.err.endswith("./show --help tells the use\n"), "show %s: not a clear line" % (words,), ran)
    for words in [("w",), ("-",), ("--",), ("",), ("--halp",), ("a", "b")]:
        for script in ("desk", "test"):
            ran = tree.run(script, *words)
            need_ran("%s %s" % (script, words), ran, 2, b"", lines=1)
            need(ran.err.startswith(script + ": ") and ran.err.endswith("./%s --help tells the use\n" % script), "%s %s: not a clear line" % (script, words), ran)


def refuses_shut_folder(tree):
    shut = put(tree.work / "shut")
    tree.run("show")
    shut.chmod(0o600)
    need_ran("a folder that cannot be entered", tree.run("show", "shut", **standin.nobody()), 2, b"", lines=1)
    shut.chmod(0o755)


def checks_folder_named(tree):
    """W stands in the folder named, and no files in any other that could be taken for it."""
    elsewhere = tree.folder / "elsewhere"
    for name in ("-", "--", "-x", "-P", "w", "a b", "~", "$HOME", "*", "ends\n"):
        put(tree.work / name)
        (elsewhere / name).mkdir(parents=True)
    settings = {"CDPATH": str(elsewhere), "OLDPWD": str(elsewhere)}
    for words in [("--", "-"), ("--", "--"), ("--", "-x"), ("--", "-P"), ("./-",), ("w",), ("w/",), ("--", "w"), ("a b",), ("~",), ("$HOME",), ("*",), ("ends\n",), (tree.work / "w",)]:
        need_ran("show %s" % (words,), tree.run("show", *words, settings=settings), 0, W_PRINTED)
    need_ran("show in the working folder", tree.run("show", cwd=tree.work / "w", settings=settings), 0, W_PRINTED, lines=0)
    (tree.work / "link").symlink_to(elsewhere / "-x")
    put(elsewhere / "w", EXAMPLES / "refused/weights")
    need_ran("show link/../w", tree.run("show", "link/../w"), 1, b"refused 15 1 0\n")


def found_through_links(tree):
    """The script's folder is found however it is called."""
    put(tree.work)
    (tree.folder / "bin").mkdir()
    (tree.folder / "bin/first").symlink_to("../the tree/show")
    (tree.folder / "bin/second").symlink_to("first")
    decoy = tree.folder / "elsewhere/the tree"
    decoy.mkdir(parents=True)
    for script in (tree.folder / "bin/first", tree.folder / "bin/second", Path("../the tree/show"), Path("../bin/second")):
        ran = tree.run(script, settings={"CDPATH": str(decoy.parent)})
        need_ran("as %s" % script, ran, 0, W_PRINTED)
    need_ran("by sh", tree.run(Path("the tree/show"), "work", by=["sh"], cwd=tree.folder, settings={"CDPATH": str(decoy.parent)}), 0, W_PRINTED, lines=0)
    need_ran("by its name alone", tree.run(Path("first"), settings={"PATH": "%s:%s" % (tree.folder / "bin", tree.tools)}, by=["env"]), 0, W_PRINTED, lines=0)
    for name in ("show", "desk", "test"):
        shutil.copy(tree.root / name, tree.folder / "bin" / name)
        need_ran("a copy of %s alone" % name, tree.run(tree.folder / "bin" / name), 3, b"", lines=1)


def tells_use_and_version(tree):
    for script, statuses in (("show", "0123"), ("desk", "023"), ("test", "0123")):
        ran = tree.run(script, "--help")
        need_ran("%s --help" % script, ran, 0, lines=0)
        need(ran.out.startswith(b"usage: ./%s" % script.encode()), "%s --help: no usage" % script, ran)
        need([line[7:8] for line in ran.out.decode().splitlines() if line.startswith("status ")] == list(statuses), "%s --help: not its statuses" % script, ran)
        need_ran("%s --version" % script, tree.run(script, "--version"), 0, b"commit unknown\nkit kit one\n", lines=0)
        for option in ("--help", "--version"):
            with open("/dev/full", "wb") as full:
                need_ran("%s %s, output lost" % (script, option), tree.run(script, option, stdout=full), 3, lines=1)
    need(not tree.told("rt"), "--help or --version builds")


def tells_commit(tree):
    if not shutil.which("git"):
        print("commands: skipped, since there is no git: the commit that --version tells")
        return
    def git(*words, folder=tree.root):
        done = tree.run(tree.tools / "git", "-C", folder, "-c", "user.name=x", "-c", "user.email=x", *words)
        need(done.status == 0, "git %s" % (words,), done)
        return done.out.decode().strip()
    git("init", "-q", folder=tree.folder)
    git("commit", "-q", "-m", "above", "--allow-empty", folder=tree.folder)
    need_ran("a repository above", tree.run("show", "--version"), 0, b"commit unknown\nkit kit one\n")
    git("init", "-q")
    git("add", "show")
    git("commit", "-q", "-m", "first")
    git("tag", "-a", "-m", "x", "release")
    commit = git("rev-parse", "--short", "HEAD")
    ran = tree.run("show", "--version", settings={"GIT_DIR": str(tree.folder / ".git")})
    need_ran("a commit", ran, 0, ("commit %s\nkit kit one\n" % commit).encode(), lines=0)
    with open(tree.root / "show", "a") as script:
        script.write("\n")
    (tree.tools / "rt").unlink()
    ran = tree.run("show", "--version")
    need_ran("changes, and no rt", ran, 0, ("commit %s with changes\nkit unknown, since rt is not on the path\n" % commit).encode(), lines=0)


# Output that is lost, programs that fail.

def lost(tree, script, **options):
    """(what, run) with standard output full, closed, and without a reader."""
    with open("/dev/full", "wb") as full:
        yield "a full device", tree.run(script, stdout=full, **options)
    yield "closed output", tree.run(script, by=["sh", "-c", 'exec "$0" "$@" >&-'], **options)
    reader, writer = os.pipe()
    os.close(reader)
    yield "a reader that is gone", tree.run(script, stdout=writer, **options)
    os.close(writer)


def notices_lost_output(tree):
    put(tree.work)
    tree.run("show")
    for what, ran in lost(tree, "show"):
        need_ran("show to %s" % what, ran, 3, lines=1)
    tree.run("desk")
    for what, ran in lost(tree, "desk", given=b"a call\n" * 20000):
        need_ran("desk to %s" % what, ran, 3)
        need("desk: " in ran.err, "desk to %s: nothing is said" % what, ran)


def notices_failed_showbounds(tree):
    put(tree.work)
    for what, text in (("the self-test failed", ":"), ("no report", "echo tables"), ("an empty line", "echo"), ("a crash", "echo table 1; exit 1"), ("a signal", "echo refused 1; kill -9 $$")):
        tree.set_program("showbounds", text)
        tree.run("show")
        before = len(tree.told("rt"))
        ran = tree.run("show")
        need_ran(what, ran, 3, b"")
        need(ran.lines()[-1].startswith("show: showbounds "), "%s: not the line" % what, ran)
        need(len(tree.told("rt")) == before, "%s: what is built is built again" % what, ran)


# Files that cannot be read, of which the program warns.

def hindrances(path):
    """(what, the warning after the name or None, how `path` is made so)."""
    yield "a directory", "Is a directory", path.mkdir
    yield "a FIFO", "a pipe, not opened", lambda: os.mkfifo(path)
    yield "a socket", "No such device or address", lambda: os.mknod(path, stat.S_IFSOCK | 0o644)
    yield "a link to nothing", None, lambda: path.symlink_to("nothing")
    yield "a link to itself", "Too many levels of symbolic links", lambda: path.symlink_to(path.name)
    yield "a link to a directory", "Is a directory", lambda: path.symlink_to(".")
    yield "an error while reading", "Input/output error", lambda: path.symlink_to("/proc/self/mem")
    yield "a file without rights", "Permission denied", lambda: (path.touch(), path.chmod(0))


def remove(path):
    path.rmdir() if path.is_dir() and not path.is_symlink() else path.unlink()


def warns_of_unreadable(tree):
    put(tree.work)
    tree.run("show")
    for name in FILES:
        for what, warning, make in hindrances(tree.work / name):
            remove(tree.work / name)
            make()
            ran = tree.run("show", **standin.nobody())
            need_ran("%s as %s" % (what, name), ran, 1, REFUSED_EMPTY[name])
            need(ran.err == ("%s: %s\n" % (name, warning) if warning else ""), "%s as %s: not the warning" % (what, name), ran)
        remove(tree.work / name)
        need_ran("no %s" % name, tree.run("show"), 1, REFUSED_EMPTY[name], lines=0)
        put(tree.work)
    (tree.work / FILES[0]).unlink()
    (tree.work / FILES[0]).symlink_to(W / FILES[0])
    need_ran("a link to a file", tree.run("show"), 0, W_PRINTED, lines=0)


def shows_without_warnings(tree):
    for name in FILES:
        (tree.work / name).mkdir()
    tree.run("show")
    need_ran("two directories", tree.run("show"), 1, b"refused 10 0 0\n", lines=2)
    reader, writer = os.pipe()
    os.close(reader)
    need_ran("nobody reads warnings", tree.run("show", stderr=writer), 1, b"refused 10 0 0\n")
    os.close(writer)
    need_ran("standard error closed", tree.run("show", by=["sh", "-c", 'exec "$0" "$@" 2>&-']), 1, b"refused 10 0 0\n")


# What is built again, and when.

def builds_with_few_lines(tree):
    put(tree.work)
    ran = tree.run("show")
    need_ran("the first time", ran, 0, W_PRINTED, lines=4)
    said = ran.lines()
    need(said[0].startswith("show: showbounds is not built: ") and "minutes" in said[0], "the first line does not say what is done and how long it takes", ran)
    need(said[1:] == ["proving " + crate for crate in ("low", "high", "showbounds")], "not a line for each crate", ran)
    log = tree.lines_of(tree.root / "target/showbounds.log")
    need(len(log) == 305 and log[303].startswith("rt: running out/showbounds;"), "the log does not have all that rt said")
    need_ran("the second time", tree.run("show"), 0, W_PRINTED, lines=0)
    need(tree.told("rt") == ["run in showbounds"], "rt was called again")
    need_ran("standard error lost while building", tree.run("desk", by=["sh", "-c", 'exec "$0" "$@" 2>/dev/full'], given=b"a call\n"), 0, b"a call\n")


def changes(tree):
    """(what, how it is done, whether showbounds has to be built again)."""
    crates, target = tree.root / "crates", tree.root / "target"
    def older():
        other = tree.folder / "other"
        other.write_text("older\n")
        os.utime(other, (0, 0))
        shutil.copy2(other, crates / "low/src/lib.rt")
    yield "an edit", lambda: standin.write(crates / "high/src/lib.rt", "edited\n"), True
    yield "an older file in place", older, True
    yield "a proof more", lambda: standin.write(crates / "low/proofs/More.antt", "more\n"), True
    yield "a proof less", (crates / "low/proofs/More.antt").unlink, True
    yield "a folder more", lambda: standin.write(crates / "low/specs/Lib.antt", "more\n"), True
    yield "a folder less", lambda: shutil.rmtree(crates / "low/specs"), True
    yield "the proof of a function named out", lambda: standin.write(crates / "low/proofs/out/Answers.antt", "more\n"), True
    yield "crates.txt", lambda: standin.write(tree.root / "crates.txt", standin.CRATES + "\n"), True
    yield "another kit", lambda: tree.tell("kit", "kit two\n"), True
    yield "no program", (crates / "showbounds/out/showbounds").unlink, True
    yield "a program that cannot be run", lambda: (crates / "showbounds/out/showbounds").chmod(0o644), True
    yield "no note of the build", (target / "showbounds.built").unlink, True
    yield "no target", lambda: shutil.rmtree(target), True
    yield "nothing that rt made", lambda: [shutil.rmtree(crates / name / "out") for name in ("low", "showbounds")], True
    yield "what rt makes of a crate, for another", lambda: standin.write(crates / "low/out/more", "more\n"), False
    yield "a must-fail edit", lambda: standin.write(crates / "low/must-fail/wrong.edit", "edited\n"), False
    yield "a crate that it does not need", lambda: standin.write(crates / "other/src/lib.rt", "edited\n"), False
    yield "the program of another", lambda: tree.set_program("desk", "exec tac"), False


def builds_what_changed(tree):
    put(tree.work)
    need_ran("the first time", tree.run("show"), 0, W_PRINTED)
    for what, change, again in changes(tree):
        before = len(tree.told("rt"))
        change()
        ran = tree.run("show")
        need_ran(what, ran, 0, W_PRINTED, lines=None if again else 0)
        need(len(tree.told("rt")) == before + again, "%s: rt was called %d times" % (what, len(tree.told("rt")) - before), ran)
        need_ran("%s, the second time" % what, tree.run("show"), 0, W_PRINTED, lines=0)
    tree.set_program("showbounds", "echo refused 99 0 0")
    need_ran("a new program", tree.run("show"), 1, b"refused 99 0 0\n")


def builds_what_is_lost(tree):
    put(tree.work)
    tree.run("show")
    (tree.root / "crates/showbounds/out/showbounds").unlink()
    (tree.root / "crates/low/out/made").unlink()
    ran = tree.run("show")
    need_ran("a library and the program lost", ran, 0, W_PRINTED)
    need((tree.root / "crates/low/out/made").exists(), "the lost library is not built again", ran)
    need(ran.lines()[1:] == ["proving low", "proving showbounds"], "what was not lost is proved again", ran)


def builds_again_after_edit_beside(tree):
    """A file that changes while the program is built is not in it."""
    put(tree.work)
    tree.tell("edit-beside")
    for calls in (1, 2, 2):
        need_ran("an edit beside the build", tree.run("show"), 0, W_PRINTED)
        need(len(tree.told("rt")) == calls, "an edit beside the build: rt was called %d times" % len(tree.told("rt")))


def tells_failed_build(tree):
    put(tree.work)
    tree.run("show")
    right = (tree.root / "crates/high/src/lib.rt").read_text()
    standin.write(tree.root / "crates/high/src/lib.rt", "WRONG\n")
    for _ in range(2):
        ran = tree.run("show")
        need_ran("what is not proved", ran, 3, b"")
        need("the library high did not build, so nothing above it was checked" in ran.lines() and "target/showbounds.log" in ran.lines()[-1], "a failed build: not its lines", ran)
    standin.write(tree.root / "crates/high/src/lib.rt", right)
    need_ran("mended", tree.run("show"), 0, W_PRINTED)
    (tree.tools / "rt").unlink()
    need_ran("no rt, up to date", tree.run("show"), 0, W_PRINTED, lines=0)
    standin.write(tree.root / "crates/high/src/lib.rt", "edited\n")
    for script in ("show", "desk", "test"):
        ran = tree.run(script)
        need_ran("%s without rt" % script, ran, 3, b"", lines=1)
        need("rt is not on the path" in ran.err, "%s without rt: not the line" % script, ran)


def tells_shut_target(tree):
    tree.root.chmod(0o555)
    need_ran("no target, and none can be made", tree.run("show", **standin.nobody()), 3, b"", lines=1)
    tree.root.chmod(0o755)
    (tree.root / "target").mkdir(mode=0o555)
    need_ran("a target that cannot be written", tree.run("show", **standin.nobody()), 3, b"", lines=1)


def builds_once_for_two(tree):
    put(tree.work)
    tree.tell("slow")
    started = [tree.start([tree.root / "show"], stdin=subprocess.DEVNULL) for _ in range(2)]
    ended = [process.communicate(timeout=standin.PATIENCE) for process in started]
    need([out for out, _ in ended] == [W_PRINTED] * 2, "two at once: %s" % (ended,))
    need(len(tree.told("rt")) == 1, "two at once build twice")
    need(sum(b"waiting" in err for _, err in ended) == 1, "two at once: the one that waits does not say so")


# The desk.

def desk_hands_through(tree):
    bytes_of_all_kinds = bytes(range(256)) * 300
    ran = tree.run("desk", given=bytes_of_all_kinds)
    need_ran("input while building", ran, 0, bytes_of_all_kinds, lines=4)
    need_ran("without a last newline", tree.run("desk", given=b"a\nb"), 0, b"a\nb", lines=0)
    need_ran("no input", tree.run("desk"), 0, b"", lines=0)
    tree.set_program("desk", "pwd; cat \"$1\" 2>/dev/null || echo no words")
    (tree.work / "deep").mkdir()
    need_ran("the working folder", tree.run("desk", cwd=tree.work / "deep"), 0, b"%s\nno words\n" % str(tree.work / "deep").encode())


def next_line(stream, what):
    ready, _, _ = select.select([stream], [], [], standin.PATIENCE)
    need(ready, "%s does not come at once" % what)
    return stream.readline()


def desk_answers_at_once(tree):
    tree.set_program("desk", 'while read -r call; do echo "of $call" >&2; echo "to $call"; done')
    tree.run("desk")
    process = tree.start([tree.root / "desk"], bufsize=0)
    for call in (b"one\n", b"two\n"):
        process.stdin.write(call)
        need(next_line(process.stdout, "a reply") == b"to " + call, "not the reply to the call")
        need(next_line(process.stderr, "a warning") == b"of " + call, "not the warning of the call")
    process.stdin.close()
    need(process.wait(standin.PATIENCE) == 0 and process.stdout.read() + process.stderr.read() == b"", "the desk does not end with its input")


def desk_tells_how_it_ended(tree):
    said = 'echo "%s" >&2'
    ends = [("the self-test failed", said % "desk: the self-test failed", 3, "desk: the self-test failed\n"),
            ("output not written", "cat; " + said % "desk: output not written", 3, "desk: output not written\n"),
            ("input not read", said % "desk: input not read", 3, "desk: input not read\n"),
            ("without a last newline", "printf %s 'desk: output not written' >&2", 3, "desk: output not written\n"),
            ("a warning of a file called desk", "cat; " + said % "desk: Permission denied", 0, "desk: Permission denied\n"),
            ("a warning that has the words", said % "x/desk: output not written", 0, "x/desk: output not written\n"),
            ("a status", "exit 7", 3, "desk: the program ended with status 7\n"),
            ("a signal", "kill -9 $$", 3, "desk: the program ended with status 137\n"),
            ("a signal of lost output", "kill -13 $$", 3, "desk: output not written\n")]
    for what, text, status, err in ends:
        tree.set_program("desk", text)
        tree.run("desk")
        ran = tree.run("desk", given=b"a call\n")
        need_ran(what, ran, status, b"a call\n" if "cat" in text else b"")
        need(ran.err == err, "%s: not the line" % what, ran)


def desk_needs_its_ends(tree):
    tree.set_program("desk", ":")
    tree.run("desk")
    for end, line in (("<&-", "desk: input not read\n"), (">&-", "desk: output not written\n")):
        ran = tree.run("desk", by=["sh", "-c", 'exec "$0" "$@" ' + end])
        need_ran("desk %s" % end, ran, 3, b"")
        need(ran.err == line, "desk %s: not the line" % end, ran)
    need_ran("no temporary folder", tree.run("desk", settings={"TMPDIR": "/missing"}), 3, b"", lines=1)


def begun(tree, **options):
    """A desk that has replied and warned once."""
    process = tree.start([tree.root / "desk"], **options)
    need(next_line(process.stdout, "a reply") == b"replied\n" and next_line(process.stderr, "a warning") == b"warned\n", "not the reply and the warning")
    return process


ENDING = (signal.SIGHUP, signal.SIGINT, signal.SIGQUIT, signal.SIGTERM)


def hear_signals():
    """A shell cannot trap what was ignored when it started, as SIGINT is in what a script runs beside itself."""
    for number in ENDING:
        signal.signal(number, signal.SIG_DFL)


def desk_ends_by_signal(tree):
    """A signal to the script, or to all of its group as by Ctrl-C, ends the program too, though its input stays open: then nobody holds its output any more."""
    tree.set_program("desk", "echo replied; echo warned >&2; exec cat")
    tree.run("desk")
    reader, writer = os.pipe()
    for number in ENDING:
        for send in (os.kill, os.killpg):
            what, process = "%s by %s" % (number.name, send.__name__), begun(tree, stdin=reader, preexec_fn=hear_signals)
            send(process.pid, number)
            try:
                rest = process.communicate(timeout=standin.PATIENCE)
            except subprocess.TimeoutExpired:
                raise Wrong("%s: the program goes on" % what)
            need(process.returncode == -number, "%s: status %d" % (what, process.returncode))
            need(rest == (b"", b""), "%s: it printed and said %r" % (what, rest))
    os.close(reader)
    os.close(writer)
    need(not list(tree.room.iterdir()), "a temporary folder is left")


def desk_ends_with_its_host(tree):
    tree.set_program("desk", "echo replied; echo warned >&2; exec cat")
    tree.run("desk")
    process = begun(tree)
    for end in (process.stdin, process.stdout, process.stderr):
        end.close()
    need(process.wait(standin.PATIENCE) == 0, "the host's ends closed: status %d" % process.returncode)
    need(not list(tree.room.iterdir()), "a temporary folder is left")


def desk_goes_on_without_warnings(tree):
    tree.set_program("desk", 'while read -r call; do echo "of $call" >&2; echo "to $call"; done')
    tree.run("desk")
    calls, replies = b"one\n" * 5000, b"to one\n" * 5000
    reader, writer = os.pipe()
    os.close(reader)
    need_ran("nobody reads warnings", tree.run("desk", given=calls, stderr=writer), 0, replies)
    os.close(writer)
    need_ran("standard error closed", tree.run("desk", given=calls, by=["sh", "-c", 'exec "$0" "$@" 2>&-']), 0, replies)


def true_desk(tree):
    """The program itself behind its script: replies, warnings beside the number of an empty file, ends that fail."""
    tree.set_program("desk", 'exec "$STATE/desk"')
    put(tree.work)
    for name, make in (("a-directory", Path.mkdir), ("a-fifo", os.mkfifo), ("shut", lambda path: (path.touch(), path.chmod(0)))):
        make(tree.work / name)
    tree.run("desk")
    for name, lines in (("missing", 0), ("a-directory", 1), ("a-fifo", 1), ("shut", 1)):
        calls = "model %s\ncounter %s\nmodel model.tab\ndelivery %s\nmerge %s\ndelivery bounds.cer\nmerge %s\n" % ((name,) * 5)
        ran = tree.run("desk", given=calls.encode(), **standin.nobody())
        need_ran("the desk on %s" % name, ran, 0, b"refused 10 0 0\nrefused 46 0 0\naccepted\nrefused 20 0 0\nrefused 42 0 0\nnew\nrefused 20 0 0\n", lines=4 * lines)
        need(all(line.startswith(name + ": ") for line in ran.lines()), "the desk on %s: not the warning" % name, ran)
    calls = b"model model.tab\ndelivery bounds.cer\ndelivery bounds.cer\nmerge bounds.cer\nupper 0 0 1\nno call\nclear\nmerge bounds.cer\nmargin"
    need_ran("the desk on W", tree.run("desk", given=calls), 0, b"accepted\nnew\nknown\nknown\nvalue 524288\nunclear\ncleared\n" + b"refused 40 0 0\n" * 2, lines=0)
    shutil.copy(EXAMPLES / "queue" / "counter.tab", tree.work)
    need_ran("the desk on the queue", tree.run("desk", given=b"counter counter.tab\ncounter counter.tab\nwithin 1 1 0 1\n"), 0, b"accepted\nrefused 41 0 0\nvalue 32768\n", lines=0)
    for what, ran in lost(tree, "desk", given=b"clear\n" * 50000):
        need_ran("the desk to %s" % what, ran, 3, lines=1)
    folder = os.open("/", os.O_RDONLY)
    ran = tree.run("desk", stdin=folder)
    os.close(folder)
    need_ran("the desk from a directory", ran, 3, b"")
    need(ran.err == "desk: input not read\n", "the desk from a directory: not the line", ran)


# The tests' own script, and what a machine lacks.

def test_tells_what_failed(tree):
    last = b"7 passed, 0 failed\n"
    standin.write(tree.root / "target/mine", "kept\n")
    ran = tree.run("test")
    need_ran("all passes", ran, 0, lines=0)
    need(ran.out.endswith(b"the tests ran\n" + last) and b"rt: low proved\n" in ran.out, "all passes: not its lines", ran)
    need(tree.told("rt") == ["ci in " + tree.root.name], "the gate is not rt ci of all crates alone", ran)
    need((tree.root / "target/mine").exists(), "what lies in target is gone")
    put(tree.work)
    need_ran("show after the test", tree.run("show"), 0, W_PRINTED, lines=0)
    need_ran("desk after the test", tree.run("desk"), 0, b"", lines=0)
    for what, end in (("layout", b"0 passed, 4 failed\n"), ("ci-fails", b"6 passed, 1 failed\n"), ("tests-fail", b"the tests ran\n")):
        tree.tell(what)
        ran = tree.run("test", settings={"CDPATH": str(tree.folder)})
        need_ran(what, ran, 1)
        need(ran.out.endswith(end) and last not in ran.out, "%s: not its last line" % what, ran)
        (tree.state / what).unlink()
    need(not list(tree.room.iterdir()), "a temporary folder is left")


def test_refuses_bad_edits(tree):
    """Edits that cannot be tried: rt ci counts them, and passes."""
    for bad, status in ((", 1 bad", 1), (", 20 bad", 1), (", 3 of them only by a limit, 4 bad", 1), (", 3 of them only by a limit", 0), (", 0 bad", 0)):
        tree.tell("bad", bad)
        ran = tree.run("test")
        need_ran("must-fail edits: 12 refused%s" % bad, ran, status, lines=status)
        need((b"the tests ran\n7 passed, 0 failed\n" in ran.out) == (status == 0), "must-fail edits: 12 refused%s: not its last line" % bad, ran)
    tree.tell("untold")
    need_ran("rt does not count the edits", tree.run("test"), 1, lines=1)


def machines():
    """(what is missing, what is known of the machine, status, how apt-get was called, a part of the last line)."""
    install, both, sudo = "install -y --no-upgrade ", "gcc libc6-dev python3", "sudo apt-get install -y --no-upgrade gcc libc6-dev python3"
    yield "gcc cc python3", ["lists"], 0, [install + both], ""
    yield "gcc cc python3", [], 0, [install + both, "update", install + both], ""
    yield "python3", ["lists"], 0, [install + "python3"], ""
    yield "cc", ["lists"], 0, [install + "gcc libc6-dev"], ""
    yield "", ["headers-missing", "lists"], 0, [install + "gcc libc6-dev"], ""
    yield "", ["library-missing", "lists"], 0, [install + "python3"], ""
    yield "gcc cc python3", ["lists", "not-root"], 0, [install + both], ""
    yield "gcc cc python3", ["lists", "not-root", "sudo-refuses"], 3, [], sudo
    yield "gcc cc python3 sudo", ["lists", "not-root"], 3, [], sudo
    yield "gcc cc python3 apt-get", ["not-root"], 3, [], sudo
    yield "gcc cc python3 apt-get", [], 3, [], ": apt-get install -y --no-upgrade gcc libc6-dev python3"
    yield "gcc cc python3", ["apt-get-fails"], 3, [install + both, "update", install + both], "target/setup.log"


def set_machine(tree, missing, known):
    for name in known:
        tree.tell(name)
    for name in missing.split():
        (tree.tools / name).unlink()
    for name, state in (("gcc", "headers-missing"), ("python3", "library-missing")):
        if state in known:
            standin.write(tree.tools / name, "#!/bin/sh\nexit 1\n", 0o755)
    if "not-root" in known:
        tree.tell("uid", "1000\n")


def test_installs_what_is_missing(tree):
    for missing, known, status, called, end in machines():
        what = "missing %s on a machine with %s" % (missing, known)
        with standin.tree(tree.root, {}) as machine:
            set_machine(machine, missing, known)
            ran = machine.run("test")
            need_ran(what, ran, status, None if status == 0 else b"", lines=1 if status == 0 or not called else 2)
            need(machine.told("apt-get") == called, "%s: apt-get was called with %s" % (what, machine.told("apt-get")))
            need(end in ran.lines()[-1], "%s: not the line" % what, ran)
            need(bool(machine.told("sudo")) == ("not-root" in known and bool(called)), "%s: sudo" % what, ran)
            need(("7 passed" in ran.out.decode()) == (status == 0), "%s: the tests" % what, ran)


def show_needs_no_compiler(tree):
    put(tree.work)
    set_machine(tree, "gcc cc python3 apt-get sudo id", [])
    need_ran("show without gcc and python3", tree.run("show"), 0, W_PRINTED)
    need_ran("desk without gcc and python3", tree.run("desk", given=b"a call\n"), 0, b"a call\n")


CHECKS = [shows_examples, refuses_wrong_use, refuses_shut_folder, checks_folder_named, found_through_links, tells_use_and_version, tells_commit, notices_lost_output,
          notices_failed_showbounds, warns_of_unreadable, shows_without_warnings, builds_with_few_lines, builds_what_changed, builds_what_is_lost,
          builds_again_after_edit_beside, tells_failed_build, tells_shut_target, builds_once_for_two, desk_hands_through, desk_answers_at_once, desk_tells_how_it_ended,
          desk_needs_its_ends, desk_ends_by_signal, desk_ends_with_its_host, desk_goes_on_without_warnings, test_tells_what_failed, test_refuses_bad_edits, test_installs_what_is_missing, show_needs_no_compiler]


def first_fault(scripts, programs):
    """What the first check that fails tells, or None."""
    for check in CHECKS + [true_desk] * ("desk" in programs):
        with standin.tree(scripts, programs) as tree:
            try:
                check(tree)
            except Wrong as wrong:
                return "%s: %s" % (check.__name__, wrong)
    return None


def try_wrong(programs, first):
    """Exits unless each wrong script is noticed."""
    for name, old, new in wrongscripts.WRONG[first:]:
        with tempfile.TemporaryDirectory() as folder:
            scripts = Path(folder)
            for script in standin.SCRIPTS:
                shutil.copy(ROOT / script, scripts / script)
            text = (scripts / name).read_text()
            if text.count(old) != 1:
                sys.exit("commands: %s has %d times: %s" % (name, text.count(old), old))
            (scripts / name).write_text(text.replace(old, new))
            fault = first_fault(scripts, programs)
        if not fault:
            sys.exit("commands: not noticed: %s with %r for %r" % (name, new, old))
        print("%s with %r for %r\n    %s" % (name, new, old, fault[:300]), flush=True)
    print("commands: %d wrong scripts noticed" % len(wrongscripts.WRONG[first:]))


def main():
    options = argparse.ArgumentParser(description=__doc__)
    options.add_argument("--program", required=True, help="the showbounds program")
    options.add_argument("--desk", help="the desk program")
    options.add_argument("--wrong", type=int, metavar="FIRST", help="try wrong scripts, from this one on (0: all), some minutes")
    options = options.parse_args()
    programs = {name: Path(path).resolve() for name, path in (("showbounds", options.program), ("desk", options.desk)) if path}
    if options.wrong is not None:
        return try_wrong(programs, options.wrong)
    fault = first_fault(ROOT, programs)
    if fault:
        sys.exit("commands: " + fault)
    print("commands: %d checks of show, desk and test hold" % (len(CHECKS) + ("desk" in programs)))


if __name__ == "__main__":
    main()
