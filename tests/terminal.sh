#!/usr/bin/env bash
# What a terminal shows that output and standard error share, by a pseudo terminal of Python's.
# needs: python3
#
#   tests/terminal.sh [PROGRAM [WORD..]]      the program, and words to put before each command's (default: build/wol)
#
# It prints a line for each test that fails, and how many passed. It ends with 1 if any failed.
set -u
cd "$(dirname "$0")/.." || exit 1
[ $# -gt 0 ] || set -- "$PWD/build/wol"
exec python3 - "$PWD" "$@" <<'END'
import os, pty, shutil, subprocess, sys, tempfile, threading, time

top, *program = sys.argv[1:]
program[0] = os.path.realpath(program[0]) if "/" in program[0] else program[0]
room = tempfile.mkdtemp()
passed = failed = 0


def expect(what, wanted, found):
    global passed, failed
    if wanted == found:
        passed += 1
    else:
        failed += 1
        print(f"FAIL {what}: wanted {wanted!r}, found {found!r}")


def run(words, parts, stdin_is_terminal=False):
    """Runs a command with output and errors on one terminal; the parts of its input come one after another, with pauses."""
    ours, theirs = pty.openpty()
    given, taken = (ours, theirs) if stdin_is_terminal else reversed(os.pipe())
    command = subprocess.Popen([*program, *words], cwd=room, stdin=taken, stdout=theirs, stderr=theirs)
    os.close(theirs)
    if not stdin_is_terminal:
        os.close(taken)
    shown = bytearray()

    def read():
        while True:
            try:
                some = os.read(ours, 65536)
            except OSError:
                return
            if not some:
                return
            shown.extend(some)

    reader = threading.Thread(target=read)
    reader.start()
    for part in parts:
        if isinstance(part, bytes):
            os.write(given, part)
        else:
            time.sleep(part)
    if not stdin_is_terminal:
        os.close(given)
    status = command.wait(60)
    reader.join()
    os.close(ours)
    return status, shown.decode()


def screen(shown):
    """The lines as they stand on the screen at last."""
    lines = []
    for line in shown.replace("\r\n", "\n").split("\n"):
        cells = []
        for piece in line.split("\r"):
            cells[: len(piece)] = list(piece)
        lines.append("".join(cells).rstrip())
    return lines


shutil.copy(f"{top}/samples/wol.toml", room)
line = b"128166372000000000,web,0,Read,0,512,100\n"
whatif = ["always", "spindown", "host", "all"]

status, shown = run(["whatif"], [line, 1.3, line, 0.3])
lines = screen(shown)
expect("a slow trace: status", 0, status)
expect("a slow trace: progress was told", True, "wol: 2 lines, " in shown)
expect("a slow trace: the answer alone is there", whatif, [it.split(" ")[0] for it in lines if it])
expect("a slow trace: no empty line but the last", [""], [it for it in lines if not it])

status, shown = run(["whatif"], [1.3, line])
expect("one line", True, "wol: 1 line, " in shown)

run(["format"], [])
status, shown = run(["replay", "--each"], [line, 1.3, line, 1.3, line, 1.3, line])
lines = screen(shown)
expect("each: status", 0, status)
expect("each: no answer stands behind progress", [], [it for it in lines if it.startswith("wol:") and " read " in it])
expect("each: four answers", 4, sum(it.startswith("read ") for it in lines))

status, shown = run(["whatif"], [0.5, line, 0.5, b"\x04"], stdin_is_terminal=True)
lines = screen(shown)
expect("a trace that is typed: status", 0, status)
expect("a trace that is typed: it is said", True, "wol: the trace comes from this terminal; < FILE takes it from a file. Ctrl-D ends it." in lines)

status, shown = run(["check"], [])
expect("no trace: nothing is said of one", [], [it for it in screen(shown) if it.startswith("wol:")])

shutil.rmtree(room)
print(f"terminal: {passed} passed, {failed} failed")
sys.exit(failed > 0)
END
