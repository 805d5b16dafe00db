"""./hex both ways: how files are named, what is written and what is read, what is refused, and where its output goes."""
import os
import random
import shutil
import signal
import subprocess
import time

from harness import TOP, run

HEX = TOP / "hex"
SAMPLES = [TOP / "samples/countdown.bin", TOP / "samples/sender.bin"]
COUNTDOWN = SAMPLES[0].read_bytes()
LENGTHS = (16, 20, 28, 1024, 65532, 65536)
MOST_TEXT = 64 * 1024 * 1024

# Shell commands that make the file out of the file in; WHAT is `write`, or `read` with a length.
WAYS = [
    ("a file to a file", '"$HEX" $WHAT in out'),
    ("a file to standard output", '"$HEX" $WHAT in >out'),
    ("a file to -", '"$HEX" $WHAT in - >out'),
    ("standard input to standard output", '"$HEX" $WHAT <in >out'),
    ("- to -", '"$HEX" $WHAT - - <in >out'),
    ("- to a file", '"$HEX" $WHAT - out <in'),
    ("a pipe to a pipe", 'cat in | "$HEX" $WHAT | cat >out'),
    ("pipes as files", 'cat in | "$HEX" $WHAT /dev/stdin /dev/stdout | cat >out'),
    ("from another folder", 'here=$PWD && cd / && "$HEX" $WHAT "$here/in" "$here/out"'),
    ("names with spaces", 'cp in " an in" && "$HEX" $WHAT " an in" "an  out" && mv "an  out" out'),
    ("names with a dash", 'cp in ./-in && "$HEX" $WHAT ./-in ./-out && mv ./-out out'),
    ("a file whose name is -", 'cp in ./- && "$HEX" $WHAT ./- out'),
    ("onto a longer file", 'head -c 200000 /dev/zero >out && "$HEX" $WHAT in out'),
    ("onto its own input", 'cp in out && "$HEX" $WHAT out out'),
    ("a symlink to the script", '"./a link" $WHAT in out'),
    ("a relative symlink, from another folder", 'here=$PWD && cd / && "$here/relative" $WHAT "$here/in" "$here/out"'),
    ("by sh", 'sh "$HEX" $WHAT in out'),
    ("by the PATH", 'PATH=${HEX%/*}:$PATH && hex $WHAT in out'),
]


def record(kind, address, data=b""):
    """A record, without its line's end."""
    head = bytes([len(data), address // 256, address % 256, kind])
    return f":{(head + data).hex()}{-sum(head + data) % 256:02x}".upper()


END = record(1, 0)


def records(raw, each=16):
    """The data records of an image, so many bytes in each."""
    return [record(0, at, raw[at : at + each]) for at in range(0, len(raw), each)]


def text(lines, end="\n"):
    return "".join(line + end for line in lines).encode()


def written(raw):
    """What ./hex is to write of an image."""
    return text([*records(raw), END])


def refusal(number, line=0, length=None):
    """What is said of a refusal; ./hex says of data beyond the memory how long that is."""
    meanings = {
        1: "an image has 16 to 65,536 bytes, a multiple of 4",
        41: f"line {line} is not a sound record of type 00, 01 or 04",
        42: f"line {line} has data beyond the memory" + (f" of {length} bytes" if length else ""),
        43: f"no end record, the text ends after line {line}",
    }
    return f"refused with {number}: {meanings[number]}\n"


UPPER_0, UPPER_1 = record(4, 0, b"\0\0"), record(4, 0, b"\0\1")
ZEROS = record(0, 0, bytes(4))

# Texts other than those that ./hex writes: the length asked for, the text, and the memory.
TEXTS = [
    ("lower case", 16, written(COUNTDOWN).lower(), COUNTDOWN),
    ("CR LF", 16, text([*records(COUNTDOWN), END], "\r\n"), COUNTDOWN),
    ("LF and CR LF", 16, text(records(COUNTDOWN, 8), "\r\n") + text([END]), COUNTDOWN),
    ("a last line that does not end", 16, written(COUNTDOWN)[:-1], COUNTDOWN),
    ("a byte in each record", 16, text([*records(COUNTDOWN, 1), END]), COUNTDOWN),
    ("255 bytes in each record", 1020, text([*records(bytes(range(255)) * 4, 255), END]), bytes(range(255)) * 4),
    ("records out of order", 16, text([*reversed(records(COUNTDOWN, 4)), END]), COUNTDOWN),
    ("a type 04 line first", 16, text([UPPER_0, *records(COUNTDOWN), END]), COUNTDOWN),
    ("a type 04 line back to 0", 16, text([UPPER_1, UPPER_0, *records(COUNTDOWN), END]), COUNTDOWN),
    ("a type 04 line behind the data", 16, text([*records(COUNTDOWN), UPPER_1, END]), COUNTDOWN),
    ("no data beyond the memory", 16, text([*records(COUNTDOWN), UPPER_1, record(0, 0), END]), COUNTDOWN),
    ("text behind the end record", 16, written(COUNTDOWN) + b"\n:\0\xff rubbish\n", COUNTDOWN),
    ("data behind the end record", 16, text([*records(COUNTDOWN), END, ZEROS, END]), COUNTDOWN),
    ("a byte that is named twice", 16, text([ZEROS, *records(COUNTDOWN), record(0, 3, b"\7"), END]), COUNTDOWN[:3] + b"\7" + COUNTDOWN[4:]),
    ("bytes that are not named", 20, text([record(0, 5, b"\1\2"), record(0, 19, b"\3"), END]), b"\0\0\0\0\0\1\2" + bytes(12) + b"\3"),
    ("no data", 16, text([END]), bytes(16)),
    ("the longest memory's last byte", 65536, text([record(0, 65535, b"\1"), END]), bytes(65535) + b"\1"),
]

# Texts that are refused: options, the text, the number and the line.
REFUSED_TEXTS = [
    ("a bad sum", [], text([ZEROS, ZEROS, ZEROS[:-1] + "D", END]), 41, 3),
    ("an empty line", [], text([ZEROS, "", END]), 41, 2),
    ("an empty line with CR LF", [], text([ZEROS, ZEROS, "", END], "\r\n"), 41, 3),
    ("a type 02 line", [], text([ZEROS, record(2, 0, b"\x10\0"), END]), 41, 2),
    ("a type 03 line", [], text([ZEROS, record(3, 0, bytes(4)), END]), 41, 2),
    ("a type 05 line", [], text([ZEROS, ZEROS, record(5, 0, bytes(4)), END]), 41, 3),
    ("a space behind a record", [], text([ZEROS + " ", END]), 41, 1),
    ("a line without its colon", [], text([ZEROS, ZEROS[1:], END]), 41, 2),
    ("a letter that is no digit", [], text([ZEROS, ZEROS[:-2] + "FG", END]), 41, 2),
    ("half a byte", [], text([ZEROS, ZEROS[:-1], END]), 41, 2),
    ("fewer bytes than counted", [], text([ZEROS, ":0400000000FC", END]), 41, 2),
    ("more bytes than counted", [], text([ZEROS, ":040000000000000000FC", END]), 41, 2),
    ("lines that end in CR", [], text([ZEROS, END], "\r"), 41, 1),
    ("an end record with an address", [], text([ZEROS, record(1, 1)]), 41, 2),
    ("a type 04 line with a byte of data", [], text([ZEROS, record(4, 0, b"\0"), END]), 41, 2),
    ("a raw image", [], COUNTDOWN, 41, 1),
    ("data beyond 65,536 bytes by a type 04 line", [], text([ZEROS, UPPER_1, ZEROS, END]), 42, 3),
    ("data beyond 65,536 bytes by a record's length", [], text([ZEROS, record(0, 65535, bytes(2)), END]), 42, 2),
    ("data beyond the length asked for", ["--length", "1020"], written(SAMPLES[1].read_bytes()), 42, 64),
    ("data beyond the memory with a bad sum", ["--length", "16"], text([ZEROS, record(0, 16, b"\0")[:-1] + "E", END]), 41, 2),
    ("a text without an end record", [], text([ZEROS, ZEROS]), 43, 2),
    ("a text that breaks off before its end record", [], text([ZEROS, ZEROS, ZEROS])[:-1], 43, 3),
    ("an empty file", [], b"", 43, 0),
    ("an empty file by its length", ["--length", "18"], b"", 1, 0),
]

# name, words in a folder where raw, written and a folder are, what standard error's one line must have
MISTAKES = [
    ("neither read nor write", ["raw", "kept"], "raw is neither read nor write"),
    ("a command without a name", ["", "raw"], "command's name is empty"),
    ("--help with more", ["--help", "read"], "--help stands alone"),
    ("--version with more", ["--version", "read"], "--version stands alone"),
    ("an option before the command", ["--length", "16", "written"], "--length is neither"),
    ("an option that is none", ["read", "--size", "16", "written"], "no option --size"),
    ("an option that is none, with write", ["write", "-x", "raw"], "no option -x"),
    ("--length with write", ["write", "--length", "16", "raw"], "--length goes with read"),
    ("--length without a number", ["read", "--length"], "--length lacks its BYTES"),
    ("--length with an empty number", ["read", "--length", "", "written"], "wants a number"),
    ("--length with a file", ["read", "--length", "written"], "wants a number of bytes, not written"),
    ("--length with a sign", ["read", "--length", "-16", "written"], "wants a number of bytes, not -16"),
    ("--length with a unit", ["read", "--length", "64K", "written"], "wants a number of bytes, not 64K"),
    ("--length by 16s", ["read", "--length", "0x10", "written"], "wants a number of bytes, not 0x10"),
    ("three files to read", ["read", "written", "kept", "kept"], "two files at most, and 3"),
    ("three files to write", ["write", "-", "-", "-"], "two files at most, and 3"),
    ("an input without a name", ["read", "", "kept"], "name is empty"),
    ("an output without a name", ["write", "raw", ""], "name is empty"),
    ("no such file to read", ["read", "missing", "kept"], "cannot read missing: there is no such file"),
    ("no such file to write", ["write", "missing", "kept"], "cannot read missing: there is no such file"),
    ("a folder to read", ["read", "folder", "kept"], "cannot read folder: it is a folder"),
    ("a folder to write", ["write", "folder", "kept"], "cannot read folder: it is a folder"),
    ("a folder to read into", ["read", "written", "folder"], "cannot write folder: it is a folder"),
    ("a folder to write into", ["write", "raw", "folder"], "cannot write folder: it is a folder"),
    ("a folder that is not there to read into", ["read", "written", "missing/out"], "cannot write missing/out"),
    ("a folder that is not there to write into", ["write", "raw", "missing/out"], "cannot write missing/out"),
    ("reading into a full disk", ["read", "written", "/dev/full"], "cannot write /dev/full"),
    ("writing into a full disk", ["write", "raw", "/dev/full"], "cannot write /dev/full"),
]


def hexed(folder, words, **options):
    """Runs ./hex in the folder, and keeps the bytes that it writes to standard output."""
    with open(folder / "stdout", "wb") as out:
        ended = run([HEX, *words], cwd=folder, stdout=out, **options)
    return ended.returncode, (folder / "stdout").read_bytes(), ended.stderr


def check_made(checks, name, came, made):
    """What came of a run that is to make these bytes, and to say nothing."""
    status, out, said = came
    checks.check(name, came == (0, made, ""), f"status {status}, {len(out)} bytes, not {len(made)}\n{said}{out[:200]}")


def check_ways(checks, folder):
    """Every way to name the samples and what is made of them."""
    (folder / "a link").symlink_to(HEX)
    (folder / "relative").symlink_to(os.path.relpath(HEX, folder.resolve()))
    out = folder / "out"
    for sample in SAMPLES:
        raw = sample.read_bytes()
        for what, given, made in [("write", raw, written(raw)), (f"read --length {len(raw)}", written(raw), raw)]:
            (folder / "in").write_bytes(given)
            for name, command in WAYS:
                out.unlink(missing_ok=True)
                ended = run(["sh", "-c", command], cwd=folder, env={"HEX": str(HEX), "WHAT": what})
                came = (ended.returncode, out.read_bytes() if out.exists() else b"", ended.stdout + ended.stderr)
                check_made(checks, f"hex {what}: {sample.stem}, {name}", came, made)


def check_lengths(checks, folder):
    """The memory's length, wherever it is asked for."""
    check_made(checks, "hex read: without a length 65,536 bytes", hexed(folder, ["read", "written"]), COUNTDOWN.ljust(65536, b"\0"))
    for length in LENGTHS:
        check_made(checks, f"hex read: --length {length}", hexed(folder, ["read", "--length", length, "written"]), COUNTDOWN.ljust(length, b"\0"))
    check_made(checks, "hex read: --length last", hexed(folder, ["read", "written", "--length", "16"]), COUNTDOWN)
    check_made(checks, "hex read: --length between the files", hexed(folder, ["read", "written", "--length", "16", "-"]), COUNTDOWN)


def check_round_trips(checks, folder):
    """Images of many lengths, held to the text that python makes of them, and back."""
    generator = random.Random(1)
    images = [(f"{length} bytes", generator.randbytes(length)) for length in LENGTHS]
    for name, raw in [*images, ("zeros", bytes(1024)), ("bytes of ones", b"\xff" * 1024)]:
        (folder / "image").write_bytes(raw)
        came = hexed(folder, ["write", "image"])
        check_made(checks, f"hex write: {name}", came, written(raw))
        (folder / "text").write_bytes(came[1])
        check_made(checks, f"hex read: {name} back", hexed(folder, ["read", "--length", len(raw), "text"]), raw)


def check_texts(checks, folder):
    for name, length, given, memory in TEXTS:
        (folder / "text").write_bytes(given)
        check_made(checks, f"hex read: {name}", hexed(folder, ["read", "--length", length, "text"]), memory)


def check_objcopy(checks, folder):
    """The text of another program, and another reader of the text."""
    if not shutil.which("objcopy"):
        print("      no objcopy here: its texts are not tried")
        return
    for name, raw in [("countdown", COUNTDOWN), ("sender", SAMPLES[1].read_bytes()), ("65,536 bytes", random.Random(2).randbytes(65536))]:
        (folder / "image").write_bytes(raw)
        if checks.command(f"objcopy writes {name}", ["objcopy", "-I", "binary", "-O", "ihex", "image", "text"], cwd=folder):
            check_made(checks, f"hex read: {name} by objcopy", hexed(folder, ["read", "--length", len(raw), "text"]), raw)
        (folder / "text").write_bytes(hexed(folder, ["write", "image"])[1])
        if checks.command(f"objcopy reads {name}", ["objcopy", "-I", "ihex", "-O", "binary", "text", "back"], cwd=folder):
            checks.check(f"objcopy reads {name} as it is", (folder / "back").read_bytes() == raw)
    # A start that is not 0 is a record of type 03 or 05, right behind the one of the image.
    (folder / "image").write_bytes(COUNTDOWN)
    read, refused = (0, COUNTDOWN, ""), (1, b"", f"hex: text: {refusal(41, 2)}")
    for start, came in [("0", read), ("0x100", refused), ("0x200000", refused)]:
        if checks.command(f"objcopy writes a start of {start}", ["objcopy", "-I", "binary", "-O", "ihex", "--set-start", start, "image", "text"], cwd=folder):
            ended = hexed(folder, ["read", "--length", "16", "text"])
            checks.check(f"hex read: objcopy's start of {start} is {'read' if came == read else 'refused'}", ended == came, str(ended))


def check_refused(checks, folder, name, words, status, told):
    """A run that gives no output: to standard output, onto a file that is there and stays as it was, and to one that is not."""
    kept, absent = folder / "kept", folder / "absent"
    kept.write_bytes(b"kept")
    before = kept.stat()
    came = [hexed(folder, [*words, *output]) for output in ([], ["kept"], ["absent"])]
    told = f"{words[-1]}: {told}"
    after = kept.stat()
    stays = kept.read_bytes() == b"kept" and (before.st_ino, before.st_mtime_ns) == (after.st_ino, after.st_mtime_ns) and not absent.exists()
    detail = "\n".join(f"status {status}, {len(out)} bytes, {said}" for status, out, said in came)
    checks.check(f"hex {words[0]}: {name}", came == [(status, b"", f"hex: {told}")] * 3 and stays, detail + f"files as before: {stays}")


def check_refusals(checks, folder):
    for name, options, given, number, line in REFUSED_TEXTS:
        (folder / "text").write_bytes(given)
        check_refused(checks, folder, f"{name} is refused with {number}", ["read", *options, "text"], 1, refusal(number, line, options[1] if options else 65536))
    for length in ("18", "0", "12", "65537", "65540", "4294967312", "99999999999", "9" * 100):
        check_refused(checks, folder, f"--length {length[:12]} is refused with 1", ["read", "--length", length, "written"], 1, refusal(1))
    for length in (0, 4, 12, 15, 17, 18, 65534, 65537, 65540, 200000):
        (folder / "image").write_bytes(bytes(length))
        check_refused(checks, folder, f"{length} bytes are refused with 1", ["write", "image"], 1, refusal(1))


def check_endless(checks, folder):
    """An input without an end, and the longest text that is read."""
    too_long = "a text of more than 67,108,864 bytes is not read\n"
    check_refused(checks, folder, "an endless file", ["read", "/dev/zero"], 2, too_long)
    check_refused(checks, folder, "an endless file", ["write", "/dev/zero"], 1, refusal(1))
    for what, came in [("read", (2, b"", f"hex: {too_long}")), ("write", (1, b"", f"hex: {refusal(1)}"))]:
        with open("/dev/zero") as stdin:
            ended = hexed(folder, [what], stdin=stdin)
        checks.check(f"hex {what}: an endless standard input", ended == came, str(ended)[:1000])
    (folder / "long").write_bytes(text([*records(COUNTDOWN), END]))
    os.truncate(folder / "long", MOST_TEXT)
    check_made(checks, f"hex read: a text of {MOST_TEXT} bytes", hexed(folder, ["read", "--length", "16", "long"]), COUNTDOWN)
    os.truncate(folder / "long", MOST_TEXT + 1)
    check_refused(checks, folder, "a text of a byte more", ["read", "long"], 2, too_long)


def check_mistakes(checks, folder):
    kept = folder / "kept"
    kept.write_bytes(b"kept")
    for name, words, told in MISTAKES:
        status, out, said = hexed(folder, words)
        one = said.startswith("hex: ") and said.count("\n") == 1 and told in said
        checks.check(f"hex: {name} says what is wrong", (status, out, one) == (2, b"", True) and kept.read_bytes() == b"kept", f"{status}\n{said}{out[:200]}")
    status, out, said = hexed(folder, [])
    checks.check("hex: no command is the usage", (status, out) == (2, b"") and said.startswith("usage: ./hex"), f"{status}\n{said}{out[:200]}")
    for what in ("read", "write"):
        stdin = os.open(folder, os.O_RDONLY)
        status, out, said = hexed(folder, [what], stdin=stdin)
        os.close(stdin)
        one = said.count("\n") == 1 and "input could not be read" in said
        checks.check(f"hex {what}: < a folder", (status, out, one) == (2, b"", True), f"{status}\n{said}{out[:200]}")
        ended = run(["sh", "-c", '"$0" "$@" <&-', HEX, what])
        one = ended.stderr.count("\n") == 1 and "input could not be read" in ended.stderr
        checks.check(f"hex {what}: no standard input at all", (ended.returncode, ended.stdout, one) == (2, "", True), ended.stderr)
    closed = folder / "closed"
    closed.write_bytes(COUNTDOWN)
    closed.chmod(0)
    if not os.access(closed, os.R_OK):
        for words, told in [(["read", "closed"], "cannot read closed: permission"), (["write", "raw", "closed"], "cannot write closed")]:
            status, out, said = hexed(folder, words)
            checks.check(f"hex {words[0]}: a file that may not be used", (status, out) == (2, b"") and told in said, said)


def check_outputs(checks, folder):
    """Output that cannot be written is status 2, with a line that says so."""
    for words in (["read", folder / "written"], ["write", folder / "raw"], ["--help"], ["--version"]):
        told = "hex: the output could not be written\n"
        with open("/dev/full", "w") as full:
            ended = run([HEX, *words], stdout=full)
        checks.check(f"hex {words[0]}: on a full disk", (ended.returncode, ended.stderr) == (2, told), ended.stderr)
        reader, writer = os.pipe()
        os.close(reader)
        ended = run([HEX, *words], stdout=writer)
        os.close(writer)
        checks.check(f"hex {words[0]}: into a closed pipe", (ended.returncode, ended.stderr) == (2, told), ended.stderr)
        ended = run(["sh", "-c", '"$0" "$@" >&-', HEX, *words])
        checks.check(f"hex {words[0]}: with no output at all", (ended.returncode, ended.stderr) == (2, told), ended.stderr)


def stopped(words, by, temporary, **options):
    """Runs a command that waits for its input, sends a signal to it and to what it runs, and gives its status, its output and what it leaves."""
    # A shell cannot trap a signal that was ignored before it began, as this one is behind `&`.
    heeded = {"start_new_session": True, "preexec_fn": lambda: signal.signal(by, signal.SIG_DFL)}
    env = {**os.environ, "TMPDIR": str(temporary)}
    with subprocess.Popen(words, env=env, stdout=subprocess.PIPE, stderr=subprocess.STDOUT, **heeded, **options) as process:
        ends = time.monotonic() + 10
        # It has two temporary files where it waits.
        while process.poll() is None and len(os.listdir(temporary)) < 2 and time.monotonic() < ends:
            time.sleep(0.01)
        if process.poll() is None:
            os.killpg(process.pid, by)
        out = process.communicate()[0]
    return process.returncode, out, os.listdir(temporary)


SIGNALS = [("Ctrl-C", signal.SIGINT, 130), ("SIGTERM", signal.SIGTERM, 143)]


def check_temporary(checks, folder):
    """However a run ends, it leaves no temporary file."""
    temporary = folder / "temporary"
    temporary.mkdir()
    done, refused, failed = [["read", "written"], ["write", "raw"]], [["read", "raw"], ["write", "empty"]], [["read", "written", "/dev/full"], ["read", "/dev/zero"]]
    for status, uses in enumerate([done, refused, failed]):
        for words in uses:
            came = hexed(folder, words, env={"TMPDIR": str(temporary)})
            left = os.listdir(temporary)
            checks.check(f"hex {' '.join(words)}: no temporary file is left", came[0] == status and not left, f"{came[0]}\n{came[2]}{left}")
    kept = folder / "kept"
    for what in ("read", "write"):
        for name, by, status in SIGNALS:
            kept.write_bytes(b"kept")
            reader, writer = os.pipe()
            came = stopped([HEX, what, "-", kept], by, temporary, stdin=reader)
            os.close(reader)
            os.close(writer)
            checks.check(f"hex {what}: {name} leaves no temporary file, and the output as it was", came == (status, b"", []) and kept.read_bytes() == b"kept", str(came))


def check(checks, folder):
    checks.part("./hex")
    for option, begins in [("--help", "usage: ./hex"), ("-h", "usage: ./hex"), ("--version", (TOP / "VERSION").read_text())]:
        ended = run([HEX, option])
        checks.check(f"hex: {option}", ended.returncode == 0 and ended.stdout.startswith(begins) and not ended.stderr, ended.stdout + ended.stderr)
    (folder / "raw").write_bytes(COUNTDOWN)
    (folder / "written").write_bytes(written(COUNTDOWN))
    (folder / "folder").mkdir()
    (folder / "empty").touch()
    check_ways(checks, folder)
    check_lengths(checks, folder)
    check_round_trips(checks, folder)
    check_texts(checks, folder)
    check_objcopy(checks, folder)
    check_refusals(checks, folder)
    check_endless(checks, folder)
    check_mistakes(checks, folder)
    check_outputs(checks, folder)
    check_temporary(checks, folder)
