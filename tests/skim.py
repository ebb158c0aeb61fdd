#!/usr/bin/env python3
"""The skim tool as its users meet it: skim.py COMMAND EXAMPLE MAKE_REEL.

COMMAND is tools/skim.sh, EXAMPLE is examples/skim.c compiled, MAKE_REEL is tools/make_reel.py. Each test runs the command and holds the
bytes, the messages, the last line and the status to what the usage says.
"""
import os
import pty
import re
import subprocess
import sys
import tempfile
from pathlib import Path

COMMAND, EXAMPLE, MAKE_REEL = sys.argv[1:4]
# The last line of reel one and of reel two, stepping over and as the original does.
UNSTALLED = "stalls=0 stalled_at=none flush_stalled_at=none refusal=0"
ONE = f"skim: frames_in=40000 frames_out=1246 {UNSTALLED} skipped=39630 inserted=0 passed=0 passed_frames=0 status=0"
TWO = f"skim: frames_in=40000 frames_out=1170 {UNSTALLED} skipped=39661 inserted=0 passed=99 passed_frames=3366 status=0"
ONE_CUT = "stalls=0 stalled_at=none flush_stalled_at=39816 refusal=0 skipped=39184 inserted=0 passed=0 passed_frames=0 status=0"
TWO_CUT = "stalls=14004 stalled_at=25732 flush_stalled_at=none refusal=0 skipped=25322 inserted=0 passed=0 passed_frames=0 status=1"
# Those with the longest of several best periods.
ONE_LONGEST = f"skim: frames_in=40000 frames_out=1258 {UNSTALLED} skipped=39616 inserted=0 passed=0 passed_frames=0 status=0"
TWO_LONGEST = f"skim: frames_in=40000 frames_out=1182 {UNSTALLED} skipped=39767 inserted=0 passed=99 passed_frames=3366 status=0"
SILENT_LONGEST = f"skim: frames_in=8000 frames_out=372 {UNSTALLED} skipped=8118 inserted=0 passed=0 passed_frames=0 status=0"
HEAD = "first_frame\tframes\tstart_seconds\tlength_seconds"


def reel(*parts):
    return subprocess.run([sys.executable, MAKE_REEL, *parts], capture_output=True, check=True).stdout


def skim(data, *words):
    """The bytes, the lines of standard error, and the status."""
    done = subprocess.run([COMMAND, *words], input=data, capture_output=True)
    return done.stdout, done.stderr.decode().splitlines(), done.returncode


def skim_with_map(data, *words):
    """The lines of standard error, the status, and the map's lines as first frame and frames."""
    with tempfile.TemporaryDirectory() as folder:
        path = Path(folder, "map")
        _, told, status = skim(data, "--map", path, *words)
        head, *lines = path.read_text().splitlines()
    assert head == HEAD, head
    rows = [line.split("\t") for line in lines]
    for first, frames, start, length in rows:
        for count, seconds in ((first, start), (frames, length)):
            assert seconds == f"{int(count) // 8000}.{int(count) % 8000 * 1000 // 8000:03}", rows
    return told, status, [(int(first), int(frames)) for first, frames, _, _ in rows]


def test_reels():
    one, told, status = skim(reel("62:40000"))
    assert (told[-1], status, len(one)) == (ONE, 0, 2 * 1246), told
    assert told[:-1] == ["skim: the flush of the last 184 frames (0.023 s) gave 6 frames; pitch periods that it passed over, those of "
                         "its own silence included: 13"], told
    two, told, status = skim(reel("62:24000", "34:16000"))
    assert (told[-1], status, len(two)) == (TWO, 0, 2 * 1170), told
    assert told[0] == "skim: pitch periods passed over, since they give no frame at this speed: 99", told
    assert told[1] == ("skim: nothing came out of 3366 frames (0.420 s) of the reel; longest stretch: 170 frames (0.021 s) from frame "
                       "30492 (3.811 s) on"), told
    assert told[2].startswith("skim: the flush of the last 212 frames (0.026 s) gave 6 frames; "), told
    # The first three seconds are the same, and so is what is made of them.
    assert one[:1400] == two[:1400]


def test_as_original():
    one, told, status = skim(reel("62:40000"), "--as-original")
    assert told[-1] == f"skim: frames_in=40000 frames_out=1246 {ONE_CUT}" and (status, len(one)) == (0, 2 * 1246), told
    two, told, status = skim(reel("62:24000", "34:16000"), "--as-original")
    assert told[-1] == f"skim: frames_in=40000 frames_out=796 {TWO_CUT}" and (status, len(two)) == (1, 2 * 796), told
    assert told[:3] == ["skim: writes that stalled: 14004, the first at frame 25732 (3.216 s)",
                        "skim: stalled at frame 25732 (3.216 s): the pitch period there gives no frame, and no later write left the stall",
                        "skim: the flush stalled too: of the last 14268 frames not all came out"], told
    # What comes before the stall is the same.
    assert skim(reel("62:24000", "34:16000"))[0].startswith(two)


def test_longest_period():
    """Of several periods that fit equally well the longest: silence then has 123 frames in place of 20, and each period of it gives 3."""
    for data, last in ((reel("62:40000"), ONE_LONGEST), (reel("62:24000", "34:16000"), TWO_LONGEST), (reel("0:8000"), SILENT_LONGEST)):
        out, told, status = skim(data, "--longest-period")
        assert (told[-1], status, f" frames_out={len(out) // 2} " in told[-1]) == (last, 0, True), told
        assert skim(data, "--longest-period", *"8000 1 20 0.5".split()) == (out, told, status)
    # Silence gives no line of the map, and does not stall either.
    assert skim_with_map(reel("0:8000"), "--longest-period")[2] == []
    for order in (("--as-original", "--longest-period"), ("--longest-period", "--as-original")):
        out, told, status = skim(reel("0:8000"), *order)
        assert (out, told[-1], status) == (bytes(2 * 372), SILENT_LONGEST, 0), told
        out, told, status = skim(reel("62:24000", "34:16000"), *order)
        assert told[-1] == f"skim: frames_in=40000 frames_out=796 {TWO_CUT}" and status == 1, told
    # An exact repeat of 20 frames has the periods 20, 40 to 120: the shortest gives no frame, the longest gives 3.
    repeats = samples(400 * (i % 20) for i in range(8000))
    assert skim(repeats, "--as-original")[2] == 1
    assert skim(repeats, "--as-original", "--longest-period")[2] == 0


def samples(values):
    return b"".join(v.to_bytes(2, "little", signed=True) for v in values)


def test_stalls_left():
    """With --as-original a later write may leave a stall: s of a call is rounded, and where the period is s - 1 its last bit decides."""
    # Silence, whose period is 20 frames, at s = 21; and a saw of period 50 at s = 51.
    saw = samples(400 * (i % 50) - 10000 for i in range(40000))
    for data, words, counts in ((bytes(80000), "8000 1 10.5 0.5", "frames_out=3810 stalls=2 stalled_at=12033 flush_stalled_at=none"),
                                (saw, "8000 1 17.85 0.35", "frames_out=2212 stalls=1 stalled_at=0 flush_stalled_at=39780")):
        out, told, status = skim(data, "--as-original", *words.split())
        assert f"frames_in=40000 {counts} refusal=0 " in told[-1] and status == 0, told
        assert len(out) == 2 * int(re.search(r"frames_out=(\d+)", told[-1]).group(1)) > 0, told
        assert told[0].startswith("skim: writes that stalled: ") and told[0].endswith("; a later write or the flush left the stall"), told
        # Nothing is passed over; without the option nothing stalls.
        assert "stalls=0 " in skim(data, *words.split())[1][-1]


def test_stopped():
    """A stall that fills the input: the run stops where a flush would have no room behind another frame, and the rest is only counted."""
    told, status, lines = skim_with_map(bytes(64 * 8000), "--as-original", *"8000 32 20 0.5".split())
    assert re.search(r"frames_in=8000 frames_out=0 stalls=\d+ stalled_at=0 flush_stalled_at=none refusal=0 ", told[-1]) and status == 1, told
    assert told[2] == "skim: not skimmed: the 8000 frames from there on, and 0 stretched frames before them, in the tail", told
    assert lines == [(0, 8000)], lines
    # The input holds 6,144 frames of 32 channels, and the flush adds 492 to those held. Writes at 256, where a block ends, at 265 and from
    # there on stall.
    assert f" stalls={6144 - 492 - 265 + 2} " in told[-1], told


def test_version():
    assert skim(b"", "--longest-period", "--version") == skim(b"", "--version")
    assert skim(b"", "--version") == skim(b"", "--as-original", "--version") == (b"skim (kelpladder) 0.4.0\n", [], 0)


def test_map():
    told, status, lines = skim_with_map(reel("62:24000", "34:16000"))
    assert (told[-1], status, lines[0], len(lines)) == (TWO, 0, (25732, 34), 51), (told, lines)
    assert sum(frames for _, frames in lines) == 3366 and max(frames for _, frames in lines) == 170 and (30492, 170) in lines, lines
    assert all(first + frames < then for (first, frames), (then, _) in zip(lines, lines[1:])), lines
    # A voice that gives frames has no line. Silence gives none at this speed, and its last frames, which the flush takes, are noted too.
    assert skim_with_map(reel("62:40000"))[2] == []
    told, status, lines = skim_with_map(reel("0:8000"))
    assert (lines, status) == ([(0, 8000)], 0) and " passed=388 passed_frames=8000 status=0" in told[-1], (told, lines)
    told, _, lines = skim_with_map(reel("62:24000", "0:8000", "62:24000"))
    assert f" passed_frames={sum(frames for _, frames in lines)} " in told[-1] and 24000 < lines[0][0] < 24200, (told, lines)
    # A flush that gives no frame clears what waited in the tail.
    told, _, lines = skim_with_map(reel("62:24000", "0:8000"))
    assert told[-2] == "skim: since the flush gave no frame, stretched frames before it are not in the track either: 12", told
    assert sum(lines[-1]) == 32000, lines
    # Nothing is passed over where every period gives a frame; nor is there a map of a reel without frames.
    assert skim_with_map(reel("62:24000", "34:16000", "0:8000"), "8000", "1", "2", "1")[2] == []
    assert skim_with_map(b"")[2] == []


def test_map_as_original():
    data = reel("62:24000", "34:16000")
    told, status, lines = skim_with_map(data, "--as-original")
    assert (lines, status) == ([(25732, 14268)], 1) and " passed=0 passed_frames=0 " in told[-1], (told, lines)
    with tempfile.TemporaryDirectory() as folder:
        path = Path(folder, "map")
        first = skim(data, "--map", path, "--as-original", "8000", "1", "20", "0.5"), path.read_text()
        other = skim(data, "--as-original", "--map", path, "8000", "1", "20", "0.5"), path.read_text()
    assert first == other and other[1].splitlines() == [HEAD, "25732\t14268\t3.216\t1.783"], (first[0][1], other[0][1])


def test_map_not_taken():
    data = reel("62:24000", "34:16000")
    out, told, status = skim(data, "--map", "/nowhere/map")
    assert (out, status, told[0], told[-1]) == (b"", 2, "skim: --map: No such file or directory", "skim: status=2"), told
    out, told, status = skim(data, "--map", "m" * 5000)
    assert (out, status, told[0]) == (b"", 2, "skim: --map: File name too long"), told
    # A map that cannot be written is a write that failed, before anything was read.
    out, told, status = skim(data, "--map", "/dev/full")
    assert (out, status, told[0]) == (b"", 1, "skim: the map: No space left on device") and "frames_in=0 " in told[-1], told
    # A closed descriptor does not become the map's.
    for closed in ("--raw 0<&-", "2>&-"):
        with tempfile.TemporaryDirectory() as folder:
            path = Path(folder, "map")
            done = subprocess.run(["sh", "-c", f'"$0" --map "$1" {closed}', COMMAND, path], input=data, capture_output=True)
            assert (done.returncode, path.read_text()) == (2, ""), (closed, done)
    # An input that cannot be read is told before the map is opened.
    with tempfile.TemporaryDirectory() as folder:
        path = Path(folder, "map")
        done = subprocess.run(["sh", "-c", '"$0" --map "$1" 0<&-', COMMAND, path], input=data, capture_output=True)
        assert done.stderr == b"skim: standard input: Bad file descriptor\nskim: status=1\n" and done.returncode == 1, done
        assert not path.exists(), done


def test_balance():
    data = reel("62:20000", "34:20000")
    silence = 4 * (8000 // 65)
    for words, pitch in (("2 1", 1), ("1.3 1", 1), ("0.5 1", 1), ("0.9 1", 1), ("1 0.5", 0.5), ("2 1.5", 1.5)):
        _, told, status = skim(data, "8000", "1", *words.split())
        frames_in, frames_out, skipped, inserted = map(int, re.findall(r"(?:frames_in|frames_out|skipped|inserted)=(\d+)", told[-1]))
        assert status == 0 and (skipped > 0) != (inserted > 0), told
        # What a flush does with its silence is all that lies between.
        assert abs(frames_in - skipped + inserted - frames_out * pitch) <= silence, told
    # A flush that stalls counts nothing; then only the conversion's last twelve frames lie between.
    _, told, _ = skim(reel("62:40000"), "--as-original")
    assert "flush_stalled_at=39816 refusal=0 skipped=39184 " in told[-1] and 0 <= 2 * (39816 - 39184) - 1246 <= 24, told


def test_example_in_c():
    for parts in (("62:40000",), ("62:24000", "34:16000")):
        data = reel(*parts)
        track, told, status = skim(data)
        done = subprocess.run([EXAMPLE], input=data, capture_output=True)
        assert (done.stdout, done.returncode) == (track, status), done.stderr
        passed = re.search(r" passed=(\d+) ", told[-1]).group(1)
        assert done.stderr.decode() == f"{passed} pitch periods passed over, the flush apart\n", (told, done.stderr)


def test_default_job():
    data = reel("62:40000")
    assert skim(data) == skim(data, "8000", "1", "20", "0.5") == skim(data, "8000", "1", "20.0", "0.5", "1")
    assert skim(data)[0] != skim(data, "8000", "1", "20", "0.5", "2")[0]


def test_copy():
    data = reel("62:5000")
    assert skim(data, "8000", "1", "1", "1")[0] == data
    assert skim(data, "44100", "2", "1", "1")[0] == data
    # Every sample comes back, but for −32768, which a write holds to −32767.
    every = [v.to_bytes(2, "little", signed=True) for v in range(-32768, 32768)]
    assert skim(b"".join(every), "8000", "1", "1", "1")[0] == b"".join([every[1]] + every[1:])
    assert skim(b"")[0] == b"" and skim(b"")[2] == 0


def test_partial_frame():
    data = reel("62:5000")
    whole = skim(data, "8000", "2", "2", "1")
    for extra in (b"\1", b"\1\2", b"\1\2\3"):
        out, told, status = skim(data + extra, "8000", "2", "2", "1")
        assert (out, status) == (whole[0], 1), (told, status)
        assert told[0] == f"skim: left out, being no whole frame: the last bytes, {len(extra)}", told


def test_bad_usage():
    wrong = {
        "RATE": ("999 1 1 1", "500001 1 1 1", "8000.0 1 1 1", "99999999999999999999 1 1 1"),
        "CHANNELS": ("8000 0 1 1", "8000 33 1 1", "8000 -1 1 1"),
        "SPEED": ("8000 1 1", "8000 1 0.04 1", "8000 1 20.01 1", "8000 1 nan 1", "8000 1 .5 1", "8000 1 1. 1", "8000 1 1e1 1"),
        "PITCH": ("8000 1 1 0", "8000 1 1 21", "8000 1 1 1,5"),
        "VOLUME": ("8000 1 1 1 0", "8000 1 1 1 100.1"),
        "numbers behind the options": ("8000", "8000 1 1 1 1 1", "--map /dev/null 8000"),
        "with names give": ("-h", "8000x", "--raw x y", "x y 8000 1 1 1"),
        "no room": ("500000 32 0.05 1", "--map /dev/null 500000 32 0.05 1"),
        "before the numbers may stand": ("--as-original --as-original", "--map /dev/null --map /dev/null", "--other", "--help --as-original", "--version 8000",
                                         "--as-original --status", "8000 1 1 1 --as-original", "8000 1 1 1 --map /dev/null",
                                         "8000 1 1 1 1 --map /dev/null",
                                         "--as-original --map /dev/null --as-original 8000 1 1 1", "--longest-period --longest-period",
                                         "--longest-period --as-original --longest-period 8000 1 1 1", "8000 1 1 1 --longest-period",
                                         "--longest", "--longest-periods", "--longest-period=1", "--help --longest-period",
                                         "--longest-period --status"),
        "--map has to be followed": ("--map", "--as-original --map", "--map --as-original", "--map --help", "--map --longest-period",
                                     "--longest-period --map"),
    }
    for name, lines in wrong.items():
        for line in lines:
            out, told, status = skim(reel("62:100"), *line.split())
            assert (out, status, told[-1]) == (b"", 2, "skim: status=2") and name in told[0], (line, told)


def test_help():
    out, told, status = skim(b"", "--help")
    assert out.startswith(b"usage: skim ") and (told, status) == ([], 0), (out, told)
    assert all(len(line) <= 110 for line in out.splitlines()), out
    assert skim(b"", "--as-original", "--help") == skim(b"", "--longest-period", "--help") == (out, [], 0)
    assert b"--longest-period" in out, out


def test_failed_read():
    with tempfile.TemporaryDirectory() as folder:
        failed = subprocess.run(["sh", "-c", '"$0" < "$1"', COMMAND, folder], capture_output=True)
    assert failed.returncode == 1 and failed.stderr.startswith(b"skim: standard input: Is a directory\n"), failed.stderr


def test_closed_output():
    data = reel("62:40000")
    closed = subprocess.run(["sh", "-c", '"$0" >&-', COMMAND], input=data, capture_output=True)
    assert closed.returncode == 1 and b"standard output" in closed.stderr, closed.stderr
    read, write = os.pipe()
    os.close(read)
    gone = subprocess.run([COMMAND], input=data, stdout=write, stderr=subprocess.PIPE)
    assert gone.returncode == 1 and b"standard output: Broken pipe" in gone.stderr, gone.stderr
    with open("/dev/full", "wb") as full:
        none_left = subprocess.run([COMMAND], input=data, stdout=full, stderr=subprocess.PIPE)
    assert none_left.returncode == 1 and b"No space left" in none_left.stderr, none_left.stderr


def test_terminal():
    shown, terminal = pty.openpty()
    done = subprocess.run([COMMAND], input=reel("62:1000000"), stdout=subprocess.DEVNULL, stderr=terminal)
    os.close(terminal)
    text = os.read(shown, 65536).decode()
    assert done.returncode == 0 and re.search(r"\rskim: 2 min done, \d+ times real time\r\n", text), text


def main():
    tests = [(name, test) for name, test in globals().items() if name.startswith("test_")]
    for _, test in tests:
        test()
    print(f"skim: {len(tests)} tests of the tool passed")


main()
