#!/usr/bin/env python3
"""The skim tool with WAVE files, as its users meet it: skim_wave.py COMMAND MAKE_REEL.

COMMAND is tools/skim.sh, MAKE_REEL is tools/make_reel.py. Most tests run the tool on a WAVE file and on the raw PCM of the same samples, and
compare the tracks and what is told. Where sox and ffmpeg are at hand, they make and read files too.
"""
import os
import re
import resource
import shutil
import struct
import subprocess
import sys
import tempfile
import time
import wave
from pathlib import Path

COMMAND, MAKE_REEL = (str(Path(word).resolve()) for word in sys.argv[1:3])
STORED = Path(__file__).resolve().parent / "wave"

# What the tool tells.
FIRST = r"skim: WAVE of 16 bits\D+{} frames a second, channels: {}\b.*"
REFUSED = {
    8: "skim: refused with number 8: the file does not begin with RIFF and WAVE",
    9: "skim: refused with number 9: a chunk of the WAVE file ends past the file",
    10: "skim: refused with number 10: the WAVE file has no samples that are read: 16-bit PCM, 1000 to 500000 Hz, 1 to 32 channels",
}
LAST_REFUSED = "skim: refusal={} status=1"
# Behind the sentence of a refusal: commands that convert, and what helps where a program wrote to a pipe.
TO_CONVERT = ("sox IN.wav ", "-t wavpcm", "ffmpeg -i IN.wav -c:a pcm_s16le")
FROM_A_PIPE = ("programs write to a pipe", "skim --raw RATE CHANNELS SPEED PITCH")
LEFT_OUT = "skim: left out, being no whole frame: the last bytes, {}"
BAD_USAGE = "skim: status=2"
# The sizes of a head that is written where it cannot be set at the end: those of data and behind RIFF.
PIPE_SIZES = (0x7ffff000, 0x7ffff024)
PROGRAM_SIZES = (0xffffffff, 0x7ffff000)


# ---- files

def chunk(name, body):
    return name + struct.pack("<I", len(body)) + body + bytes(len(body) % 2)


def sized(name, size, body):
    return name + struct.pack("<I", size) + body


def fields(rate, channels, tag=1, bits=16):
    return struct.pack("<HHIIHH", tag, channels, rate, 2 * rate * channels % 2**32, 2 * channels % 65536, bits)


def riff(*chunks):
    body = b"WAVE" + b"".join(chunks)
    return b"RIFF" + struct.pack("<I", len(body) % 2**32) + body


def head(rate, channels, data_size, riff_size):
    return b"RIFF" + struct.pack("<I", riff_size) + b"WAVE" + chunk(b"fmt ", fields(rate, channels)) + sized(b"data", data_size, b"")


def file_of(pcm, rate=8000, channels=1):
    """The file that write_wave gives, and so the tool."""
    return head(rate, channels, len(pcm), 36 + len(pcm)) + pcm


def piped_file_of(pcm, rate=8000, channels=1):
    """The same where the sizes cannot be set."""
    return head(rate, channels, *PIPE_SIZES) + pcm


def reel(*parts):
    return subprocess.run([sys.executable, MAKE_REEL, *parts], capture_output=True, check=True).stdout


ONE = reel("62:12000")
TWO = reel("62:6000", "34:6000")
# Channels and rates with the same samples.
KINDS = ((8000, 1), (44100, 2), (11025, 3))


# ---- runs

def told_of(done):
    return done.stderr.decode().splitlines()


def piped(data, *words):
    """From a pipe to a pipe: the bytes, the lines of standard error, and the status."""
    done = subprocess.run([COMMAND, *words], input=data, capture_output=True)
    return done.stdout, told_of(done), done.returncode


def redirected(data, *words, before=b"", mode="wb"):
    """From a file to a file that has some bytes before, by < and >, or >> with mode "ab": the same."""
    with tempfile.TemporaryDirectory() as folder:
        source, track = Path(folder, "in"), Path(folder, "out")
        source.write_bytes(data)
        track.write_bytes(before)
        with open(source, "rb") as given, open(track, mode) as taken:
            done = subprocess.run([COMMAND, *words], stdin=given, stdout=taken, stderr=subprocess.PIPE)
        return track.read_bytes(), told_of(done), done.returncode


def named(data, *numbers, options=(), before=None, names=("in.wav", "out.wav"), **process):
    """From a file to a file, by name: the same, None in place of the bytes if there is no file. Nothing else may be left."""
    with tempfile.TemporaryDirectory() as folder:
        source, track = (Path(folder, name) for name in names)
        source.write_bytes(data)
        if before is not None:
            track.write_bytes(before)
        done = subprocess.run([COMMAND, *options, *names, *numbers], cwd=folder, stdin=subprocess.DEVNULL, capture_output=True, **process)
        left = {path.name for path in Path(folder).iterdir()} - {Path(name).name for name in names}
        assert (done.stdout, left) == (b"", set()), (done.stdout[:100], left)
        assert source == track or source.read_bytes() == data
        return track.read_bytes() if track.exists() else None, told_of(done), done.returncode


def fed(data, piece, slow, *words):
    """From a pipe to which the first bytes are written piece by piece."""
    run = subprocess.Popen([COMMAND, *words], stdin=subprocess.PIPE, stdout=subprocess.PIPE, stderr=subprocess.PIPE, bufsize=0)
    try:
        for place in range(0, min(slow, len(data)), piece):
            run.stdin.write(data[place:place + piece][:slow - place])
            time.sleep(0.002)
        out, told = run.communicate(data[slow:])
    except BrokenPipeError:
        out, told = run.communicate()
    return out, told.decode().splitlines(), run.returncode


def refused(answer, number, out):
    """That a run was refused before anything was written; the lines between the sentence and the last one."""
    bytes_out, told, status = answer
    assert (bytes_out, status) == (out, 1), (number, told, status, bytes_out and bytes_out[:60])
    assert REFUSED[number] in told and told[-1] == LAST_REFUSED.format(number), (number, told)
    return told[told.index(REFUSED[number]) + 1:-1]


def refused_every_way(data, number):
    """By name, from a file and from a pipe; the lines between, which have to be the same."""
    lines = [refused(named(data), number, None), refused(redirected(data), number, b""), refused(piped(data), number, b"")]
    assert lines[0] == lines[1] == lines[2], lines
    return lines[0]


def tells(lines, parts):
    """Whether each part stands in one of the lines."""
    return all(any(part in line for line in lines) for part in parts)


def bad_usage(*words):
    """A run that is not begun; what is told."""
    out, told, status = piped(b"", *words)
    assert (out, status, told[-1]) == (b"", 2, BAD_USAGE) and len(told) > 1, (words, told, status)
    return told


# ---- the same track as of raw PCM

def jobs():
    """Options and numbers of a job, each with a reel that it does not refuse."""
    yield ONE, (), ()
    yield TWO, (), ()
    yield TWO, (), ("2", "1")
    yield ONE, (), ("0.7", "1.3", "0.5")
    yield TWO, ("--as-original",), ("20", "0.5")
    yield TWO, ("--longest-period",), ()
    yield TWO, ("--longest-period", "--as-original"), ("20.0", "0.5", "2")
    yield b"", (), ()


def test_same_track():
    for pcm, options, numbers in jobs():
        for rate, channels in KINDS:
            speed = numbers or ("20", "0.5")
            raw, told, status = piped(pcm, *options, str(rate), str(channels), *speed)
            data, wanted = file_of(pcm, rate, channels), named(file_of(pcm, rate, channels), *numbers, options=options)
            assert (wanted[0], wanted[1][1:], wanted[2]) == (file_of(raw, rate, channels), told, status), (options, numbers, wanted[1:])
            assert re.fullmatch(FIRST.format(rate, channels), wanted[1][0]), wanted[1]
            assert redirected(data, *options, *numbers) == wanted, (options, numbers)
            # RATE and CHANNELS are those of the file, whatever is given.
            assert redirected(data, *options, "16000", "2", *speed) == wanted, (options, numbers)
            out, piped_told, piped_status = piped(data, *options, *numbers)
            assert (out, piped_status) == (piped_file_of(raw, rate, channels), status), (options, numbers)
            # It is told besides that the sizes are not set.
            assert len(piped_told) > len(wanted[1]) and [line for line in piped_told if line in wanted[1]] == wanted[1], piped_told


def test_head_by_python():
    for rate, channels in ((1000, 1), (8000, 2), (500000, 3)):
        data = file_of(ONE, rate, channels)
        out, _, status = named(data, "1", "1")
        assert (status, len(out)) == (0, len(data))
        with tempfile.NamedTemporaryFile(suffix=".wav") as file:
            file.write(out)
            file.flush()
            with wave.open(file.name, "rb") as read:
                assert read.getparams()[:5] == (channels, 2, rate, len(ONE) // 2 // channels, "NONE"), read.getparams()
                assert read.readframes(read.getnframes()) == ONE


def test_every_sample():
    """At speed 1 each sample comes back, but −32768, which a write holds to −32767."""
    every = [struct.pack("<h", sample) for sample in range(-32768, 32768)]
    assert named(file_of(b"".join(every)), "1", "1")[0] == file_of(b"".join([every[1], *every[1:]]))


def test_map():
    with tempfile.TemporaryDirectory() as folder:
        maps = [Path(folder, name) for name in ("raw", "named", "piped")]
        piped(TWO, "--map", maps[0], "8000", "1", "20", "0.5")
        assert named(file_of(TWO), options=("--as-original", "--map", maps[1]))[2] == 1
        assert maps[1].read_text() != maps[0].read_text()
        assert named(file_of(TWO), options=("--map", maps[1], "--longest-period"), before=b"old")[2] == 0
        assert named(file_of(TWO), options=("--map", maps[1]))[2] == piped(file_of(TWO), "--map", maps[2])[2] == 0
        assert maps[0].read_text() == maps[1].read_text() == maps[2].read_text() and len(maps[0].read_text().splitlines()) > 1


# ---- what is read of a file

def test_other_chunks():
    right, data = chunk(b"fmt ", fields(8000, 1)), chunk(b"data", TWO)
    info = chunk(b"LIST", b"INFOISFT\4\0\0\0abc\0")
    wanted = named(file_of(TWO))
    files = {
        "LIST before": riff(info, right, data),
        "LIST between": riff(right, info, data),
        "LIST behind": riff(right, data, info),
        "odd chunks": riff(chunk(b"a   ", b"1"), right, chunk(b"b   ", b"123"), data, chunk(b"c   ", b"1")),
        "fmt of 18 bytes": riff(chunk(b"fmt ", fields(8000, 1) + b"\0\0"), data),
        "fmt of 17 bytes": riff(chunk(b"fmt ", fields(8000, 1) + b"\0"), data),
        "a short fmt before": riff(chunk(b"fmt ", fields(44100, 2)[:14]), right, data),
        "another fmt": riff(right, chunk(b"fmt ", fields(44100, 2, 3, 32)), data),
        "another data": riff(right, data, chunk(b"data", ONE)),
        "junk behind": riff(right, data) + b"1234567",
        "a cut chunk behind": riff(right, data, sized(b"LIST", 1000, b"abc")),
        "a wrong size behind RIFF": b"RIFF\1\0\0\0" + riff(right, data)[8:],
        "a long chunk": riff(chunk(b"JUNK", b"data" * 50000), right, data),
        "a long odd chunk": riff(right, chunk(b"JUNK", b"d" * 1000001), data),
        "many chunks": riff(*[chunk(b"JUNK", b"data"[:i % 5]) for i in range(3000)], right, data),
    }
    # Heads of chunks that stand across the end of a block of 4,096 bytes, and of other likely lengths.
    for block in (4096, 8192, 16384, 65536):
        files |= {f"{block} and {shift}": riff(right, chunk(b"JUNK", bytes(block - 44 + shift)), data) for shift in range(-10, 11, 3)}
    for words, data in files.items():
        assert named(data) == wanted, words
        assert redirected(data) == wanted, words
        assert piped(data) == piped(file_of(TWO)), words


def test_partial_frame():
    for extra in (b"\1", b"\1\2", b"\1\2\3"):
        for behind in (b"", chunk(b"LIST", b"abcd")):
            data = riff(chunk(b"fmt ", fields(8000, 2)), chunk(b"data", ONE + extra), behind)
            out, told, status = named(data, "2", "1")
            assert (out, status) == (named(file_of(ONE, 8000, 2), "2", "1")[0], 1), told
            assert LEFT_OUT.format(len(extra)) in told and told[-1].endswith(" status=1") and " refusal=0 " in told[-1], told
            assert redirected(data, "2", "1") == (out, told, 1)
            assert piped(data, "2", "1")[2] == 1


def test_empty_files():
    """No whole frame."""
    for data in (file_of(b""), riff(chunk(b"fmt ", fields(8000, 1)), sized(b"data", 0, b"behind"))):
        assert named(data)[::2] == redirected(data)[::2] == (file_of(b""), 0)
        assert piped(data)[::2] == (piped_file_of(b""), 0)


def test_stored_files():
    """Files of sox and ffmpeg."""
    lines = [line.split() for line in (STORED / "answers.txt").read_text().splitlines() if not line.startswith("#")]
    for name, number, rate, channels, *_ in lines:
        data = (STORED / name).read_bytes()
        answer = named(data, "1", "1")
        if number == "0":
            samples = data[data.index(b"data") + 8:][:18]
            wanted = file_of(samples.replace(b"\0\x80", b"\1\x80"), int(rate), int(channels))
            assert answer[::2] == (wanted, 0) and re.fullmatch(FIRST.format(rate, channels), answer[1][0]), (name, answer)
        else:
            refused(answer, int(number), None)


# ---- refusals

def test_not_wave():
    for data in (b"", b"R", b"RIFF", b"RIFF\0\0\0\0WAV", ONE, b"RIFX" + file_of(ONE)[4:], b"RF64" + file_of(ONE)[4:], b"riff" + file_of(ONE)[4:]):
        assert refused(named(data), 8, None) == []
    for data in (b"RIFF", b"RIFF\0\0\0\0WAV", b"RIFF\0\0\0\0AVI " + file_of(ONE)[12:], b"RIFF\0\0\0\0wave" + file_of(ONE)[12:]):
        assert refused_every_way(data, 8) == []


def test_bad_format():
    right, data = fields(8000, 1), chunk(b"data", ONE)
    for tag, bits in ((65534, 16), (3, 32), (3, 16), (1, 8), (1, 24), (1, 32), (7, 8), (0, 16), (2, 4)):
        lines = refused_every_way(riff(chunk(b"fmt ", fields(8000, 1, tag, bits)), data), 10)
        assert tells(lines, TO_CONVERT), (tag, bits, lines)
    for wrong in (fields(999, 1), fields(500001, 1), fields(8000, 0), fields(8000, 33), fields(0, 0), right[:15], b""):
        refused_every_way(riff(chunk(b"fmt ", wrong), data), 10)
    for file in (riff(), riff(data), riff(chunk(b"fmt ", right)), riff(data, chunk(b"fmt ", right)), riff(chunk(b"FMT ", right), data),
                 riff(chunk(b"fmt ", right), chunk(b"DATA", ONE)), riff(chunk(b"fmt ", right), chunk(b"LIST", b"abc"))):
        refused_every_way(file, 10)


def test_cut_before_data():
    right, data = chunk(b"fmt ", fields(8000, 1)), chunk(b"data", ONE)
    for file in (riff(right, b"dat"), riff(right, sized(b"LIST", 5, b"abcd")), riff(right, sized(b"LIST", 3, b"abc")), riff(right)[:-1],
                 riff(sized(b"LIST", 2**32 - 1, b""), right, data), riff(right, sized(b"LIST", 2**32 - 8, b""), data),
                 riff(right, sized(b"LIST", 2**31, b""), data), riff(sized(b"LIST", 2**32 - 8, b"")), riff(b"1234567")):
        assert not tells(refused_every_way(file, 9), FROM_A_PIPE[:1])


def test_cut_data():
    """Where the length is known, 9 comes before anything is written; from a pipe it comes at the end."""
    right = chunk(b"fmt ", fields(8000, 1))
    for size in (len(ONE) + 1, len(ONE) + 2, 2 * len(ONE), 2**30, *PROGRAM_SIZES):
        data = riff(right, sized(b"data", size, ONE))
        lines = refused(named(data), 9, None)
        assert refused(redirected(data), 9, b"") == lines
        out, told, status = piped(data)
        assert status == 1 and " refusal=9 " in told[-1] and told[-1].endswith(" status=1"), told
        assert out[:44] == piped_file_of(b"") and len(out) > 44 and piped(ONE)[0].startswith(out[44:]), told
        assert f"frames_in={len(ONE) // 2} " in told[-1], told
        if size in PROGRAM_SIZES:
            assert tells(lines, FROM_A_PIPE) and tells(lines, [str(size)]), lines
        else:
            assert not tells(lines, FROM_A_PIPE[:1]), lines


def test_begun_input():
    """Standard input of which something was read before: the file begins where it stands."""
    before = file_of(TWO)[:1001]
    with tempfile.TemporaryDirectory() as folder:
        path = Path(folder, "in")
        for data, wanted in ((file_of(ONE), piped(file_of(ONE))), (file_of(ONE)[:-1], (b"", redirected(file_of(ONE)[:-1])[1], 1))):
            path.write_bytes(before + data)
            with open(path, "rb", buffering=0) as given:
                given.seek(len(before))
                done = subprocess.run([COMMAND], stdin=given, capture_output=True)
            assert (done.stdout, told_of(done), done.returncode) == wanted, done.stderr


def test_nine_and_ten():
    """Of a file that is both: by name and from a file 9, from a pipe 10."""
    data = riff(chunk(b"fmt ", fields(8000, 1, 3, 32)), sized(b"data", len(ONE) + 2, ONE))
    refused(named(data), 9, None)
    refused(redirected(data), 9, b"")
    refused(piped(data), 10, b"")


def test_every_beginning():
    """A small file, cut at each place. Up to three bytes, standard input is raw PCM."""
    info, right, data = chunk(b"LIST", b"abc"), chunk(b"fmt ", fields(8000, 1)), chunk(b"data", ONE[:8])
    file, whole = riff(info, right, data), [12, 12 + len(info), 12 + len(info) + len(right)]
    for length in range(len(file)):
        number = 8 if length < 12 else 10 if length in whole else 9
        refused(named(file[:length]), number, None)
        if length < 4:
            out, _, status = piped(file[:length], "1", "1")
            assert (out, status) == (file[:length // 2 * 2], length % 2)
        elif length < whole[2] + 8:
            refused(piped(file[:length]), number, b"")
        else:
            assert " refusal=9 " in piped(file[:length])[1][-1]


# ---- the output

def test_refusals_keep_what_is_there():
    for data in (ONE, riff(chunk(b"fmt ", fields(8000, 1, 3, 32)), chunk(b"data", ONE)), file_of(ONE)[:-1]):
        out, _, status = named(data, before=b"an older track")
        assert (out, status) == (b"an older track", 1)
        # The same name twice.
        out, _, status = named(data, names=("in.wav", "in.wav"))
        assert (out, status) == (data, 1)


def test_same_name():
    wanted, told, status = named(file_of(TWO))
    assert named(file_of(TWO), names=("in.wav", "in.wav")) == (wanted, told, status)
    assert named(file_of(TWO), names=("in.wav", "./in.wav")) == (wanted, told, status)
    assert named(file_of(TWO), before=b"an older track" * 9999) == (wanted, told, status)


def test_tracks_kept():
    """A stall or a partial frame gives status 1, and the track is kept."""
    out, told, status = named(file_of(TWO), options=("--as-original",), before=b"old")
    assert status == 1 and "stalls=0 " not in told[-1] and out[44:] == piped(TWO, "--as-original")[0], told
    out, _, status = named(riff(chunk(b"fmt ", fields(8000, 2)), chunk(b"data", ONE + b"\1\2")), before=b"old")
    assert status == 1 and out == named(file_of(ONE, 8000, 2))[0]


def test_appended():
    """A file opened with >> cannot have its sizes set."""
    raw = piped(ONE)[0]
    for before in (b"", b"an older track"):
        out, told, status = redirected(file_of(ONE), before=before, mode="ab")
        assert (out, status) == (before + piped_file_of(raw), 0), told
        assert told == piped(file_of(ONE))[1], told


def test_behind_other_output():
    """Where something stands before the track, it stays; sizes are set in their place or not at all."""
    raw = piped(ONE)[0]
    with tempfile.TemporaryDirectory() as folder:
        Path(folder, "in.wav").write_bytes(file_of(ONE))
        subprocess.run(["sh", "-c", '{ printf abc; "$0" < in.wav; } > out', COMMAND], cwd=folder, check=True, stderr=subprocess.DEVNULL)
        assert Path(folder, "out").read_bytes() in (b"abc" + file_of(raw), b"abc" + piped_file_of(raw))


def test_devices():
    with open(os.devnull, "wb") as null:
        done = subprocess.run([COMMAND], input=file_of(ONE), stdout=null, stderr=subprocess.PIPE)
    assert done.returncode == 0, done.stderr
    with open("/dev/full", "wb") as full:
        done = subprocess.run([COMMAND], input=file_of(ONE), stdout=full, stderr=subprocess.PIPE)
    assert done.returncode == 1 and b"No space left" in done.stderr, done.stderr


def test_names_not_taken():
    with tempfile.TemporaryDirectory() as name:
        folder = Path(name)
        source, fifo, other = folder / "in.wav", folder / "fifo", folder / "folder"
        source.write_bytes(file_of(ONE))
        os.mkfifo(fifo)
        other.mkdir()
        for out in ("/dev/null", "/dev/full", fifo, other):
            bad_usage(source, out)
        assert f"skim: {folder}/none.wav: No such file or directory" in bad_usage(folder / "none.wav", folder / "out.wav")
        assert "skim: /nowhere/out.wav: No such file or directory" in bad_usage(source, "/nowhere/out.wav")
        assert f"skim: {source}/out.wav: Not a directory" in bad_usage(source, source / "out.wav")
        out, _, status = piped(b"", other, folder / "out.wav")
        assert out == b"" and status in (1, 2)
        assert sorted(path.name for path in folder.iterdir()) == ["fifo", "folder", "in.wav"]
        assert source.read_bytes() == file_of(ONE)


def test_failed_write():
    """A track that cannot be written to its end is removed, and the older one stays."""
    def limit():
        resource.setrlimit(resource.RLIMIT_FSIZE, (1000, 1000))
    out, told, status = named(file_of(ONE), "1", "1", before=b"an older track", preexec_fn=limit, restore_signals=False)
    assert (out, status) == (b"an older track", 1) and any("File too large" in line for line in told), told


def test_closed_descriptors():
    """A closed descriptor does not become that of a file: the track is right, or there is none."""
    for closed in ("0<&-", "2>&-", "0<&- 2>&-"):
        with tempfile.TemporaryDirectory() as name:
            folder = Path(name)
            (folder / "in.wav").write_bytes(file_of(ONE))
            done = subprocess.run(["sh", "-c", f'"$0" in.wav out.wav {closed}', COMMAND], cwd=folder, capture_output=True)
            track = folder / "out.wav"
            if done.returncode == 0:
                assert track.read_bytes() == named(file_of(ONE))[0], closed
            else:
                assert not track.exists(), closed
            assert (folder / "in.wav").read_bytes() == file_of(ONE) and done.stdout == b"", closed
            assert {path.name for path in folder.iterdir()} <= {"in.wav", "out.wav"}, closed


# ---- arguments

def test_numbers():
    assert piped(TWO, "2", "1") == piped(TWO, "8000", "1", "2", "1")
    assert piped(TWO, "2", "1.5", "0.5") == piped(TWO, "8000", "1", "2", "1.5", "0.5")
    assert piped(TWO) == piped(TWO, "20", "0.5")
    data = file_of(TWO)
    assert named(data) == named(data, "20", "0.5") == named(data, "20.0", "0.50", "1")
    assert redirected(data) == redirected(data, "8000", "1", "20", "0.5") == redirected(data, "20", "0.5", "1")
    for words in ("1", "1 1 1 1 1 1", "21 1", "1 0", "1 1 0", "0 1 1 1", "8000 33 1 1", "2. .5", "1.2.3 1"):
        bad_usage(*words.split())
    for words in ("in.wav", "in.wav out.wav 1", "in.wav out.wav 8000 1 1 1", "in.wav out.wav 8000 1 1 1 1", "in.wav out.wav 21 1",
                  "in.wav out.wav 1 x", "in.wav out.wav 1 1 0", "in.wav out.wav other.wav", "2 1 in.wav out.wav", "in.wav out.wav --as-original",
                  "--raw in.wav out.wav", "--raw in.wav out.wav 1 1", "--raw --raw", "20 out.wav"):
        bad_usage(*words.split())


def test_odd_names():
    wanted = named(file_of(ONE))
    for names in (("./20", "out.wav"), ("in.wav", "20"), ("20.wav", "1.5"), ("2-1", ".5"), ("1e3", "1,5"), ("a file", "Tür\n"), ("./-x", "./--raw"),
                  ("RIFF", "o" * 200)):
        assert named(file_of(ONE), names=names) == wanted, names
    assert named(file_of(ONE), "20", "0.5", names=("in.wav", "20")) == wanted


def test_raw():
    """With --raw the bytes of a WAVE file are samples."""
    data = file_of(ONE)
    assert piped(data, "--raw", "1", "1")[::2] == piped(data, "--raw", "8000", "2", "1", "1")[::2] == (data, 0)
    assert redirected(data, "--raw", "1", "1")[::2] == (data, 0)
    assert piped(ONE, "--raw") == piped(ONE) and redirected(ONE, "--raw") == redirected(ONE) == piped(ONE)
    for order in (("--raw", "--as-original", "--longest-period"), ("--longest-period", "--raw", "--as-original")):
        assert piped(TWO, *order) == piped(TWO, "--as-original", "--longest-period")


def test_help():
    out, told, status = piped(b"", "--help")
    assert out.startswith(b"usage: skim ") and (told, status) == ([], 0), out
    assert b"IN.wav OUT.wav" in out and b"--raw" in out and all(len(line) <= 110 for line in out.splitlines()), out


# ---- bytes that come in pieces

def test_raw_in_pieces():
    """The first four bytes, which are looked at, do not get lost."""
    for start in (b"", b"R", b"RI", b"RIF", b"RIFX", b"RIFf", b"\0RIFF", b"WAVE", b"fmt "):
        data = start + ONE[len(start):400]
        for piece in (1, 2, 3):
            assert fed(data, piece, 20, "1", "1")[::2] == (data, 0), (start, piece)


def test_wave_in_pieces():
    data = riff(chunk(b"LIST", b"abc"), chunk(b"fmt ", fields(8000, 1)), chunk(b"data", ONE), chunk(b"LIST", b"abc"))
    wanted = piped(file_of(ONE))
    for piece in (1, 2, 3, 7):
        assert fed(data, piece, 70) == wanted, piece
    # The samples, too: a frame in two parts.
    assert fed(file_of(ONE[:100]), 3, 200, "1", "1")[::2] == (piped_file_of(ONE[:100]), 0)
    for number, data in ((8, b"RIFF1234WAVX"), (9, riff(b"data")), (10, riff())):
        for piece in (1, 3):
            refused(fed(data, piece, 20), number, b"")


def test_short_raw():
    for length in range(7):
        for data in (ONE[100:100 + length], b"RIF"[:length] + b"x123456"[:max(0, length - 3)]):
            out, told, status = piped(data, "1", "1")
            assert (out, status) == (data[:length // 2 * 2], length % 2), (data, told)
            assert redirected(data, "1", "1") == (out, told, status)
            assert told[-1].startswith(f"skim: frames_in={length // 2} "), told


# ---- size

def test_fixed_memory():
    """A file of 200 MB in 64 MB of memory."""
    size = 200_000_000
    with tempfile.TemporaryDirectory() as name:
        folder = Path(name)
        with open(folder / "in.wav", "wb") as file:
            file.write(head(44100, 2, size, 36 + size))
            file.truncate(44 + size)
        words = ["sh", "-c", 'ulimit -v 65536; exec "$0" in.wav out.wav 2 1', COMMAND]
        done = subprocess.run(words, cwd=folder, capture_output=True)
        assert done.returncode == 0 and f"frames_in={size // 4} ".encode() in done.stderr, done.stderr
        frames_out = int(re.search(rb"frames_out=(\d+)", done.stderr).group(1))
        assert (folder / "out.wav").stat().st_size == 44 + 4 * frames_out > size // 3


# ---- other programs

def test_sox():
    if not shutil.which("sox"):
        return "sox"
    pcm = ("-t", "raw", "-r", "8000", "-e", "signed-integer", "-b", "16", "-c", "1")
    with tempfile.TemporaryDirectory() as name:
        path = Path(name, "sox.wav")
        subprocess.run(["sox", *pcm, "-", path], input=TWO, check=True)
        track, told, status = named(path.read_bytes())
        assert (track, status) == (file_of(piped(TWO)[0]), 0), told
        path.write_bytes(track)
        assert subprocess.run(["sox", path, *pcm, "-"], capture_output=True, check=True).stdout == track[44:]
    # From a pipe to a pipe: sox takes the sizes that it writes there itself, and skim tells that they are not those of the file.
    given = subprocess.run(["sox", *pcm, "-", "-t", "wav", "-"], input=TWO, capture_output=True, check=True).stdout
    out, told, status = piped(given)
    assert status == 1 and " refusal=9 " in told[-1], told
    taken = subprocess.run(["sox", "-t", "wav", "-", *pcm, "-"], input=piped(file_of(TWO))[0], capture_output=True)
    assert (taken.stdout, taken.returncode) == (piped(TWO)[0], 0), taken.stderr
    return None


def test_ffmpeg():
    if not shutil.which("ffmpeg"):
        return "ffmpeg"
    pcm, quiet = ("-f", "s16le", "-ar", "44100", "-ac", "2"), ("ffmpeg", "-v", "error", "-y")
    with tempfile.TemporaryDirectory() as name:
        path = Path(name, "ffmpeg.wav")
        subprocess.run([*quiet, *pcm, "-i", "-", "-metadata", "title=reel", path], input=TWO, check=True)
        track, told, status = named(path.read_bytes(), "2", "1")
        assert (track, status) == (file_of(piped(TWO, "44100", "2", "2", "1")[0], 44100, 2), 0), told
        path.write_bytes(track)
        assert subprocess.run([*quiet, "-i", path, *pcm, "-"], capture_output=True, check=True).stdout == track[44:]
        subprocess.run([*quiet, *pcm, "-i", "-", "-c:a", "pcm_s24le", path], input=TWO, check=True)
        assert tells(refused(named(path.read_bytes()), 10, None), TO_CONVERT)
        # The command that the tool names.
        subprocess.run([*quiet, "-i", path, "-c:a", "pcm_s16le", Path(name, "16.wav")], check=True)
        assert named(Path(name, "16.wav").read_bytes(), "2", "1")[0] == track
    taken = subprocess.run([*quiet, "-i", "-", *pcm, "-"], input=piped(file_of(TWO, 44100, 2), "2", "1")[0], capture_output=True)
    assert taken.stdout == track[44:], taken.stderr
    return None


def main():
    tests = [(name, test) for name, test in globals().items() if name.startswith("test_")]
    missing = [missing for missing in [test() for _, test in tests] if missing]
    if missing:
        print(f"skim: not at hand: {', '.join(missing)}")
    print(f"skim: {len(tests) - len(missing)} tests of the tool with WAVE files passed")


main()
