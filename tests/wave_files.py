#!/usr/bin/env python3
"""WAVE files of other programs: wave_files.py HELPER, where HELPER is tests/wave_file.c compiled. The library has to read what sox and ffmpeg write
as it must, and sox, ffmpeg and Python's module wave have to read what it writes. Where sox or ffmpeg is not at hand that is said; the files
in tests/wave, made by both, are read all the same.

wave_files.py store makes the files in tests/wave and answers.txt again.
"""
import shutil
import struct
import subprocess
import sys
import tempfile
import wave
from pathlib import Path

FOLDER = Path(__file__).resolve().parent / "wave"
PROGRAMS = ("sox", "ffmpeg")
# Nine samples: in 8 and in 24 bits the data chunk has an odd size. The same for three channels.
NINE = (0, 1, -1, 32767, -32768, 256, -256, 12345, -12345)
# Each file: its rate and channels, the refusal, the options of the program; a name with "pipe" is written to a pipe.
FILES = {
    "sox_mono.wav": (8000, 1, 0, ""),
    "sox_fast.wav": (500000, 1, 0, ""),
    "sox_three_wavpcm.wav": (44100, 3, 0, "-t wavpcm"),
    "sox_three.wav": (44100, 3, 10, ""),
    "sox_8_bits.wav": (8000, 1, 10, "-b 8"),
    "sox_24_bits.wav": (8000, 1, 10, "-b 24"),
    "sox_24_bits_wavpcm.wav": (8000, 1, 10, "-b 24 -t wavpcm"),
    "sox_float.wav": (8000, 1, 10, "-e floating-point -b 32"),
    "sox_ulaw.wav": (8000, 1, 10, "-e u-law"),
    "sox_big_endian.wav": (8000, 1, 8, "--endian big"),
    "sox_pipe.wav": (8000, 1, 9, "-t wav"),
    "ffmpeg_mono.wav": (8000, 1, 0, ""),
    "ffmpeg_exact.wav": (48000, 1, 0, "-bitexact"),
    "ffmpeg_fast.wav": (48001, 1, 10, ""),
    "ffmpeg_title.wav": (1000, 1, 0, "-metadata title=reel"),
    "ffmpeg_bext.wav": (8000, 1, 0, "-write_bext 1"),
    "ffmpeg_slow.wav": (999, 1, 10, ""),
    "ffmpeg_three.wav": (44100, 3, 10, ""),
    "ffmpeg_8_bits.wav": (8000, 1, 10, "-c:a pcm_u8"),
    "ffmpeg_24_bits.wav": (8000, 1, 10, "-c:a pcm_s24le"),
    "ffmpeg_float.wav": (8000, 1, 10, "-c:a pcm_f32le"),
    "ffmpeg_rf64.wav": (8000, 1, 8, "-rf64 always"),
    "ffmpeg_w64.wav": (8000, 1, 8, "-f w64"),
    "ffmpeg_pipe.wav": (8000, 1, 9, "-f wav"),
}
# Rates and channels of the files that the library writes.
WRITTEN = ((8000, 1), (44100, 2), (1000, 3), (96000, 8), (500000, 32))


def raw(samples):
    return struct.pack(f"<{len(samples)}h", *samples)


def program_of(name):
    return name.split("_")[0]


def run(*command, data=b""):
    done = subprocess.run([str(word) for word in command], input=data, capture_output=True)
    assert done.returncode == 0, (command, done.stderr)
    return done.stdout


def quiet(*command, data=b""):
    """The output of a command that has nothing to tell."""
    done = subprocess.run([str(word) for word in command], input=data, capture_output=True)
    assert (done.returncode, done.stderr) == (0, b""), (command, done.stderr)
    return done.stdout


def make(name, path):
    """Makes a file of the table."""
    rate, channels, _, options = FILES[name]
    out = "-" if "pipe" in name else path
    if program_of(name) == "sox":
        source = ("-t", "raw", "-r", rate, "-e", "signed-integer", "-b", 16, "-c", channels, "-")
        given = run("sox", "-D", *source, *options.split(), out, data=raw(NINE))
    else:
        source = ("-f", "s16le", "-ar", rate, "-ac", channels, "-i", "-")
        given = run("ffmpeg", "-v", "error", "-y", *source, *options.split(), out, data=raw(NINE))
    if out == "-":
        path.write_bytes(given)


def wanted(name, data):
    """What reading a file of the table must answer."""
    rate, channels, refusal, _ = FILES[name]
    return [0, rate, channels, 9 // channels, data.index(b"data") + 8] if refusal == 0 else [refusal, 0, 0, 0, 0]


def read_by_library(helper, path):
    return [int(word) for word in run(helper, path).split()]


def samples_of(data, answer):
    _, _, channels, frames, begin = answer
    return struct.unpack_from(f"<{frames * channels}h", data, begin)


def read_made(helper, name, path):
    data = path.read_bytes()
    answer = read_by_library(helper, path)
    assert answer == wanted(name, data), (name, answer)
    assert answer[0] != 0 or samples_of(data, answer) == NINE, name


def read_stored(helper):
    """The stored files; how many."""
    lines = [line.split() for line in (FOLDER / "answers.txt").read_text().splitlines() if not line.startswith("#")]
    assert sorted(name for name, *_ in lines) == sorted(path.name for path in FOLDER.glob("*.wav"))
    for name, *words in lines:
        numbers = [int(word) for word in words]
        answer = read_by_library(helper, FOLDER / name)
        assert answer == numbers[:5], (name, answer)
        assert samples_of((FOLDER / name).read_bytes(), answer) == tuple(numbers[5:]), name
    return len(lines)


def by_python(path):
    with wave.open(str(path), "rb") as file:
        assert (file.getsampwidth(), file.getcomptype()) == (2, "NONE"), path
        return file.getframerate(), file.getnchannels(), file.readframes(file.getnframes())


def by_sox(path):
    rate, channels, bits = (int(quiet("sox", "--info", option, path)) for option in ("-r", "-c", "-b"))
    assert bits == 16, path
    return rate, channels, quiet("sox", path, "-t", "raw", "-")


def by_ffmpeg(path):
    entries = "stream=codec_name,sample_rate,channels"
    shown = quiet("ffprobe", "-v", "warning", "-show_entries", entries, "-of", "csv=p=0", path).decode().strip()
    codec, rate, channels = shown.split(",")
    assert codec == "pcm_s16le", shown
    return int(rate), int(channels), quiet("ffmpeg", "-v", "error", "-i", path, "-f", "s16le", "-c:a", "copy", "-")


def readers(at_hand):
    return [by_python, *([by_sox] if "sox" in at_hand else []), *([by_ffmpeg] if "ffmpeg" in at_hand else [])]


def read_written(helper, folder, at_hand):
    """What the library writes, read by others and by itself; how many files."""
    path = folder / "written.wav"
    for rate, channels in WRITTEN:
        samples = [(7919 * i) % 65536 - 32768 for i in range(1000 * channels)]
        samples[:3] = (-32768, 32767, 0)
        path.write_bytes(quiet(helper, rate, channels, data=raw(samples + [5] * (channels - 1))))
        assert path.stat().st_size == 44 + 2 * len(samples)
        assert read_by_library(helper, path) == [0, rate, channels, 1000, 44]
        for reader in readers(at_hand):
            assert reader(path) == (rate, channels, raw(samples)), (reader.__name__, rate, channels)
    path.write_bytes(quiet(helper, 8000, 2))
    assert by_python(path) == (8000, 2, b"") and read_by_library(helper, path) == [0, 8000, 2, 0, 44]
    return len(WRITTEN) + 1


def chunk(name, body):
    return name + struct.pack("<I", len(body)) + body + bytes(len(body) % 2)


def read_with_chunks(helper, folder, at_hand):
    """A file with chunks of odd size before, between and behind: others pass over them as the library does."""
    path = folder / "chunks.wav"
    plain = quiet(helper, 8000, 1, data=raw(NINE))
    body = b"WAVE" + chunk(b"odd ", b"12345") + plain[12:36] + chunk(b"LIST", b"INFOICMT\1\0\0\0a") + plain[36:] + chunk(b"LIST", b"INFO")
    path.write_bytes(b"RIFF" + struct.pack("<I", len(body)) + body)
    assert read_by_library(helper, path) == [0, 8000, 1, 9, 44 + 14 + 22]
    for reader in readers(at_hand):
        assert reader(path) == (8000, 1, raw(NINE)), reader.__name__


def refuse_writing(helper):
    for words, told in (((999, 33), b"1 999\n"), ((8000, 33), b"2 33\n"), ((500001, 1), b"1 500001\n")):
        done = subprocess.run([helper, *map(str, words)], input=b"", capture_output=True)
        assert (done.returncode, done.stdout, done.stderr) == (1, b"", told), done


def store():
    lines = ["# The files here, made by tests/wave_files.py store: name, refusal, rate, channels, frames, begin, and the samples that are read."]
    for name in FILES:
        path = FOLDER / name
        make(name, path)
        data = path.read_bytes()
        assert len(data) < 2000, name
        answer = wanted(name, data)
        samples = NINE if answer[0] == 0 else ()
        lines.append(" ".join(map(str, (name, *answer, *samples))))
    (FOLDER / "answers.txt").write_text("\n".join(lines) + "\n")


def check(helper):
    at_hand = [program for program in PROGRAMS if shutil.which(program)]
    stored = read_stored(helper)
    with tempfile.TemporaryDirectory() as name:
        folder = Path(name)
        made = [file for file in FILES if program_of(file) in at_hand]
        for file in made:
            make(file, folder / file)
            read_made(helper, file, folder / file)
        written = read_written(helper, folder, at_hand)
        read_with_chunks(helper, folder, at_hand)
    refuse_writing(helper)
    missing = [program for program in PROGRAMS if program not in at_hand]
    if missing:
        print(f"wave: not at hand: {', '.join(missing)}; only their stored files are read")
    programs = ", ".join(at_hand + ["Python"])
    print(f"wave: {stored} stored files and {len(made)} new ones read; {written} files written and read by {programs}")


if sys.argv[1:] == ["store"]:
    store()
else:
    check(sys.argv[1])
