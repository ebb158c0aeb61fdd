#!/usr/bin/env python3
"""Runs the benchmarks and writes bench/RESULTS.md: results.py, in the repository, with all built (make bench).

With ROUNDS=N in the environment each measurement has N rounds, instructions are not counted, and the file is target/bench/RESULTS.md: a
quick run, to see that it works.
"""
import datetime
import os
import platform
import re
import subprocess
from pathlib import Path

QUICK = os.environ.get("ROUNDS")
TEXT = """# Speed

Written by `make bench` on {date}: {processor}, {cores} processors, load {load} before the run; {compiler}; kit {kit}.{quick}

Ours and the original's times, libsonic-rs df77af760d (rustc -O), are taken in one process by turns, and every job gives the same frames on
both sides, bit for bit. Times are processor times, those of kernels by the clock.

## Whole jobs

Each line: job and reel, our time over the original's, both in milliseconds (medians). mono is ten minutes at 8,000 Hz, mono-16k five
minutes at 16,000 Hz, stereo one minute at 44,100 Hz, speech ten minutes of several voices, noise and pauses at 8,000 Hz, espeak as long,
read by espeak-ng (tools/make_speech.sh), minute one minute at 8,000 Hz. Writes are of 4,096 frames, each followed by a read that takes all,
unless it is said: skim is speed 20 and pitch 0.5, short is writes and reads of 160 frames at speed 2, step-over is skim on speech and
espeak, beside the original without its `return` at a step that gave no frame. copy, read-all, read-160 and long-write are at speed and
pitch 1: read-all is writes of 160 frames, each followed by a read that takes all; in read-160 each write, and in long-write the one write of
a minute, is followed by reads of 160 frames. To reach: skim 0.70, on stereo 0.35; speed-2 0.70, on stereo 0.38; speed-0.5 and copy 0.80;
pitch-0.5 0.80, on mono 0.40, on stereo 0.33; short 1.0, on mono 0.50; read-all, read-160 and long-write 1.0; step-over 0.55.

The lines of the tool: its time over the library's on the same reel, from start to end, with its reads and writes (least of the rounds).
In the first the library writes 4,096 frames at a time; to reach: 1.15. In the second it writes as the tool does, each time as far as one
step uses, 76,000 times in all.
The line of WAVE files: reading the head of a file of one hour over one of one second, 44,100 Hz stereo; no sample is touched.
Instructions are counted by valgrind; the last column shows that cost grows in proportion to the reel's length. Not so for long-write, as in
the original, because a read moves what remains to the front; a read that takes all moves nothing, and its instructions are the same
whatever the output could hold. The stack is that of a call, a few frames of the benchmark among it; tried are calls of all jobs, and of a
pitch with 32 phases (N/gcd(N, O), docs/RULES.md, "Rate").

```
{jobs}```

## Kernels

Each line: the function, our time over the original's, both in nanoseconds (medians).

```
{kernels}```

## Other programs

The tool and other programs on one reel: ten minutes of one voice at 8,000 Hz, mono, at speed 20 and pitch 0.5, or how each of them says
that (bench/peers.py). Times from start to end, the least of the rounds ({peer_rounds}). sonic alone takes out whole pitch periods, as the
tool does, and its track and the tool's are shorter than a twentieth, since a step gives a whole number of frames. sox, soundstretch and
ffmpeg overlap windows of the sound, and rubberband is a phase vocoder: less or more work, and another sound.

{peers}"""


def run(*command):
    return subprocess.run(command, stdout=subprocess.PIPE, check=True, text=True).stdout


def processor():
    names = re.findall(r"^model name\s*: (.*)$", Path("/proc/cpuinfo").read_text(), re.MULTILINE)
    return names[0] if names else platform.machine()


def main():
    path = Path("target/bench/RESULTS.md" if QUICK else "bench/RESULTS.md")
    rounds = QUICK or "15"
    load = f"{os.getloadavg()[0]:.2f}"
    text = TEXT.format(
        date=datetime.date.today().isoformat(), processor=processor(), cores=os.cpu_count(), load=load,
        compiler=run("rustc", "--version").strip(), kit=run("rt", "version").strip(),
        quick=f" A quick run, rounds: {rounds}." if QUICK else "",
        jobs=run("target/bench/jobs"), kernels=run("target/bench/kernels"), peer_rounds=rounds,
        peers=run("bench/peers.py", "target/bin/skim", "tools/make_reel.py", rounds))
    path.write_text(text)
    print(f"{text}\nwritten to {path}")


main()
