#!/usr/bin/env python3
"""The skim tool beside other programs on one reel: peers.py SKIM MAKE_REEL ROUNDS.

Ten minutes of one voice at 8,000 Hz, mono, at speed 20 and pitch 0.5. Prints a Markdown table: for each program its setting, its
processor time, user and system, from start to end, the least of the rounds; that over the tool's; and the length of its track. A program
that is not installed has a line that says so.
"""
import resource
import shutil
import subprocess
import sys
import tempfile
import wave
from pathlib import Path

RATE = 8000
FRAMES = 600 * RATE
# Program, Debian package, and its words behind the program; {0} is the reel and {1} the track, as WAVE files.
PEERS = (
    ("sonic", "sonic", "-s 20 -p 0.5 {0} {1}"),
    ("sox", "sox", "{0} {1} tempo -s 20 pitch -1200"),
    ("soundstretch", "soundstretch", "{0} {1} -tempo=1900 -pitch=-12 -speech"),
    ("rubberband", "rubberband-cli", "-q -T20 -p-12 {0} {1}"),
    ("ffmpeg", "ffmpeg", "-nostdin -v error -y -i {0} -af atempo=40,asetrate=4000,aresample=8000 {1}"),
)


def write_wave(path, samples):
    with wave.open(str(path), "wb") as file:
        file.setparams((1, 2, RATE, 0, "NONE", ""))
        file.writeframes(samples)


def version_of(package):
    """The version of a Debian package."""
    if not shutil.which("dpkg-query"):
        return "not known"
    done = subprocess.run(["dpkg-query", "-W", "-f", "${Version}", package], capture_output=True, text=True)
    return done.stdout or "not known"


def time_of(command, reel, track):
    """Processor time of a run in milliseconds."""
    def used():
        usage = resource.getrusage(resource.RUSAGE_CHILDREN)
        return usage.ru_utime + usage.ru_stime

    before = used()
    with open(reel, "rb") as source, open(track, "wb") as sink:
        subprocess.run(command, stdin=source, stdout=sink, stderr=subprocess.DEVNULL, check=True)
    return 1000 * (used() - before)


def seconds_of(path):
    """The length of a WAVE file, or of a raw one."""
    if path.suffix == ".pcm":
        return path.stat().st_size / 2 / RATE
    with wave.open(str(path), "rb") as file:
        return file.getnframes() / file.getframerate()


def main():
    skim, make_reel, rounds = sys.argv[1:]
    with tempfile.TemporaryDirectory() as name:
        folder = Path(name)
        raw, reel, track, printed = folder / "reel.pcm", folder / "reel.wav", folder / "track.pcm", folder / "printed"
        raw.write_bytes(subprocess.run([make_reel, f"62:{FRAMES}"], stdout=subprocess.PIPE, check=True).stdout)
        write_wave(reel, raw.read_bytes())
        # Each run: its command, standard output, and the track.
        runs = {"skim": ([skim, *f"{RATE} 1 20 0.5".split()], track, track)}
        for peer, _, words in PEERS:
            if shutil.which(peer):
                made = folder / f"{peer}.wav"
                runs[peer] = ([peer, *words.format(reel, made).split()], printed, made)
        times = {peer: [] for peer in runs}
        for _ in range(int(rounds)):
            for peer, (command, output, _) in runs.items():
                times[peer].append(time_of(command, raw, output))
        lengths = {peer: seconds_of(made) for peer, (_, _, made) in runs.items()}
    least = {peer: min(each) for peer, each in times.items()}

    def figures(peer):
        return f"{least[peer]:.0f} | {least[peer] / least['skim']:.2f} | {lengths[peer]:.2f}"

    print("| program | version | setting | processor time, ms | over skim | track, s |\n|---|---|---|---|---|---|")
    print(f"| skim | this one | 8000 1 20 0.5 | {figures('skim')} |")
    for peer, package, words in PEERS:
        if peer in runs:
            print(f"| {peer} | {version_of(package)} | {words.format('IN', 'OUT')} | {figures(peer)} |")
        else:
            print(f"| {peer} | not installed | | | | |")


main()
