#!/usr/bin/env python3
"""The skim tool beside the Rust original: skim_original.py TOOL ORIGINAL STEPPING LARGEST BOTH ROUNDS [SEED].

TOOL is the proved program, ORIGINAL the original joined with tests/skim.rs; STEPPING, LARGEST and BOTH are the same with a copy of the
original that steps over, that finds the largest of several best periods, and that does both. Each round takes arguments and a reel at
random and runs the tool beside STEPPING and, with --as-original, beside ORIGINAL; or with --longest-period beside BOTH and, with
--as-original too, beside LARGEST. It compares every byte, the counts of the last line and the map. A job that the tool has no room for has
to write nothing and end in status 2.
"""
import random
import re
import subprocess
import sys
import tempfile
from pathlib import Path

RATES = (1000, 1001, 4000, 4001, 8000, 11025, 16000, 22050, 44100, 48000, 96000, 500000)
LAST = re.compile(r"(skim: frames_in=.*) status=\d\n")


def number(r, low, high):
    kind = r.randrange(5)
    if kind == 0:
        return str(r.choice((low, high)))
    if kind == 1:
        return r.choice(("1", "1.0", "0.5", "2", "1.5", "0.75", "1.00001", "0.99999", "20"))
    digits = r.randrange(1, 9)
    return f"{min(high, max(low, r.uniform(low, min(high, r.choice((1.2, 3.0, high)))))):.{digits + 1}f}"


def reel(r, samples):
    kind, period = r.randrange(6), r.randrange(2, 400)
    level = r.choice((30, 3000, 32767))
    wave = [r.randrange(-level, level + 1) for _ in range(period)]
    out = []
    for t in range(samples):
        if kind == 0:
            v = 0
        elif kind == 1:
            v = r.randrange(-32768, 32768)
        elif kind == 2:
            v = wave[t % period]
        elif kind == 3:
            v = wave[t % period] if t % 5000 < 4000 else 0
        elif kind == 4:
            v = wave[t % period] + r.randrange(-50, 51)
        else:
            v = r.choice((-32768, 32767)) if t % 3 else 0
        out.append(max(-32768, min(32767, v)))
    return b"".join(v.to_bytes(2, "little", signed=True) for v in out)


def edge(pitch, period, frames):
    """A job whose pitch period is s - 1, so that the last bit of s decides whether a write stalls: a saw, or silence for 20."""
    speed = min(20.0, pitch * (period + 1))
    level = 0 if period == 20 else 20000 // period
    out = [level * (i % period) - level * period // 2 for i in range(frames)]
    return ["8000", "1", f"{speed:.2f}", str(pitch)], b"".join(v.to_bytes(2, "little", signed=True) for v in out)


def job(r):
    """Arguments and a reel. Half of the jobs are so fast, and at so low a pitch, that many a period gives no frame."""
    if r.randrange(8) == 0:
        return edge(r.choice((0.25, 0.3, 0.35, 0.5)), r.choice((20, 20, r.randrange(21, 60))), r.choice((5000, 20000, 40000)))
    rate = r.choice(RATES) if r.randrange(2) else r.randrange(1000, 60000)
    channels = r.choice((1, 1, 1, 2, 2, 3, 5, 8, 32))
    words = [str(rate), str(channels), number(r, 0.05, 20), number(r, 0.05, 20)]
    sizes = (0, 1, 100, 5000, 20000)
    if r.randrange(2):
        words[0] = str(rate % 15000 + 1000)
        words[2:] = [f"{r.uniform(5, 20):.2f}", f"{r.uniform(0.05, 0.5):.2f}"]
        sizes = (100, 5000, 20000)
    if r.randrange(2):
        words.append(number(r, 0.01, 100))
    return words, reel(r, r.choice(sizes) * r.choice((1, channels)))


def run(folder, words, options, place, data):
    """The bytes, standard error, and the map, which is asked for at that place among the options."""
    path = Path(folder, "map")
    path.unlink(missing_ok=True)
    done = subprocess.run([words[0], *options[:place], "--map", path, *options[place:], *words[1:]], input=data, capture_output=True)
    return done.stdout, done.stderr.decode(), path.read_text() if path.exists() else None


def compare(folder, tool, options, judge, words, data):
    """What the tool says of a job, in which it is to do as the judge does; nothing of one that it has no room for."""
    ours, said, our_map = run(folder, [tool] + words, options, len(data) % (len(options) + 1), data)
    if said.endswith("skim: status=2\n"):
        assert ours == b"" and "no room" in said and our_map is None, (words, said)
        return ""
    theirs, counts, their_map = run(folder, [judge] + words, [], 0, data)
    assert ours == theirs, (words, options, len(ours), len(theirs), said, counts)
    assert LAST.search(said).group(1) == counts.strip(), (words, options, said, counts)
    assert our_map == their_map, (words, options, our_map, their_map)
    return said


def main():
    tool, original, stepping, largest, both, rounds = *sys.argv[1:6], int(sys.argv[6])
    r = random.Random(int(sys.argv[7]) if len(sys.argv) > 7 else 1)
    served = stalls = left = passing = periods = longest = others = 0
    with tempfile.TemporaryDirectory() as folder:
        # Two reels on which the original stalls and goes on: 10.5/0.5 and 17.85/0.35.
        for words, data in (edge(0.5, 20, 40000), edge(0.35, 50, 40000)):
            assert "the flush left the stall" in compare(folder, tool, ["--as-original"], original, words, data), words
        for _ in range(rounds):
            words, data = job(r)
            options, stepping_judge, plain_judge = r.choice((([], stepping, original), (["--longest-period"], both, largest)))
            said = compare(folder, tool, options, stepping_judge, words, data)
            if not said:
                continue
            served += 1
            if options:
                longest, others = longest + 1, others + (run(folder, [stepping] + words, [], 0, data) != run(folder, [both] + words, [], 0, data))
            passed = int(re.search(r" passed=(\d+)", said).group(1))
            passing, periods = passing + (passed > 0), periods + passed
            said = compare(folder, tool, r.sample(options + ["--as-original"], len(options) + 1), plain_judge, words, data)
            stalls, left = stalls + ("stalls=0 " not in said), left + ("the flush left the stall" in said)
    assert 5 * others > longest, f"with the longest periods {others} tracks of {longest} are others"
    print(f"skim: {rounds} jobs, {served} served, the same bytes, counts and maps as the original and its copies. As the original, {stalls}", end=" ")
    print(f"stalled, and {left} of them left every stall; stepping over, {passing} passed over {periods} pitch periods. {longest} jobs took", end=" ")
    print(f"the longest of several best periods, which gave {others} of them another track")


main()
