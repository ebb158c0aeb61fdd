#!/usr/bin/env python3
"""Draws reel two, as the original skims it and stepped over: input, frames out, and what was left out. draw_reels.py TOOL PICTURE.

TOOL is the skim program. It skims the reel up to ever later ends, its last lines give the frames out, and its map what is shaded. Gnuplot
draws.
"""
import re
import subprocess
import sys
import tempfile
from pathlib import Path

RATE = 8000
REEL = ("62:24000", "34:16000")
COLUMNS = (("Reel two, stopped at the stall (--as-original)", ["--as-original"]), ("Reel two, stepped over", []))
COLOURS = {"62": "#5b7fa6", "34": "#9a6aa8"}
# Frames between two ends that are tried, and frames of a column of the input.
STEP, WIDTH = 400, 100
LAYOUT = """
set terminal pngcairo size 1200,620 font "DejaVu Sans,11" background "white"
set output "{picture}"
set multiplot layout 2,2 columnsfirst margins 0.07,0.98,0.10,0.92 spacing 0.07,0.10
set xrange [0:5]
set border 3 linecolor "#606060"
set tics nomirror textcolor "#303030"
set key off
"""
INPUT = """
set title "{title}" font "DejaVu Sans,13"
set ylabel "input"
set yrange [-13000:13000]
unset ytics
unset xlabel
{marks}
plot {plots}
{envelopes}
"""
OUTPUT = """
set title ""
set ylabel "frames out"
set yrange [0:1400]
set ytics nomirror
set xlabel "seconds of the reel"
unset label
{marks}
plot "-" using 1:2 with lines linewidth 2.5 linecolor "#2f6b3a"
{counts}
e
unset object
unset arrow
unset label
"""


def samples_of(data):
    return [int.from_bytes(data[i:i + 2], "little", signed=True) for i in range(0, len(data), 2)]


def skim(tool, options, data):
    """The counts of the last line, by their names, and the map's lines as first frame and frames."""
    with tempfile.NamedTemporaryFile("r") as drawn:
        words = [tool, *options, "--map", drawn.name]
        last = subprocess.run(words, input=data, capture_output=True, check=True).stderr.decode().splitlines()[-1]
        rows = [tuple(map(int, line.split("\t")[:2])) for line in drawn.read().splitlines()[1:]]
    return {name: int(n) for name, n in re.findall(r"(\w+)=(\d+)", last)}, rows


def lines(rows):
    return "\n".join(" ".join(f"{x:g}" for x in row) for row in rows)


def shade(n, first, frames):
    """A shade over frames of which nothing came out, and a line where they begin; a short, thin line for a few frames."""
    start = first / RATE
    if frames < RATE / 10:
        return f'set arrow {n} from {start},graph 0 to {start},graph 0.14 nohead linecolor "#b03020" linewidth 0.7'
    return "\n".join((
        f'set object {n} rectangle from {start},graph 0 to {start + frames / RATE},graph 1 fillcolor "#f6dcd8" fillstyle solid noborder behind',
        f'set arrow {n} from {start},graph 0 to {start},graph 1 nohead linecolor "#b03020" linewidth 2',
    ))


def input_panel(title, values, rows):
    """Each part of the reel in its colour, with its period above it."""
    marks, plots, envelopes, begin = [shade(n + 1, *row) for n, row in enumerate(rows)], [], [], 0
    for n, part in enumerate(REEL):
        period, frames = part.split(":")
        end = begin + int(frames)
        chunks = [(i, values[i:i + WIDTH]) for i in range(begin, end, WIDTH)]
        marks.append(f'set label {n + 2} "a voice of period {period}" at {(begin + end) / 2 / RATE},10800 center textcolor "{COLOURS[period]}"')
        plots.append(f'"-" using 1:2:3 with filledcurves linecolor "{COLOURS[period]}"')
        envelopes.append(lines((i / RATE, min(chunk), max(chunk)) for i, chunk in chunks) + "\ne")
        begin = end
    return INPUT.format(title=title, marks="\n".join(marks), plots=", ".join(plots), envelopes="\n".join(envelopes))


def output_panel(tool, options, data, counts, rows):
    drawn = lines((end / RATE, skim(tool, options, data[:2 * end])[0]["frames_out"]) for end in range(0, len(data) // 2 + 1, STEP))
    told, at = f"stalled at {rows[0][0] / RATE:.3f} s:\\nnothing after it\\nis skimmed", rows[0][0] / RATE + 0.08
    if not counts["stalls"]:
        frames = f"{counts['passed_frames']:,} of {counts['frames_in']:,} frames"
        told, at = f"{counts['passed']} periods passed over:\\nnothing came out of {frames},\\nin {len(rows)} stretches", 0.2
    return OUTPUT.format(marks=f'set label 1 "{told}" at {at},1250 textcolor "#b03020"', counts=drawn)


def column(tool, data, title, options):
    counts, rows = skim(tool, options, data)
    return input_panel(title, samples_of(data), rows) + output_panel(tool, options, data, counts, rows)


def main():
    tool, picture = sys.argv[1:3]
    data = subprocess.run([sys.executable, Path(__file__).with_name("make_reel.py"), *REEL], capture_output=True, check=True).stdout
    script = LAYOUT.format(picture=picture) + "".join(column(tool, data, *way) for way in COLUMNS) + "unset multiplot\n"
    subprocess.run(["gnuplot"], input=script.encode(), check=True)


main()
