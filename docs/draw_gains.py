#!/usr/bin/env python3
"""Draws docs/gains.svg: the gain of each filter over the frames of a voice, and which frames are on.

    docs/draw_gains.py [--output PICTURE]
    docs/draw_gains.py --samples FILE [--from SECONDS] [--to SECONDS] --output PICTURE

The voice is a short sentence that this script makes. With --samples it is a recorded one: a WAV file, or
its bare samples, lowest byte first, with 16 bits, one channel and 32 kHz in either case. --from and --to
choose a stretch of it. The picture goes to docs/gains.svg, or to PICTURE.

A plain MDCT makes frames of 320 lines from the samples, and examples/gains.c prints what tns_encode tells
about each. Standard output gets how many frames were on, damped among them, and off. The script's own voice
must show all three for each filter, and each burst must switch both filters on; else nothing is drawn and
the status is 1.

Assumes Python 3 with its standard library, a C compiler on x86-64 (CC names another than cc), and the
archive target/staticlib/libtns.a (TNS_ARCHIVE names another by its full path). Builds under target/. The
same samples and the same Python give the same bytes.
"""

import argparse
import csv
import math
import operator
import os
import pathlib
import shlex
import struct
import subprocess
import sys
import wave
from xml.sax.saxutils import escape

ROOT = pathlib.Path(__file__).resolve().parent.parent
PICTURE = ROOT / "docs/gains.svg"
RATE, LINES, BITS = 32000, 320, 320
THRESHOLD, UNDAMPED = 1.5, 2  # on above the one; damped, at weighting 1, below the other


def fail(why):
    sys.exit(f"draw_gains: {why}")


# ---- a voice

# The resonances of the mouth for a vowel, in Hz, and how loud each is.
AY = (530, 1840, 2480, 3500, 4500)
EE = (290, 2250, 2900, 3600, 4600)
IH = (400, 1980, 2550, 3500, 4500)
UH = (500, 1480, 2450, 3450, 4450)
AH = (730, 1100, 2440, 3400, 4400)
PARTS = (3.5, -2.5, 1.4, -0.8, 0.5)
# The noise of a consonant: two resonances (frequency and width in Hz), and how loud it is.
NOISES = {
    "s": ((6200, 2200), (9500, 5000), 0.10),
    "p": ((900, 1200), (3000, 4000), 0.9),
    "t": ((4300, 2500), (8000, 6000), 1.0),
    "k": ((2100, 1000), (5500, 4000), 1.0),
}


# A sound is its kind, its letter, its milliseconds and what else the kind needs.
def vowel(letter, length, start, end=None):
    return "vowel", letter, length, (start, end or start)


def hiss(letter, length):
    return "hiss", letter, length, None


def stop(letter, closed, breath):
    """The mouth is closed, then opens with a burst, and breath follows."""
    return "stop", letter, closed + breath, closed


def pause(length):
    return "pause", "", length, None


SENTENCE = [
    ("pause", [pause(190)]),
    ("take", [stop("t", 30, 60), vowel("a", 160, AY, EE), stop("k", 60, 50)]),
    ("a", [vowel("a", 90, UH)]),
    ("tape", [stop("t", 60, 55), vowel("a", 180, AY, EE), stop("p", 75, 45)]),
    ("pause", [pause(220)]),
    ("pick", [stop("p", 30, 45), vowel("i", 110, IH), stop("k", 65, 35)]),
    ("six", [hiss("s", 130), vowel("i", 110, IH), stop("k", 60, 25), hiss("s", 150)]),
    ("pause", [pause(240)]),
    ("stop", [hiss("s", 140), stop("t", 55, 25), vowel("o", 220, AH), stop("p", 85, 45)]),
    ("pause", [pause(250)]),
]


class Noise:
    """Numbers from -1 to 1. The generator is the script's own, so that every Python draws the same numbers."""

    def __init__(self):
        self.state = 1

    def draw(self):
        self.state = (self.state * 1664525 + 1013904223) % 2**32
        return (self.state >> 8) / 2**23 - 1


class Resonator:
    def __init__(self):
        self.a = self.b = self.c = self.last = self.before = 0.0

    def tune(self, frequency, width):
        radius, turn = math.exp(-math.pi * width / RATE), 2 * math.pi * frequency / RATE
        self.a, self.b = 2 * radius * math.cos(turn), -radius * radius
        # Gain 1 at the resonance.
        self.c = (1 - radius) * math.sqrt(1 - 2 * radius * math.cos(2 * turn) + radius * radius)

    def ring(self, x):
        y = self.c * x + self.a * self.last + self.b * self.before
        self.before, self.last = self.last, y
        return y


def glottis(phase):
    """How fast the flow of air changes within a period. It stops suddenly at 0.56."""
    if phase < 0.4:
        return 0.4 * math.sin(math.pi * phase / 0.4)
    return -math.sin(math.pi / 2 * (phase - 0.4) / 0.16) if phase < 0.56 else 0.0


def make_voice():
    """The samples of the sentence, in a quiet room."""
    noise, mouth, teeth = Noise(), [Resonator() for _ in PARTS], [Resonator(), Resonator()]
    shape, phase, pitch, rested = UH, 0.0, 125.0, 0
    voiced = hissing = breath = burst = 0.0
    samples = []
    for kind, letter, length, more in (sound for _, sounds in SENTENCE for sound in sounds):
        total = length * RATE // 1000
        opens = more * RATE // 1000 if kind == "stop" else total
        if letter in NOISES:
            for resonator, place in zip(teeth, NOISES[letter]):
                resonator.tune(*place)
        if kind == "pause":
            rested = len(samples)
        for n in range(total):
            if n % 32 == 0:  # the mouth moves once a millisecond
                if kind == "vowel":
                    aims = [start + (end - start) * n / total for start, end in zip(*more)]
                    shape = [now + (aim - now) * 0.06 for now, aim in zip(shape, aims)]
                for k, resonator in enumerate(mouth):
                    resonator.tune(shape[k], 70 + 40 * k)
            # A burst is there at once and gone within milliseconds. All else swells and fades.
            burst = NOISES[letter][2] if n == opens else burst - burst / (0.003 * RATE)
            voiced += ((kind == "vowel") - voiced) / (0.008 * RATE)
            hissing += (NOISES["s"][2] * (kind == "hiss") - hissing) / (0.015 * RATE)
            breath += (0.015 * (n >= opens) - breath) / (0.010 * RATE)
            # The pitch falls from pause to pause.
            pitch += (132 - 25 * (len(samples) - rested) / RATE - pitch) / (0.03 * RATE)
            phase = (phase + pitch * (1 + 0.03 * noise.draw()) / RATE) % 1
            air = noise.draw()
            throat = voiced * (glottis(phase) + 0.02 * air * (phase < 0.56)) + breath * air
            rush = (hissing + burst) * air
            y = teeth[0].ring(rush) + 0.6 * teeth[1].ring(rush) + 0.1 * rush
            for part, resonator in zip(PARTS, mouth):
                y += part * resonator.ring(throat)
            samples.append(10000 * y + 2 * (noise.draw() + noise.draw()))
    return [max(-32768, min(32767, round(y))) for y in samples]


def timed():
    """When the sentence's words, letters and bursts are spoken, in milliseconds."""
    words, letters, bursts, now = [], [], [], 0
    for word, sounds in SENTENCE:
        start = now
        for kind, letter, length, more in sounds:
            if kind == "stop":
                bursts.append(now + more)
            # The letter of a stop stands at its burst, which is what one hears.
            letters.append((now + (more if kind == "stop" else length / 2), letter))
            now += length
        words.append((start, now, word))
    return words, letters, bursts


def sample_bytes(path):
    """The samples of a file, which is a WAV file if it says so at its start."""
    try:
        data = pathlib.Path(path).read_bytes()
        if data[:4] != b"RIFF":
            return data
        with wave.open(str(path)) as file:
            found = file.getnchannels(), 8 * file.getsampwidth(), file.getframerate()
            if found != (1, 16, RATE):
                fail(f"{path} has {found[0]} channels of {found[1]} bits at {found[2]} Hz, not 1 of 16 at {RATE}")
            return file.readframes(file.getnframes())
    except OSError as error:
        fail(f"cannot read {path}: {error.strerror}")
    except (EOFError, wave.Error) as error:
        fail(f"cannot read {path} as a WAV file: {str(error) or 'it is cut short'}")


def read_samples(path, start, end):
    """The samples of a stretch, and the frame that it starts with."""
    data = sample_bytes(path)
    if len(data) % 2:
        fail(f"{path} is not a list of 16-bit samples: it has an odd number of bytes")
    first = round(start * RATE / LINES)
    last = len(data) // 2 if end is None else round(end * RATE)
    samples = [sample for (sample,) in struct.iter_unpack("<h", data)][first * LINES:last]
    if len(samples) < 2 * LINES:
        fail(f"{path} has less than one window of {2 * LINES} samples there")
    return samples, first


# ---- its lines and its gains


def mdct(samples):
    """The lines of every whole window. A window of 640 samples is folded to 320 numbers, which a cosine
    transform (type 4) turns into lines."""
    half = LINES // 2
    window = [math.sin(math.pi * (n + 0.5) / (2 * LINES)) * math.sqrt(2 / LINES) for n in range(2 * LINES)]
    cosines = [math.cos(math.pi * t / (4 * LINES)) for t in range(8 * LINES)]
    rows = [[cosines[(2 * n + 1) * (2 * k + 1) % (8 * LINES)] for n in range(LINES)] for k in range(LINES)]
    for start in range(0, len(samples) - 2 * LINES + 1, LINES):
        x = list(map(operator.mul, window, samples[start:start + 2 * LINES]))
        folded = [-x[3 * half - 1 - n] - x[3 * half + n] for n in range(half)]
        folded += [x[n - half] - x[3 * half - 1 - n] for n in range(half, LINES)]
        # fsum rounds once, so that its result is every Python's.
        yield [math.fsum(map(operator.mul, row, folded)) for row in rows]


def build():
    """The program of examples/gains.c."""
    archive = pathlib.Path(os.environ.get("TNS_ARCHIVE", ROOT / "target/staticlib/libtns.a"))
    if not archive.is_file():
        fail(f"there is no archive {archive}: run `tools/build library`")
    program = ROOT / "target/draw_gains/gains"
    program.parent.mkdir(parents=True, exist_ok=True)
    command = [*shlex.split(os.environ.get("CC", "cc")), "-std=c99", "-Wall", "-Wextra", f"-I{ROOT / 'include'}"]
    command += ["-o", str(program), str(ROOT / "examples/gains.c"), str(archive)]
    try:
        failed = subprocess.run(command).returncode
    except OSError as error:
        fail(f"cannot run {command[0]}: {error.strerror}")
    if failed:
        fail("cannot build examples/gains.c")
    # An archive from before the gains links too, but tells nothing.
    if subprocess.run([program], stdout=subprocess.DEVNULL).returncode:
        fail(f"{archive} does not tell the gains as it must: run `tools/build library`")
    return program


def ask(program, frames):
    """For each filter the gain and the state of every frame."""
    data = b"".join(struct.pack(f"<{LINES}f", *lines) for lines in frames)
    ran = subprocess.run([program, "-", str(BITS)], input=data, stdout=subprocess.PIPE)
    if ran.returncode:
        fail("examples/gains.c failed")
    filters = ([], [])
    for row in csv.DictReader(ran.stdout.decode().splitlines()):
        state = "off" if row["on"] == "0" else "damped" if float(row["damping"]) < 1 else "on"
        filters[int(row["filter"])].append((float(row["gain"]), state))
    return filters


def count(points, state):
    return sum(found == state for _, found in points)


def check(filters, bursts):
    """Whether the script's own voice shows what the picture is for."""
    for name, points in zip(NAMES, filters):
        for state in STATES:
            if not count(points, state):
                fail(f"{name}: no frame is {STATES[state]}")
        for burst in bursts:
            # The two frames whose windows have the burst's start; a frame comes every 10 ms.
            if all(state == "off" for _, state in points[burst // 10 - 1:burst // 10 + 1]):
                fail(f"{name}: the burst at {burst} ms leaves it off")


# ---- the picture

NAMES = ("first filter (0)", "second filter (1)")
BANDS = ("lines 12 to 159, 0.6 to 8 kHz", "lines 160 to 319, 8 to 16 kHz")
STATES = {"on": "on", "damped": "on and damped", "off": "off"}
PAPER = "#fdfdfb"
# The colours can be told apart by colour-blind readers, the shapes without colours. The page may be dark,
# so the picture brings its own paper.
STYLE = f"""<style>
text {{ font: 15px sans-serif; fill: #222 }}
.head {{ font-size: 20px; font-weight: bold }}
.bold {{ font-weight: bold }}
.quiet {{ fill: #666 }}
.zone {{ fill: #8a4500 }}
.note {{ font-size: 14px; fill: #444 }}
.grid {{ stroke: #e2e2e2; fill: none }}
.axis {{ stroke: #444; fill: none }}
.wave {{ stroke: #444; fill: none }}
.burst {{ stroke: #777; stroke-dasharray: 2 3; fill: none }}
.shade {{ fill: #fbe6c8 }}
.strip {{ fill: #ececea }}
.threshold {{ stroke: #000; stroke-width: 1.5; fill: none }}
.run {{ stroke: #bdbdbd; fill: none; stroke-linejoin: round }}
.off {{ stroke: #666; fill: {PAPER} }}
.damped {{ fill: #d55e00 }}
.on {{ fill: #0072b2 }}
</style>
<rect width="100%" height="100%" fill="{PAPER}"/>"""
WIDTH, HEIGHT = 1000, 896
LEFT, RIGHT = 66, 866
VOICE_TOP, VOICE_TALL, SPOKEN = 116, 88, 56  # the last is the height of letters and words
PANELS, TALL = (312, 570), 190  # their tops; their height
STRIP = 14
LEAST, MOST = 1, 20  # the gains that a panel has room for
TICKS = (1, 1.5, 2, 3, 5, 10, 20)


def text(x, y, words, anchor="start", kind=""):
    kind = f' class="{kind}"' if kind else ""
    anchor = "" if anchor == "start" else f' text-anchor="{anchor}"'
    return f'<text x="{x:.1f}" y="{y:.1f}"{anchor}{kind}>{escape(words)}</text>'


def headed(x, y, head, words):
    return f'<text x="{x}" y="{y}"><tspan class="bold">{head}</tspan>{escape(words)}</text>'


def mark(shape, x, y, size):
    """A disc, a diamond, an open circle, or an arrow head for a gain that leaves the panel."""
    if shape == "on":
        return f'<circle class="on" cx="{x:.1f}" cy="{y:.1f}" r="{size + 0.9:.1f}"/>'
    if shape == "off":
        return f'<circle class="off" cx="{x:.1f}" cy="{y:.1f}" r="{size:.1f}"/>'
    if shape == "damped":
        d = size + 1.4
        return f'<path class="damped" d="M{x:.1f} {y - d:.1f}l{d:.1f} {d:.1f}l-{d:.1f} {d:.1f}l-{d:.1f} -{d:.1f}z"/>'
    return f'<path class="on" d="M{x:.1f} {y - 4:.1f}l5 9h-10z"/>'


def down(top, gain):
    """Where a gain stands in the panel with this top."""
    gain = max(LEAST, min(MOST, gain))
    return top + TALL * math.log(MOST / gain) / math.log(MOST / LEAST)


def counts(points):
    """Those that are on have the damped ones among them."""
    on, damped, off = (count(points, state) for state in STATES)
    return f"{on + damped} on ({damped} damped), {off} off"


class Drawing:
    def __init__(self, samples, first, filters, spoken):
        self.samples, self.first, self.filters = samples, first, filters
        self.words, self.letters, self.bursts = spoken
        self.start, self.length = first * LINES / RATE, len(samples) / RATE
        self.step = (RIGHT - LEFT) * LINES / len(samples)  # from frame to frame
        self.size = max(1.3, min(2.2, self.step))

    def across(self, seconds):
        return LEFT + (seconds - self.start) * (RIGHT - LEFT) / self.length

    def middle(self, frame):
        """Where a frame stands: at the middle of its window."""
        return self.across((frame + 1) * LINES / RATE)

    def ticks(self):
        """Seconds to write at the axis."""
        step = next((s for s in (0.05, 0.1, 0.2, 0.5, 1, 2, 5, 10, 30, 60) if self.length / s <= 12), 300)
        k = math.ceil(self.start / step - 1e-6)
        while k * step <= self.start + self.length:
            yield k * step
            k += 1

    def legend(self):
        out, x = [], LEFT
        shapes = list(STATES.items())
        if any(gain > MOST for points in self.filters for gain, _ in points):
            shapes.append(("over", f"on, gain over {MOST}"))
        for shape, words in shapes:
            out += [mark(shape, x + 6, 62, 3.2), text(x + 18, 67, words)]
            x += 54 + 8.5 * len(words)
        if self.bursts:
            out += [f'<path class="burst" d="M{x + 6:.1f} 52v20"/>', text(x + 16, 67, "burst of p, t or k")]
        return out

    def marked(self, top, tall):
        """A line at each burst."""
        return [f'<path class="burst" d="M{self.across(t / 1000):.1f} {top}v{tall}"/>' for t in self.bursts]

    def voice(self):
        """The waveform, one stroke for each pixel, and what is spoken."""
        columns, total = RIGHT - LEFT, len(self.samples)
        tall = VOICE_TALL if self.words else VOICE_TALL + SPOKEN
        middle, scale = VOICE_TOP + tall / 2, tall / 2 / max(1, max(map(abs, self.samples)))
        path = []
        for k in range(columns):
            part = self.samples[total * k // columns:total * (k + 1) // columns + 1]
            above, below = middle - max(part) * scale, middle - min(part) * scale
            path.append(f"M{LEFT + k}.5 {above - 0.4:.1f}V{below + 0.4:.1f}")
        said = " ".join("," if word == "pause" else word for *_, word in self.words).strip(" ,").replace(" ,", ",")
        out = [headed(LEFT, VOICE_TOP - 10, "The voice", f": \u201c{said}\u201d" if said else "")]
        out += self.marked(VOICE_TOP, tall + 6)
        out.append(f'<path class="wave" d="{"".join(path)}"/>')
        y = VOICE_TOP + tall
        for t, letter in self.letters:
            out.append(text(self.across(t / 1000), y + 22, letter, "middle", "bold"))
        for start, end, word in self.words:
            a, b = self.across(start / 1000) + 2, self.across(end / 1000) - 2
            if word != "pause":
                out.append(f'<path class="axis" d="M{a:.1f} {y + 30}v5H{b:.1f}v-5"/>')
            out.append(text((a + b) / 2, y + 51, word, "middle", "quiet" if word == "pause" else ""))
        return out

    def panel(self, top, name, band, points):
        bottom, strip = top + TALL, top + TALL + 9
        low, high = down(top, THRESHOLD), down(top, UNDAMPED)
        out = [
            headed(LEFT, top - 12, name.capitalize(), f": {band}"),
            text(RIGHT, top - 12, counts(points), "end"),
            f'<rect class="shade" x="{LEFT}" y="{high:.1f}" width="{RIGHT - LEFT}" height="{low - high:.1f}"/>',
            f'<text transform="translate(20 {top + TALL // 2}) rotate(-90)" text-anchor="middle">'
            "gain, log scale</text>",
        ]
        for gain in TICKS:
            y = down(top, gain)
            out += [f'<path class="grid" d="M{LEFT} {y:.1f}H{RIGHT}"/>', text(LEFT - 9, y + 5, f"{gain:g}", "end")]
        out += [f'<path class="grid" d="M{self.across(seconds):.1f} {top}v{TALL}"/>' for seconds in self.ticks()]
        out += self.marked(top, TALL)
        out += [
            f'<path class="axis" d="M{LEFT} {top}V{bottom}H{RIGHT}"/>',
            f'<path class="threshold" d="M{LEFT} {low:.1f}H{RIGHT + 8}"/>',
            text(RIGHT + 12, low + 11, f"threshold {THRESHOLD}", kind="bold"),
            text(RIGHT + 12, high - 11, "damped at", kind="zone"),
            text(RIGHT + 12, high + 6, "low bit rates", kind="zone"),
        ]
        # Frames that are on stand before those that are off.
        places = [(self.middle(self.first + n), down(top, gain)) for n, (gain, _) in enumerate(points)]
        out.append(f'<path class="run" d="M{"L".join(f"{x:.1f} {y:.1f}" for x, y in places)}"/>')
        for state in reversed(list(STATES)):
            for (x, y), (gain, found) in zip(places, points):
                if found == state:
                    out.append(mark("over" if gain > MOST else state, x, y, self.size))
        out.append(f'<rect class="strip" x="{LEFT}" y="{strip}" width="{RIGHT - LEFT}" height="{STRIP}"/>')
        for (x, _), (_, state) in zip(places, points):
            if state != "off":
                tall = STRIP if state == "on" else STRIP // 2
                out.append(
                    f'<rect class="{state}" x="{x - self.step / 2:.1f}" y="{strip + STRIP - tall}" '
                    f'width="{self.step:.1f}" height="{tall}"/>'
                )
        out += [text(LEFT - 9, strip + 12, "on", "end"), text(RIGHT + 12, strip + 12, "short: damped")]
        return out

    def svg(self, title, says, notes):
        foot = PANELS[-1] + TALL + STRIP + 9
        out = [
            f'<svg xmlns="http://www.w3.org/2000/svg" width="{WIDTH}" height="{HEIGHT}" '
            f'viewBox="0 0 {WIDTH} {HEIGHT}" role="img" aria-labelledby="title desc">',
            f'<title id="title">{escape(title)}</title>',
            f'<desc id="desc">{escape(says)}</desc>',
            STYLE,
            text(LEFT, 34, title, kind="head"),
            *self.legend(),
            *self.voice(),
        ]
        for top, name, band, points in zip(PANELS, NAMES, BANDS, self.filters):
            out += self.panel(top, name, band, points)
        for seconds in self.ticks():
            out.append(text(self.across(seconds), foot + 22, f"{seconds:g}", "middle"))
            frame = round(seconds * RATE / LINES)
            if self.first <= frame < self.first + len(self.filters[0]):
                out.append(text(self.middle(frame), foot + 43, str(frame), "middle"))
        out += [text(RIGHT + 22, foot + 22, "seconds"), text(RIGHT + 22, foot + 43, "frame")]
        out += [text(LEFT, foot + 74 + 20 * n, line, kind="note") for n, line in enumerate(notes)]
        return "\n".join(out) + "\n</svg>\n"


def seconds(word):
    number = float(word)
    if not 0 <= number < 1e6:
        raise ValueError
    return number


def main():
    words = argparse.ArgumentParser(description="Draws the gain of each filter over the frames of a voice.")
    words.add_argument(
        "--samples",
        metavar="FILE",
        help="a recorded voice: a WAV file or bare samples, lowest byte first; 16 bits, one channel, 32 kHz",
    )
    words.add_argument("--from", dest="start", metavar="SECONDS", type=seconds, help="where its stretch starts")
    words.add_argument("--to", dest="end", metavar="SECONDS", type=seconds, help="where its stretch ends")
    words.add_argument("--output", metavar="PICTURE", help="instead of docs/gains.svg; needed with --samples")
    asked = words.parse_args()
    if asked.samples is None and (asked.start, asked.end) != (None, None):
        words.error("--from and --to need --samples")
    # The repository's picture is that of the script's own voice.
    if asked.samples is not None and asked.output is None:
        words.error("--samples needs --output")
    output = asked.output or PICTURE

    program = build()
    if asked.samples is None:
        samples, first, spoken = make_voice(), 0, timed()
        title = "Bursts switch the filters on: the gain over the frames of a voice"
        source = "a voice that the script makes"
    else:
        samples, first = read_samples(asked.samples, asked.start or 0, asked.end)
        spoken = ((), (), ())
        title = "The gain over the frames of a recorded voice"
        source = pathlib.Path(asked.samples).name
    filters = ask(program, mdct(samples))
    if asked.samples is None:
        check(filters, spoken[2])
    found = f"{len(filters[0])} frames; " + "; ".join(f"{n}: {counts(points)}" for n, points in zip(NAMES, filters))
    says = (
        f"The gain of both filters for each frame of 10 ms, with the threshold {THRESHOLD}, below the waveform of "
        f"the voice. {found}."
    )
    notes = [
        f"Drawn by docs/draw_gains.py from {source}. A dot is a frame, at the middle of its window.",
        f"Plain MDCT: sine window of 20 ms, {LINES} lines every 10 ms. {BITS} bits a frame, "
        "a low bit rate (weighting 1).",
    ]
    picture = Drawing(samples, first, filters, spoken).svg(title, says, notes)
    try:
        pathlib.Path(output).write_text(picture, encoding="utf-8")
    except OSError as error:
        fail(f"cannot write {output}: {error.strerror}")
    print(found)


if __name__ == "__main__":
    main()
