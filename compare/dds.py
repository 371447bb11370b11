#!/usr/bin/env python3
"""dds.py PICTURE WORK: DDS files that we write in other software's readers, and files that other software writes in our reader.

PICTURE is the command that runs examples/picture, in one argument: `PICTURE IN.pgm OUT.dds [signed]` writes a file, `PICTURE IN.dds OUT.pgm`
reads one. WORK is a folder for the files, which stay there. What a file has to hold, what its bytes mean and which number a reader has to
refuse it with is worked out here from documents 01 and 02, in exact fractions. Nothing else of the library is asked."""
import os
import random
import re
import shlex
import shutil
import struct
import subprocess
import sys
from collections import Counter, namedtuple
from fractions import Fraction
from functools import lru_cache
from math import ceil, floor

from dds_rules import header, reading
from refusals import Refused

FORMATS = ["BC4U", "BC4S", "DX10 80", "DX10 81"]
checks = differences = 0


def check(differs, text):
    global checks, differences
    checks += 1
    differences += bool(differs)
    print(("DIFFERS: " if differs else "") + text, flush=True)


# ---- eight bytes: a value is a fraction from 0 to 1


def in_order(byte, signed):
    return byte - 256 if signed and byte >= 128 else byte


def is_six(c0, c1, signed):
    return in_order(c0, signed) > in_order(c1, signed)


def end(byte, signed):
    return Fraction(max(in_order(byte, True), -127) + 127, 254) if signed else Fraction(byte, 255)


@lru_cache(None)
def value(c0, c1, index, signed):
    x, y = end(c0, signed), end(c1, signed)
    if index < 2:
        return (x, y)[index]
    if is_six(c0, c1, signed):
        return ((8 - index) * x + (index - 1) * y) / 7
    return ((6 - index) * x + (index - 1) * y) / 5 if index < 6 else Fraction(index - 6)


def block(c0, c1, indexes):
    return bytes([c0, c1]) + sum(k << 3 * i for i, k in enumerate(indexes)).to_bytes(6, "little")


def spread(body, width, height):
    """For each pixel, row by row, its two endpoint bytes and its index, in one number."""
    pixels = [0] * (width * height)
    for at in range(0, len(body), 8):
        row, column = divmod(at // 8, width // 4)
        both, indexes = body[at] << 11 | body[at + 1] << 3, int.from_bytes(body[at + 2 : at + 8], "little")
        for i in range(16):
            pixels[(4 * row + i // 4) * width + 4 * column + i % 4] = both | indexes >> 3 * i & 7
    return pixels


def parted(pixel):
    return pixel >> 11, pixel >> 3 & 255, pixel & 7


# ---- DDS files


def titled(file, four):
    return file[:84] + four + file[88:]


class Dds:
    """A file in WORK that is not to be refused."""

    def __init__(self, name, form):
        self.name, self.form, self.path = name, form, at_work(name)
        file = load(self.path)
        self.width, self.height, self.signed, self.start = reading(file)
        self.pixels = spread(file[self.start :], self.width, self.height)


# ---- running and files


def at_work(name):
    return os.path.join(work, name)


def load(path):
    """The bytes of a file, none if there is no such file."""
    if not os.path.exists(path):
        return b""
    with open(path, "rb") as handle:
        return handle.read()


def save(path, data):
    with open(path, "wb") as handle:
        handle.write(data)


def fresh(path):
    if os.path.exists(path):
        os.remove(path)
    return path


def run(*command, given=b"", **changed):
    environment = dict(os.environ, **changed)
    return subprocess.run(command, input=given, stdout=subprocess.PIPE, stderr=subprocess.PIPE, env=environment, timeout=1800)


def said(pattern, *command):
    """What a program says of itself, or None where it is missing."""
    found = shutil.which(command[0]) and re.search(pattern, run(*command).stdout.decode())
    return found[1] if found else None


def drawn(width, height, kind):
    return bytes(kind(x, y) for y in range(height) for x in range(width))


def pgm(width, height, pixels):
    return b"P5\n%d %d\n255\n" % (width, height) + pixels


def of_pgm(path):
    """Width, height and pixels, all 0 and none if there is no such file."""
    file = load(path)
    head = re.match(rb"P5\s(?:#.*\n)*(\d+)\s+(\d+)\s+255\s", file)
    return (int(head[1]), int(head[2]), file[head.end() :]) if head else (0, 0, b"")


def grey(raw, count):
    """Of pixels of one, three or four bytes the first, if the colours are alike."""
    step = max(len(raw) // count, 1)
    colours = {raw[colour::step] for colour in range(min(step, 3))}
    return colours.pop() if len(colours) == 1 else b""


# ---- readers: each is given files and answers with their pixels, a byte each, or none

LIBRARY = """
import sys, OpenImageIO as o
if len(sys.argv) < 2: sys.exit(print(o.VERSION_STRING))
picture = o.ImageBuf(sys.argv[1])
s = picture.spec()
if s.format != o.UINT8 or s.nchannels != 1: sys.exit(1)
sys.stdout.buffer.write(bytes(round(255 * picture.getpixel(x, y)[0]) for y in range(s.height) for x in range(s.width)))
"""


@lru_cache(None)
def library_python():
    """Debian's package is for Debian's Python, which need not be this one."""
    return next((p for p in [sys.executable, "/usr/bin/python3"] if said("(.+)", p, "-c", LIBRARY)), "")


def by_library(files):
    return [run(library_python(), "-c", LIBRARY, file.path).stdout for file in files]


def by_ffmpeg(files):
    """In the layout that it has them in, so that nothing is converted."""
    raw = lambda file: run("ffmpeg", "-v", "error", "-i", file.path, "-f", "rawvideo", "-").stdout
    return [grey(raw(file), len(file.pixels)) for file in files]


def gimp(lines):
    """Runs lines of its Scheme; one that fails does not stop the others."""
    opening = """
(define (opened in) (car (gimp-file-load RUN-NONINTERACTIVE in in)))
(define (layer image) (car (gimp-image-get-active-drawable image)))
"""
    script = "\n".join([opening, *lines, "(gimp-quit 0)\n"])
    run(*"gimp --new-instance --no-interface --no-data --no-fonts -b -".split(), given=script.encode(), HOME=work)


def by_gimp(files):
    outs = [fresh(file.path + ".gimp.pgm") for file in files]
    show = '(let ((i (opened "{0}"))) (file-pgm-save RUN-NONINTERACTIVE i (layer i) "{1}" "{1}" 1) (gimp-image-delete i))'
    gimp(show.format(file.path, out) for file, out in zip(files, outs))
    return [of_pgm(out)[2] for out in outs]


def by_nvdecompress(files):
    """Under the name ATI1, the only one that it knows: of a file by another name it makes a picture of something else."""
    answers = []
    for file in files:
        out = fresh(file.path + ".ati1.tga")
        save(file.path + ".ati1.dds", titled(load(file.path), b"ATI1"))
        run("nvdecompress", file.path + ".ati1.dds")
        answers.append(grey(load(out)[18:], len(file.pixels)))
    return answers


def by_picture(files):
    outs = [fresh(file.path + ".ours.pgm") for file in files]
    for file, out in zip(files, outs):
        run(*picture, file.path, out)
    return [of_pgm(out)[2] for out in outs]


# ---- what each makes of a value v: its exact place on the reader's scale, and the bytes that it may become


def library_level(c0, c1, index, signed):
    """floor(255 v + 1/7), in four-value blocks floor(255 v + 1/5)"""
    x = 255 * value(c0, c1, index, signed)
    return x, [floor(x + Fraction(1, 7 if is_six(c0, c1, signed) else 5))]


def floor_level(c0, c1, index, signed):
    """floor(255 v)"""
    x = 255 * value(c0, c1, index, signed)
    return x, [floor(x)]


def ffmpeg_level(c0, c1, index, signed):
    """floor(255 v); of signed files floor(254 v + 1), but index 6 of four-value blocks as 0"""
    if not signed:
        return floor_level(c0, c1, index, False)
    x = 254 * value(c0, c1, index, True) + 1
    return x, [0 if index == 6 and not is_six(c0, c1, True) else floor(x)]


def unsigned_level(c0, c1, index, _):
    """floor(255 v); of signed files too, where v is what the bytes mean in an unsigned one"""
    return floor_level(c0, c1, index, False)


def nearest_level(c0, c1, index, signed):
    """the byte nearest to 255 v; half-way between two, as signed 00 is, either"""
    x = 255 * value(c0, c1, index, signed)
    return x, [ceil(x - Fraction(1, 2)), floor(x + Fraction(1, 2))]


def library_version():
    return said("(.+)", library_python(), "-c", LIBRARY)


def ffmpeg_version():
    return said(r"version (\S+)", "ffmpeg", "-version")


def gimp_version():
    return said(r"version (\S+)", "gimp", "--version")


def nvtt_version():
    return said("Texture Tools ([0-9.]+)", "nvcompress")


Reader = namedtuple("Reader", "name kind package version opens read level")
READERS = [
    Reader("OpenImageIO", "library", "python3-openimageio", library_version, ["BC4U", "DX10 80"], by_library, library_level),
    Reader("ffmpeg", "command line", "ffmpeg", ffmpeg_version, FORMATS, by_ffmpeg, ffmpeg_level),
    Reader("GIMP", "program", "gimp", gimp_version, FORMATS, by_gimp, unsigned_level),
    Reader("nvdecompress", "only under the name ATI1", "libnvtt-bin", nvtt_version, ["BC4U"], by_nvdecompress, floor_level),
]
OURS = Reader("picture", "ours", None, None, FORMATS, by_picture, nearest_level)


def compare(reader, file, answer):
    """A line on all pixels. For other readers signed pairs with 80, which they are known to take otherwise, are told apart and not counted."""
    if len(answer) != len(file.pixels):
        return check(True, f"{reader.name}, {file.name}: does not open")
    seen = Counter(zip(file.pixels, answer))
    known = {pair: n for pair, n in seen.items() if file.signed and reader != OURS and 0x80 in parted(pair[0])[:2]}
    wrong, text, examples = weighed(reader, file, {pair: n for pair, n in seen.items() if pair not in known})
    check(wrong, text)
    for pixel, got, x in sorted(examples)[:5]:
        print("   {:02x} {:02x} index {}:".format(*parted(pixel)), f"{got}, by the rules {float(x):.4f}")
    if known:
        print("known:", weighed(reader, file, known)[1] + "; pairs with 80")
    for c0, c1 in [(0x81, 0x80), (0x80, 0x81)]:
        row = sorted((pixel & 7, got) for pixel, got in known if parted(pixel)[:2] == (c0, c1))
        if row:
            print(f"known: {reader.name}, {file.name}: {c0:02x} {c1:02x}, indexes 0 to 7:", *[got for _, got in row])


def weighed(reader, file, seen):
    wrong, farthest, examples = 0, Fraction(0), []
    for (pixel, got), count in seen.items():
        x, allowed = reader.level(*parted(pixel), file.signed)
        farthest = max(farthest, abs(got - x))
        if got not in allowed:
            wrong += count
            examples.append((pixel, got, x))
    name = file.name + ", taken for unsigned" * (file.signed and reader.level == unsigned_level)
    text = f"{reader.name}, {name}: {sum(seen.values()):,} values, {wrong:,} differ, at most {farthest} of a level from the exact value"
    return wrong, text, examples


# ---- files of ours

chance = random.Random(1)


def gradient(x, y):
    return abs((5 * x + 3 * y) % 510 - 255)


def noise(x, y):
    return chance.randrange(256)


def ends(x, y):
    return 255 * chance.randrange(2)


def ends_and_middle(x, y):
    return chance.choice([0, 255, 120, 121, 122, 123, 124, 125])


def steps(x, y):
    return 17 * (x // 4 % 4 + 4 * (y // 4 % 4))


def mixed(x, y):
    return [gradient, noise, ends, ends_and_middle, steps][(x // 64 + y // 64) % 5](x, y)


# name, width, height, kind, and how many levels a value may be from the picture that was given
PICTURES = [
    ("flat_0", 4, 4, lambda x, y: 0, 0),
    ("flat_255", 4, 4, lambda x, y: 255, 0),
    ("ends", 8, 4, ends, 0),
    ("gradient", 12, 8, gradient, 3),
    ("noise", 64, 48, noise, 255),
    ("mixed", 1024, 1024, mixed, 255),
]


def written():
    """The files that PICTURE makes, with their headers checked, and that the blocks show what was given."""
    files = []
    for name, width, height, kind, limit in PICTURES:
        given = drawn(width, height, kind)
        save(at_work(name + ".pgm"), pgm(width, height, given))
        for form in ["BC4U", "BC4S"]:
            path = fresh(at_work(f"{name}.{form}.dds"))
            errors = run(*picture, at_work(name + ".pgm"), path, *["signed"] * (form == "BC4S")).stderr.decode().strip()
            got, want = load(path), header(width, height, form)
            wrong = [at for at in range(128) if got[at : at + 1] != want[at : at + 1]]
            differs = wrong or len(got) != 128 + width * height // 2
            check(differs, f"{name}.{form}.dds: {len(got):,} bytes, header bytes that differ: {wrong or 'none'} {errors}".rstrip())
            if not differs:
                files.append(Dds(f"{name}.{form}.dds", form))
                shown(files[-1], got[128:], given, limit)
    return files


def shown(file, body, given, limit):
    four = sum(not is_six(body[at], body[at + 1], file.signed) for at in range(0, len(body), 8))
    far = max(abs(255 * value(*parted(pixel), file.signed) - level) for pixel, level in set(zip(file.pixels, given)))
    check(far > limit, f"{file.name}: blocks {len(body) // 8:,}, four-value {four:,}, at most {float(far):.2f} levels from the picture")


def built():
    """Every pair of endpoint bytes, with each index at two places; and some of the blocks in a small file, by all four names."""
    body = b"".join(block(c0, c1, chance.sample([*range(8)] * 2, 16)) for c0 in range(256) for c1 in range(256))
    some = b"".join(body[at : at + 8] for at in chance.sample(range(0, len(body), 8), 64 * 48 // 16))
    files = [(f"every_pair.{form}.dds", 1024, 1024, form, body) for form in FORMATS[:2]]
    files += [(f"some_pairs.{form.replace(' ', '_')}.dds", 64, 48, form, some) for form in FORMATS]
    for name, width, height, form, blocks in files:
        save(at_work(name), header(width, height, form) + blocks)
        yield Dds(name, form)


def described(file):
    """What nvddsinfo says of a header."""
    size = file.width * file.height // 2
    lines = [f"Height: {file.height}", f"Width: {file.width}", "Depth: 0", f"Linear size: {size}", "Mipmap count: 1", f"FourCC: '{file.form}'"]
    text = run("nvddsinfo", file.path).stdout.decode()
    absent = [line for line in lines if not re.search(rf"^\s*{line}$", text, re.M)]
    check(absent, f"nvddsinfo, {file.name}: {len(lines)} fields, {len(absent)} differ")


# ---- files of others: their names, with the bytes of each, none if it was not written


def tga(width, height, pixels):
    return struct.pack("<2xB9x2H2B", 2, width, height, 32, 0x28) + b"".join(bytes([p] * 4) for p in pixels)


def of_nvcompress():
    for name, width, height, words in [
        ("nvcompress", 64, 48, ["-nomips"]),
        ("nvcompress_mips", 64, 48, []),
        ("nvcompress_6_by_8", 6, 8, ["-nomips"]),
    ]:
        given, out = at_work(name + ".tga"), fresh(at_work(name + ".dds"))
        save(given, tga(width, height, drawn(width, height, ends_and_middle)))
        run("nvcompress", *words, "-bc4", given, out)
        yield name, load(out)


FLAT, CUBE, ARRAY = 0, 1, 3


def of_gimp():
    """A single picture gets the name ATI1, an array DX10, even one of a single picture."""
    faces = [f"{sign} {axis}" for axis in "xyz" for sign in ("positive", "negative")]
    cases = [
        ("gimp", 64, 48, 0, FLAT, ["a"]),
        ("gimp_mips", 64, 48, 1, FLAT, ["a"]),
        ("gimp_cube", 16, 16, 0, CUBE, faces),
        ("gimp_array", 64, 48, 0, ARRAY, ["a"]),
        ("gimp_array_1024_by_4", 1024, 4, 0, ARRAY, ["a"]),
        ("gimp_array_1028_by_4", 1028, 4, 0, ARRAY, ["a"]),
        ("gimp_array_8_by_6", 8, 6, 0, ARRAY, ["a"]),
        ("gimp_array_mips", 64, 48, 1, ARRAY, ["a"]),
        ("gimp_array_of_2", 64, 48, 0, ARRAY, ["a", "b"]),
    ]
    lines = [
        """
(define (add image names)
  (if (pair? names)
    (let ((new (car (gimp-layer-new-from-drawable (layer image) image))))
      (gimp-image-insert-layer image new 0 -1)
      (gimp-item-set-name new (car names))
      (add image (cdr names)))))
(define (keep in out mips type names)
  (let ((image (opened in)))
    (gimp-item-set-name (layer image) (car names))
    (add image (cdr names))
    (file-dds-save RUN-NONINTERACTIVE image (layer image) out out 5 mips type 0 -1 0 0 0 0 2.2 0 0 0.5)
    (gimp-image-delete image)))
"""
    ]
    for name, width, height, mips, kind, layers in cases:
        given, out = at_work(name + ".pgm"), fresh(at_work(name + ".dds"))
        save(given, pgm(width, height, drawn(width, height, noise)))
        quoted = " ".join(f'"{layer}"' for layer in layers)
        lines.append(f'(keep "{given}" "{out}" {mips} {kind} (list {quoted}))')
    gimp(lines)
    return [(name, load(at_work(name + ".dds"))) for name, *_ in cases]


def changed(others):
    """Files of others under names that we read, and one of them cut and changed, so that each refusal is met."""
    for name, file in others.items():
        if file[84:88] == b"ATI1":
            yield name + ".as_BC4U", titled(file, b"BC4U")
            yield name + ".as_BC4S", titled(file, b"BC4S")
    file = others.get("gimp_array")
    if file:
        for length in [127, 128, 147, 148, len(file) - 1]:
            yield f"gimp_array.first_{length}", file[:length]
        yield "gimp_array.one_more", file + b"\0"
        for at, byte in [(3, 0), (4, 125), (12, 50), (16, 0), (24, 2), (113, 4), (128, 81), (128, 82), (140, 0)]:
            yield f"gimp_array.{byte}_at_{at}", file[:at] + bytes([byte]) + file[at + 1 :]


def answered(name, file):
    """What PICTURE answers to a file, beside what the rules predict. The latter is handed back in a word or two."""
    if not file:
        check(True, f"{name}: not written")
        return "none"
    predicted = reading(file)
    path = at_work(name + ".dds")
    save(path, file)
    out = fresh(path + ".ours.pgm")
    done = run(*picture, path, out)
    errors = done.stderr.decode().strip().replace(work + os.sep, "")
    if isinstance(predicted, Refused):
        number = re.search(r": refused (\d+)\b", errors)
        agree = done.returncode == 1 and number and int(number[1]) == predicted.number
        check(not agree, f"{name}: predicted refusal {predicted.number}; {errors or 'read'}")
        return f"refusal {predicted.number}"
    width, height, signed, start = predicted
    got_width, got_height, answer = of_pgm(out)
    form = "signed" if signed else "unsigned"
    text = f"{name}: predicted {width} by {height}, {form}, blocks from {start}; {errors or f'read {got_width} by {got_height}'}"
    check((got_width, got_height) != (width, height), text)
    compare(OURS, Dds(name + ".dds", form), answer)
    return "read"


WRITERS = [("nvcompress", "libnvtt-bin", nvtt_version, of_nvcompress), ("GIMP", "gimp", gimp_version, of_gimp)]


# ---- all of it


def in_readers(files):
    """Our files and those built here in each reader that there is; the kinds of readers, and which are missing."""
    kinds, missing = [], []
    for reader in READERS:
        version = reader.version()
        if not version:
            missing.append(f"reader {reader.name} (package {reader.package})")
            continue
        kinds.append(reader.kind)
        print(f"reader: {reader.name} {version}, {reader.kind}; shows v as {reader.level.__doc__}")
        opens = [file for file in files if file.form in reader.opens]
        for file, answer in zip(opens, reader.read(opens)):
            compare(reader, file, answer)
        for file in files:
            if file.name.startswith("some_pairs") and file.form not in reader.opens and reader.read != by_nvdecompress:
                print(f"known: {reader.name}, {file.name}:", "opens, not compared" if reader.read([file])[0] else "does not open")
    return kinds, missing


def of_writers():
    others, missing = {}, []
    for name, package, version, of in WRITERS:
        if version():
            print(f"writer: {name} {version()}")
            others.update(of())
        else:
            missing.append(f"writer {name} (package {package})")
    return others, missing


def main():
    files = written()
    if shutil.which("nvddsinfo"):
        for file in files:
            described(file)
    files += built()
    kinds, missing = in_readers(files)
    print(f"reader: ours; shows v as {OURS.level.__doc__}")
    for file, answer in zip(files, by_picture(files)):
        compare(OURS, file, answer)

    others, absent = of_writers()
    answers = [answered(name, file) for name, file in [*others.items(), *changed(others)]]
    print("predicted:", ", ".join(f"{answer} ({count} files)" for answer, count in sorted(Counter(answers).items())) or "nothing")

    missing += absent
    print("missing:", ", ".join(missing) or "none")
    enough = "library" in kinds and "command line" in kinds
    if not enough:
        print("a library and a command line tool have to take part as readers")
    print(f"{checks} checks, {differences} differ, {len(missing)} tools missing")
    sys.exit(1 if differences or not enough else 0)


picture, work = shlex.split(sys.argv[1]), os.path.abspath(sys.argv[2])
os.makedirs(work, exist_ok=True)
main()
