"""Loops of several kinds: what we write, mutagen, TagLib and ffmpeg read; what mutagen, TagLib, mp3gain and ffmpeg write, we read; all of it is undone.
The sound moves as mp3gain moves it, that of cut and damaged copies too.

usage: peers.py FOLDER LOOP LOOP_MP3

LOOP and LOOP_MP3 are the bindings' examples `loop`, which walks the frames itself, and `loop_mp3`, by the calls on the sound, built.
"""

import json
import math
import os
import random
import shutil
import struct
import subprocess
import sys
import wave

import mutagen.apev2
import taglib

work, LOOP, LOOP_MP3 = sys.argv[1:]
loop = LOOP  # the example that is run
checks = failed = 0


def check(good, what):
    global checks, failed
    checks += 1
    if not good:
        failed += 1
        print(f"peers: {os.path.basename(loop)}:", what)


def run(*words):
    return subprocess.run(words, stdout=subprocess.PIPE, stderr=subprocess.PIPE, text=True)


def read(path):
    with open(path, "rb") as f:
        return f.read()


def write(path, data):
    with open(path, "wb") as f:
        f.write(data)


def listed(path):
    """The items that our listing gives, keys in upper case."""
    lines = run(loop, "list", path).stdout.splitlines()
    return {k.upper(): v for k, v in (line.split("=", 1) for line in lines[1:])}


def by_mutagen(path):
    return {k.upper(): str(v) for k, v in mutagen.apev2.APEv2(path).items()}


def by_taglib(path):
    """TagLib names the items of an APE tag by their keys."""
    song = taglib.File(path)
    tags = {k.upper(): v[0] for k, v in song.tags.items()}
    song.close()
    return tags


def by_ffmpeg(path):
    """ffmpeg looks for such a tag in WavPack files, not in MP3 files."""
    found = run("ffprobe", "-v", "error", "-show_entries", "format_tags", "-of", "json", path).stdout
    return {k.upper(): v for k, v in json.loads(found)["format"].get("tags", {}).items()}


def decoded(path):
    """The samples that ffmpeg hears in a file."""
    return subprocess.run(["ffmpeg", "-v", "error", "-i", path, "-f", "s16le", "-"], stdout=subprocess.PIPE).stdout


def cut(data):
    """A file cut in front of the tag at its end, a tag with a header."""
    size = struct.unpack_from("<I", data, len(data) - 20)[0] + 32
    return data[:-size], data[-size:]


def sound(name, channels, rate, seconds=1.0):
    r = random.Random(name)
    path = os.path.join(work, name + ".wav")
    with wave.open(path, "wb") as w:
        w.setnchannels(channels)
        w.setsampwidth(2)
        w.setframerate(rate)
        samples = ((i, c) for i in range(int(rate * seconds)) for c in range(channels))
        w.writeframes(b"".join(struct.pack("<h", int(9000 * math.sin(i * (0.05 + 0.02 * c))) + r.randrange(-800, 800)) for i, c in samples))
    return path


def encoded(name, wav, *options):
    """A loop by LAME."""
    path = os.path.join(work, name + ".mp3")
    made = run("lame", "--quiet", wav, path, *options)
    check(made.returncode == 0, f"{name}: lame says {made.stderr}")
    return path


def level_both(first, ours, theirs, *moves):
    """Levels a loop by these steps one after another, here and by mp3gain: the sound is the same after each."""
    write(ours, first)
    write(theirs, first)
    for steps in moves:
        done = run(loop, "level", ours, steps, steps)
        check(done.returncode == 0, f"{ours}: level says {done.stderr}")
        run("mp3gain", "-q", "-g", steps, theirs)
        moved = read(ours)[: len(first)]
        check(moved != first and moved == read(theirs)[: len(first)], f"{ours}: mp3gain moves the sound by {steps} otherwise")


def copies(name, first, size):
    """Copies of a loop whose frames have one size: what was done to each, whether frames before the last are damaged, and its bytes."""
    r = random.Random(name)
    count = len(first) // size
    tag = b"ID3\4\0\0\0\0\0\x10TIT2\0\0\0\6\0\0\0Floor"
    for n in 1, 4, size // 2, size - 4, size - 1, size + 1:
        yield f"cut by {n} at the end", False, first[:-n]
    for n in 1, 4, size // 2, size + 1:
        yield f"cut by {n} at the start", True, first[n:]
    for n in 1, 7, 100, 1000:
        at = r.randrange(1, count) * size
        yield f"with {n} bytes of junk", False, first[:at] + bytes(r.randrange(256) for _ in range(n)) + first[at:]
    for at in size, count // 2 * size, (count - 1) * size:
        yield f"with a tag at {at}", False, first[:at] + tag + first[at:]
    yield "with two tags", False, tag + first[: count // 2 * size] + tag + first[count // 2 * size :]
    for n in range(1, 33, 4):
        changed = bytearray(first)
        for _ in range(n):
            changed[r.randrange(len(first))] = r.randrange(256)
        yield f"with {n} bytes changed", True, bytes(changed)
    for _ in range(4):
        start = r.randrange(len(first))
        stop = start + r.randrange(1, 3 * size)
        yield f"without {start} to {stop}", True, first[:start] + first[stop:]
        yield f"with {start} to {stop} twice", True, first[:stop] + first[start:]


kinds = [
    ("joint", 2, 44100, ["-m", "j", "-b", "128"]),
    ("stereo", 2, 48000, ["-m", "s", "-b", "192"]),
    ("mono", 1, 32000, ["-m", "m", "-V", "4"]),
    ("low_rate", 2, 22050, ["-m", "j", "-b", "64"]),
    ("low_rate_mono", 1, 16000, ["-m", "m", "-b", "24"]),
    ("id3v1", 2, 44100, ["-m", "j", "-V", "2", "--id3v1-only", "--tt", "Loop"]),
    ("id3v2", 2, 44100, ["-m", "j", "-V", "2", "--id3v2-only", "--tt", "Loop"]),
]
# What the calls on the sound refuse and `loop` levels: frames with a checksum, and MPEG 2.5.
others = [
    ("stereo_with_sums", 2, 48000, ["-m", "s", "-p", "-b", "192"]),
    ("lowest_rate_mono", 1, 11025, ["-m", "m", "-b", "24"]),
]
for loop, name, channels, rate, options in [(LOOP, *kind) for kind in kinds + others] + [(LOOP_MP3, *kind) for kind in kinds]:
    path = encoded(name, sound(name, channels, rate), *options)
    first = read(path)

    # Levelled twice, read by both, undone.
    for steps in ("5", "5"), ("-9", "-9"):
        done = run(loop, "level", path, *steps)
        check(done.returncode == 0, f"{name}: level says {done.stderr}")
    ours = listed(path)
    check(ours.get("MP3GAIN_UNDO") == "+004,+004,N", f"{name}: undo item {ours}")
    check(by_mutagen(path) == ours, f"{name}: mutagen reads {by_mutagen(path)}, we list {ours}")
    if name != "id3v2":  # TagLib shows an ID3v2 tag where there is one
        theirs = by_taglib(path)
        check(all(theirs.get(k) == v for k, v in ours.items()), f"{name}: TagLib reads {theirs}, we list {ours}")
    levelled = read(path)
    run(loop, "undo", path)
    check(read(path) == first, f"{name}: undo does not give the file back")

    # Steps for each side: `loop` takes none in joint stereo, and of one channel the left ones count.
    done = run(loop, "level", path, "3", "2")
    if loop == LOOP and "j" in options:
        check(done.returncode == 1 and "joint stereo" in done.stderr, f"{name}: unequal steps: {done.stderr}")
    else:
        stored = "-003,-003,N" if channels == 1 else "-003,-002,N"
        check(listed(path).get("MP3GAIN_UNDO") == stored, f"{name}: unequal steps store {listed(path)}")
        run(loop, "undo", path)
    check(read(path) == first, f"{name}: unequal steps do not give the file back")

    # mp3gain takes back what we did, but for its own items.
    write(path, levelled)
    run("mp3gain", "-q", "-u", path)
    check(listed(path).get("MP3GAIN_UNDO") == "+000,+000,N", f"{name}: mp3gain leaves {listed(path)}")

    # mp3gain moves it, we move it further, and take back both.
    write(path, first)
    run("mp3gain", "-q", "-g", "3", path)
    check(listed(path).get("MP3GAIN_UNDO") == "-003,-003,N", f"{name}: mp3gain stores {listed(path)}")
    theirs = read(path)
    write(path + ".ours.mp3", first)
    run(loop, "level", path + ".ours.mp3", "3", "3")
    sound_end = len(first) - (128 if name == "id3v1" else 0)
    check(read(path + ".ours.mp3")[:sound_end] == theirs[:sound_end], f"{name}: mp3gain moves the sound otherwise")
    run(loop, "level", path, "2", "2")
    check(listed(path).get("MP3GAIN_UNDO") == "-005,-005,N", f"{name}: after mp3gain and us {listed(path)}")
    run(loop, "undo", path)
    check(read(path) == first, f"{name}: undo after mp3gain does not give the file back")

    # An item by mutagen, one more by TagLib: listed, kept by level and undo.
    tag = mutagen.apev2.APEv2()
    tag["Artist"] = "Höller"
    tag["Place"] = "floor 12"
    tag.save(path)
    check(listed(path).get("PLACE") == "floor 12", f"{name}: mutagen wrote, we list {listed(path)}")
    check(listed(path).get("ARTIST") == "H\\c3\\b6ller", f"{name}: mutagen wrote, we list {listed(path)}")
    run(loop, "level", path, "3", "3")
    check(by_mutagen(path).get("ARTIST") == "Höller", f"{name}: after level mutagen reads {by_mutagen(path)}")
    run(loop, "undo", path)
    check(listed(path) == {"ARTIST": "H\\c3\\b6ller", "PLACE": "floor 12"}, f"{name}: after undo we list {listed(path)}")
    shutil.copy(path, path + ".taglib.mp3")
    song = taglib.File(path + ".taglib.mp3")
    song.tags["MOOD"] = ["calm"]
    song.save()
    song.close()
    check(run(loop, "level", path + ".taglib.mp3", "1", "1").returncode == 0, f"{name}: level refuses what TagLib wrote")

# The calls on the sound.
loop = LOOP_MP3

# Every rate of MPEG-1 and MPEG-2, every mode, three ways to spend the bits: the sound after each level is mp3gain's, and each undoes the other's. -3 goes
# first: LAME may end a loop with gains of 255, which N holds there when they should rise, and then an undo does not give them back.
MODES = {"j": 1, "f": 1, "s": 0, "d": 2, "m": 3}  # LAME's letter, and the mode in the header
held, loops = 0, {}
for rate in 48000, 44100, 32000, 24000, 22050, 16000:
    wavs = {channels: sound(f"{rate}_{channels}", channels, rate, 0.3) for channels in (1, 2)}
    bits = "128" if rate >= 32000 else "64"
    for mode, number in MODES.items():
        for way in ["-b", bits], ["--abr", bits], ["-V", "5"]:
            name = f"{rate}_{mode}{way[0]}"
            path = encoded(name, wavs[1 if mode == "m" else 2], "-m", mode, "--resample", str(rate), *way)
            first = loops[name] = read(path)
            check(first[:2] == (b"\xff\xfb" if rate >= 32000 else b"\xff\xf3") and first[3] >> 6 == number, f"{name}: LAME wrote {first[:4]}")
            ours, theirs = path + ".ours.mp3", path + ".theirs.mp3"
            level_both(first, ours, theirs, "2")
            top = listed(ours)["MP3GAIN_MINMAX"][4:]
            run(loop, "undo", ours)
            held += read(ours) != first
            check(read(ours) == first or top == "255", f"{name}: undo of +2 does not give the file back")
            level_both(first, ours, theirs, "-3", "2")
            shutil.copy(ours, path)
            for levelled in ours, theirs:
                done = run(loop, "undo", levelled)
                check(done.returncode == 0 and read(levelled) == first, f"{levelled}: undo does not give the file back {done.stderr}")
            run("mp3gain", "-q", "-u", path)
            check(read(path)[: len(first)] == first, f"{name}: mp3gain does not give our sound back")
            # Under W the gains of LAME's table move too, which mp3gain leaves: they stand in the first 40 bytes.
            run(loop, "level", ours, "4", "4", "W")
            run("mp3gain", "-q", "-w", "-g", "4", theirs)
            moved = read(ours)[: len(first)]
            check(moved[40:] == read(theirs)[40 : len(first)] and moved[40:] != first[40:], f"{name}: mp3gain moves the sound by 4 with -w otherwise")
            check(moved[:40] != first[:40] and read(theirs)[:40] == first[:40], f"{name}: the table moves otherwise")
            run(loop, "undo", theirs)
            check(read(theirs)[40:] == first[40:], f"{name}: undo after mp3gain -w does not give the sound back")
            check(read(theirs)[:40] != first[:40], f"{name}: undo after mp3gain -w leaves the table")
            run(loop, "level", ours, "-7", "-7", "W")
            run(loop, "undo", ours)
            check(read(ours) == first, f"{name}: undo of W does not give the file back")
check(0 < held < 20, f"{held} loops have gains that N holds")

# Cut and damaged copies: where the level is accepted, the undo gives back every byte, and the sound in between is mp3gain's. In a damaged frame some
# bytes may look like a header: such a level may be refused, and mp3gain may find other frames there, or none in the file.
refused = otherwise = 0
for name, size in ("48000_j-b", 384), ("48000_m-b", 384), ("32000_s-b", 576), ("24000_d-b", 192), ("16000_m-b", 288):
    check(len(loops[name]) % size == 0, f"{name}: its frames have not {size} bytes")
    for what, damaged, first in copies(name, loops[name], size):
        ours, theirs = (os.path.join(work, who + ".mp3") for who in ("ours", "theirs"))
        write(ours, first)
        write(theirs, first)
        done = run(loop, "level", ours, "1", "1")
        if done.returncode != 0:
            refused += 1
            check(damaged and "(refusal 16)" in done.stderr and read(ours) == first, f"{name} {what}: level says {done.stderr}")
            continue
        run("mp3gain", "-q", "-g", "1", theirs)
        if read(ours)[: len(first)] != read(theirs)[: len(first)]:
            otherwise += 1
            check(damaged, f"{name} {what}: mp3gain moves the sound otherwise")
        top = listed(ours)["MP3GAIN_MINMAX"][4:]
        run(loop, "undo", ours)
        check(read(ours) == first or top == "255", f"{name} {what}: undo does not give the file back")
        write(ours, first)
        run(loop, "level", ours, "1", "1", "W")
        check(read(ours)[: len(first)] != first, f"{name} {what}: W moves nothing")
        run(loop, "undo", ours)
        check(read(ours) == first, f"{name} {what}: undo of W does not give the file back")
check(refused < 10 and otherwise < 10, f"of 100 damaged copies {refused} are refused, and mp3gain moves {otherwise} otherwise")

# What the calls do not level: a frame with a checksum; MPEG 2.5 and the free format, which have no frame, though a part of their sound may look like one.
wav = sound("refused", 2, 44100, 0.3)
for name, numbers, options in [
    ("checksums", (16,), ["-p", "-b", "128"]),
    ("mpeg_2_5", (15, 16), ["--resample", "11.025", "-b", "24"]),
    ("free", (15, 16), ["--freeformat", "-b", "128"]),
]:
    path = encoded(name, wav, *options)
    first = read(path)
    for words in ["level", path, "1", "1"], ["undo", path]:
        done = run(loop, *words)
        refused = done.returncode == 1 and any(f"(refusal {n})" in done.stderr for n in numbers)
        check(refused and read(path) == first, f"{name}: {words[0]} says {done.stderr}")

# A peak that mp3gain measured: both move it to the same text, up to 9.999999, where mp3gain stops; half-way between two millionths it may go down.
tagged = "oracle/tagged/mp3gain.mp3"
for loop in LOOP, LOOP_MP3:
    ends = {}
    for peak, steps in [("0.248763", n) for n in (*range(-20, 21), 24)] + [("1.000000", -28)]:
        paths = [os.path.join(work, who + ".mp3") for who in ("theirs", "ours")]
        for path in paths:
            write(path, read(tagged).replace(b"0.248763", peak.encode()))
        run("mp3gain", "-q", "-g", str(steps), paths[0])
        run(loop, "level", paths[1], str(steps), str(steps))
        theirs, ours = (listed(path).get("REPLAYGAIN_TRACK_PEAK") for path in paths)
        if float(ours) > 9.999999 or peak == "1.000000":
            ends[steps] = (theirs, ours)
        else:
            check(theirs == ours, f"{peak} by {steps}: mp3gain moves it to {theirs}, we to {ours}")
    check(ends == {24: ("9.999999", "15.920832"), -28: ("0.007812", "0.007813")}, f"peaks that mp3gain moves otherwise: {ends}")

# ffmpeg writes such tags into WavPack files. Its tag is listed there; behind a loop it is kept by level and undo.
for loop in LOOP, LOOP_MP3:
    wavpack = os.path.join(work, "ffmpeg.wv")
    words = ["-metadata", "title=Fläche", "-metadata", "artist=Höller", "-metadata", "place=floor=12"]
    made = run("ffmpeg", "-v", "error", "-y", "-i", sound("ffmpeg", 2, 44100), *words, wavpack)
    check(made.returncode == 0, f"ffmpeg says {made.stderr}")
    theirs = listed(wavpack)
    told = by_ffmpeg(wavpack)
    check(theirs.keys() == told.keys(), f"ffmpeg wrote {told}, we list {theirs}")
    check(theirs.get("TITLE") == "Fl\\c3\\a4che" and theirs.get("PLACE") == "floor=12", f"ffmpeg wrote {told}, we list {theirs}")
    wavs, tag = cut(read(wavpack))
    path = os.path.join(work, "behind.mp3")
    run("lame", "--quiet", sound("behind", 2, 44100), path, "-b", "128")
    bare = read(path)
    with open(path, "ab") as f:
        f.write(tag)
    first = decoded(path)
    check(len(first) > 100_000, "ffmpeg hears the loop")
    check(run(loop, "level", path, "-8", "-8").returncode == 0, "level refuses what ffmpeg wrote")
    check(decoded(path) != first, "ffmpeg hears no difference after level")
    ours = listed(path)
    check(ours.get("MP3GAIN_UNDO") == "+008,+008,N" and all(ours.get(k) == v for k, v in theirs.items()), f"after level we list {ours}")
    write(wavpack, wavs + cut(read(path))[1])
    heard = by_ffmpeg(wavpack)
    check(heard.keys() == ours.keys(), f"ffmpeg reads {heard}, we list {ours}")
    check(heard.get("MP3GAIN_UNDO") == "+008,+008,N" and heard.get("TITLE") == "Fläche", f"ffmpeg reads {heard}")
    check(run(loop, "undo", path).returncode == 0, "undo refuses")
    check(cut(read(path))[0] == bare and listed(path) == theirs, "undo does not give back the loop and ffmpeg's items")
    check(decoded(path) == first, "ffmpeg hears another loop after undo")

print(f"peers: {checks} checks, {failed} failed")
sys.exit(failed != 0)
