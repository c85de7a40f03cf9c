"""Cover pictures that mutagen and TagLib wrote: level, set, remove and undo keep them byte for byte, and both still read them.

usage: covers.py FOLDER LOOP EDIT [TAGLIB]

LOOP is the bindings' example `loop` or `loop_mp3`, EDIT is tests/covers.c and TAGLIB tests/covers.cc, built. FOLDER has the loops of tests/peers.py.
"""

import os
import random
import shutil
import struct
import subprocess
import sys

import mutagen.apev2

work, loop, edit, *taglib = sys.argv[1:]
checks = failed = 0
KEY = "Cover Art (front)"


def check(good, what):
    global checks, failed
    checks += 1
    if not good:
        failed += 1
        print("covers:", what)


def run(*words, given=None):
    return subprocess.run(words, input=given, stdout=subprocess.PIPE, stderr=subprocess.PIPE)


def read(path):
    with open(path, "rb") as f:
        return f.read()


def items(data):
    """The items of the tag at the end of a file, each as its bytes: length, flags, key, zero, value. An ID3v1 block may follow the tag."""
    end = len(data) - 128 if data[-128:-125] == b"TAG" else len(data)
    preamble, version, size, count = struct.unpack_from("<8sIII", data, end - 32)
    assert (preamble, version) == (b"APETAGEX", 2000)
    at, found = end - size, []
    for _ in range(count):
        length = struct.unpack_from("<I", data, at)[0]
        stop = data.index(0, at + 8) + 1 + length
        found.append(data[at:stop])
        at = stop
    assert at == end - 32
    return found


def by_mutagen(path):
    """The picture that mutagen reads; none where it is not binary."""
    value = mutagen.apev2.APEv2(path).get(KEY)
    return value.value if value is not None and value.kind == mutagen.apev2.BINARY else None


def by_taglib(path):
    done = run(*taglib, "read", path, KEY)
    return done.stdout if done.returncode == 0 else None


def write_mutagen(path, picture):
    tag = mutagen.apev2.APEv2()
    tag["Artist"] = "Höller"
    tag[KEY] = mutagen.apev2.APEValue(picture, mutagen.apev2.BINARY)
    tag.save(path)


def write_taglib(path, picture):
    done = run(*taglib, "write", path, KEY, given=picture)
    check(done.returncode == 0, f"TagLib does not write: {done.stderr}")


def kept(path, cover, picture, after):
    """The item is where it was, to the byte, and both read the picture."""
    check(cover in items(read(path)), f"{path}: the picture is not kept by {after}")
    check(by_mutagen(path) == picture, f"{path}: mutagen does not read the picture after {after}")
    if taglib:
        check(by_taglib(path) == picture, f"{path}: TagLib does not read the picture after {after}")


# A name, as taggers put before a picture, then bytes of every kind that are no text: the beginning of a JPEG, and the longest that fits beside
# the items that level writes.
r = random.Random("cover")
jpeg = b"cover.jpg\0\xff\xd8\xff\xe0\x00\x10JFIF\0" + bytes(range(256))
pictures = [jpeg, bytes(r.randrange(256) for _ in range(32_500)), b"\xff"]
writers = [("mutagen", write_mutagen)] + ([("taglib", write_taglib)] if taglib else [])
for writer, write in writers:
    for number, picture in enumerate(pictures):
        for kind in ("joint", "mono", "id3v1"):
            path = os.path.join(work, f"{writer}_{number}_{kind}.mp3")
            shutil.copy(os.path.join(work, kind + ".mp3"), path)
            write(path, picture)
            cover = [i for i in items(read(path)) if i[8:].upper().startswith(KEY.upper().encode() + b"\0")]
            check(len(cover) == 1 and cover[0].endswith(picture) and cover[0][4] >> 1 & 3 == 1, f"{path}: {writer} wrote no picture")
            cover = cover[0]
            before = items(read(path))
            # A set and its removal leave the tag as the library writes it: what undo gives back to the byte.
            for words in (["set", path, "Title", "Floor"], ["remove", path, "title"]):
                done = run(edit, *words)
                check(done.returncode == 0, f"{path}: {words[0]} says {done.stderr}")
                kept(path, cover, picture, words[0])
            check(items(read(path)) == before, f"{path}: set and remove leave other items")
            first = read(path)
            for words in (
                [loop, "level", path, "3", "3", "W"],
                [edit, "set", path, "Title", "Floor"],
                [loop, "level", path, "-9", "-9", "W"],
                [edit, "remove", path, "title"],
                [loop, "undo", path],
            ):
                done = run(*words)
                check(done.returncode == 0, f"{path}: {words[1]} says {done.stderr}")
                kept(path, cover, picture, words[1])
            check(read(path) == first, f"{path}: undo does not give the file back")

    # A picture that is larger than the items of an edited tag may be: refused, and the file stays.
    path = os.path.join(work, f"{writer}_large.mp3")
    shutil.copy(os.path.join(work, "mono.mp3"), path)
    write(path, bytes(40_000))
    first = read(path)
    check(run(loop, "level", path, "3", "3").returncode != 0 and read(path) == first, f"{path}: a picture of 40,000 bytes is not refused")
    check(run(edit, "set", path, "Title", "Floor").stderr == b"refused: 8\n" and read(path) == first, f"{path}: 8 is not given")

print(f"covers: {checks} checks, {failed} failed" + ("" if taglib else "; TagLib's pictures were skipped"))
sys.exit(failed != 0)
