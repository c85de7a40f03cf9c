// TagLib beside the library, on the same bytes in memory: reading a file's APEv2 tag, and setting one item in it. Both sides are called in turn in
// one run; the best of many rounds. `oracle/taglib` builds and runs it.

#include <algorithm>
#include <chrono>
#include <cstdio>
#include <cstdlib>
#include <functional>
#include <string>
#include <vector>

#include <apetag.h>
#include <id3v2framefactory.h>
#include <mpegfile.h>
#include <tbytevectorstream.h>

#include "zibrunnos.h"

using Bytes = std::vector<uint8_t>;

static const char *VALUE = "The quick brown fox jumps over the lazy dog";
static const char *NEW = "+003,-012,N";

// What is reckoned and not looked at must not be left out by the compiler.
static volatile size_t seen;

[[noreturn]] static void fail(const char *what) {
    printf("taglib: %s\n", what);
    exit(1);
}

static std::string key(int i) {
    char text[16];
    snprintf(text, sizeof text, "KEY_%03d", i);
    return text;
}

// A file with frames of sound, so that TagLib finds the first of them at once, and a tag of so many items.
static Bytes file_of(size_t sound, int items) {
    Bytes file(sound, 0x55);
    for (size_t at = 0; at + 417 <= sound; at += 417) {
        file[at] = 0xFF, file[at + 1] = 0xFB, file[at + 2] = 0x90, file[at + 3] = 0x40;
    }
    for (int i = 0; i < items; i++) {
        Bytes out(file.size() + 1000);
        size_t written;
        const std::string k = key(i), v = VALUE;
        if (zib_set_ape_item(file.data(), file.size(), (const uint8_t *)k.data(), k.size(), (const uint8_t *)v.data(), v.size(),
                             out.data(), out.size(), &written))
            fail("an item is refused");
        out.resize(written);
        file = out;
    }
    return file;
}

// ---- TagLib

static TagLib::MPEG::File *opened(TagLib::ByteVectorStream &stream) {
#if TAGLIB_MAJOR_VERSION >= 2
    return new TagLib::MPEG::File(&stream, false);
#else
    return new TagLib::MPEG::File(&stream, TagLib::ID3v2::FrameFactory::instance(), false);
#endif
}

// How many items it has. The bytes are shared with the stream, not copied.
static size_t their_read(const TagLib::ByteVector &bytes) {
    TagLib::ByteVectorStream stream(bytes);
    TagLib::MPEG::File *file = opened(stream);
    const size_t n = file->hasAPETag() ? file->APETag()->itemListMap().size() : 0;
    delete file;
    return n;
}

// The stream copies the bytes when it first changes them.
static TagLib::ByteVector their_set(const TagLib::ByteVector &bytes, const std::string &k) {
    TagLib::ByteVectorStream stream(bytes);
    TagLib::MPEG::File *file = opened(stream);
    file->APETag(true)->addValue(k, NEW);
    const bool good = file->save(TagLib::MPEG::File::APE, TagLib::File::StripNone, TagLib::ID3v2::v4, TagLib::File::DoNotDuplicate);
    if (!good)
        fail("TagLib does not save");
    delete file;
    return *stream.data();
}

// ---- the library

static size_t our_read(const Bytes &file, Bytes &out) {
    uint32_t there;
    size_t items, written;
    if (zib_read_ape_tag(file.data(), file.size(), out.data(), out.size(), &there, &items, &written))
        fail("reading is refused");
    return items;
}

static size_t our_set(const Bytes &file, const std::string &k, Bytes &out) {
    size_t written;
    const std::string v = NEW;
    if (zib_set_ape_item(file.data(), file.size(), (const uint8_t *)k.data(), k.size(), (const uint8_t *)v.data(), v.size(), out.data(),
                         out.size(), &written))
        fail("setting is refused");
    return written;
}

// The value that the library finds in a file.
static std::string value_in(const Bytes &file, const std::string &k) {
    Bytes area(3 * file.size());
    uint32_t there, repeated;
    size_t items, written, start, size;
    if (zib_read_ape_tag(file.data(), file.size(), area.data(), area.size(), &there, &items, &written) || !there)
        fail("a written tag is not read");
    if (zib_get(area.data(), written, items, (const uint8_t *)k.data(), k.size(), &there, &start, &size, &repeated) || !there)
        fail("a set item is not found");
    return std::string(area.begin() + start, area.begin() + start + size);
}

// ---- times

static double once(const std::function<void()> &call, int turns) {
    const auto start = std::chrono::steady_clock::now();
    for (int i = 0; i < turns; i++)
        call();
    return std::chrono::duration<double>(std::chrono::steady_clock::now() - start).count() / turns;
}

static std::string shown(double s) {
    char text[32];
    if (s < 1e-6)
        snprintf(text, sizeof text, "%.1f ns", s * 1e9);
    else if (s < 1e-3)
        snprintf(text, sizeof text, "%.2f µs", s * 1e6);
    else
        snprintf(text, sizeof text, "%.2f ms", s * 1e3);
    return text;
}

static void row(const char *what, int items, const char *size, const std::function<void()> &theirs, const std::function<void()> &ours) {
    int turns = 1;
    while (once(theirs, turns) * turns < 0.002)
        turns *= 2;
    double a = 1e9, b = 1e9;
    for (int i = 0; i < 60; i++) {
        a = std::min(a, once(theirs, turns));
        b = std::min(b, once(ours, turns));
    }
    printf("| %s, %d item%s, %s | %s | %s | %.3f |\n", what, items, items == 1 ? "" : "s", size, shown(a).c_str(), shown(b).c_str(), b / a);
}

int main() {
    const struct {
        const char *name;
        size_t sound;
    } sizes[] = {{"4 KiB", 4096}, {"1 MiB", 1 << 20}, {"16 MiB", (1 << 24) - 4096}};
    printf("TagLib %d.%d.%d\n\n", TAGLIB_MAJOR_VERSION, TAGLIB_MINOR_VERSION, TAGLIB_PATCH_VERSION);
    printf("| call | TagLib | library | ratio |\n|---|---|---|---|\n");
    for (const bool set : {false, true}) {
        for (const int items : {1, 41}) {
            for (const auto &size : sizes) {
                const Bytes file = file_of(size.sound, items);
                const TagLib::ByteVector bytes((const char *)file.data(), file.size());
                const std::string last = key(items - 1);
                Bytes out(file.size() + 1000), area(3 * file.size());
                // Both sides do the same: each reads all items, and what each writes the other reads.
                if (their_read(bytes) != (size_t)items || our_read(file, area) != (size_t)items)
                    fail("the two read other items");
                const TagLib::ByteVector written = their_set(bytes, last);
                if (value_in(Bytes(written.begin(), written.end()), last).find(NEW) == std::string::npos)
                    fail("TagLib sets another value");
                const size_t length = our_set(file, last, out);
                TagLib::ByteVectorStream stream(TagLib::ByteVector((const char *)out.data(), length));
                TagLib::MPEG::File *again = opened(stream);
                if (again->APETag()->itemListMap()[last].toString().to8Bit() != NEW)
                    fail("TagLib reads another value than we set");
                delete again;
                if (set)
                    row("set", items, size.name, [&] { seen = their_set(bytes, last).size(); }, [&] { seen = our_set(file, last, out); });
                else
                    row("read", items, size.name, [&] { seen = their_read(bytes); }, [&] { seen = our_read(file, area); });
            }
        }
    }
}
