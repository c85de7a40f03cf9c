/* Each call of include/zibrunnos.h from C as it is done, and many of them refused; each slice as NULL with length 0; and each output with
 * just the room that docs/LIBRARY.md says is enough. */
#include "zibrunnos.h"
#include <stdio.h>
#include <string.h>

static int failed;

static void check(bool good, const char *what)
{
    if (!good) {
        failed++;
        printf("faces: %s\n", what);
    }
}

#define CHECK(e) check(e, #e)
#define TEXT(s) ZIB_TEXT(s)
#define NONE NULL, 0

/* whether the first n bytes of b are this text */
static bool is(const uint8_t *b, size_t n, const char *s, size_t len)
{
    return n == len && memcmp(b, s, len) == 0;
}

#define IS(b, n, s) is(b, n, s, sizeof(s) - 1)

/* key AB, value c */
#define AREA "\1\0\0\0" "\0\0\0\0" "AB\0" "c"
#define END(flags) "APETAGEX" "\xd0\7\0\0" "\x2c\0\0\0" "\1\0\0\0" "\0\0\0" flags "\0\0\0\0" "\0\0\0\0"
#define TAG END("\xa0") AREA END("\x80")

/* key COVER, value FF D8, read-only and binary */
#define COVER "\2\0\0\0" "\3\0\0\0" "COVER\0" "\xff\xd8"

static void frame(void)
{
    uint32_t value = 7, there = 7;
    size_t start = 7;
    CHECK(zib_read_u32_le(TEXT("\0\1\2\3\4"), 1, &value) && value == 0x04030201);
    CHECK(!zib_read_u32_le(TEXT("\1\2\3"), 0, &value) && value == 0x04030201);
    static uint8_t block[128] = "TAG";
    CHECK(zib_ends_with_id3v1(block, sizeof block));
    CHECK(!zib_ends_with_id3v1(block, 127));
    CHECK(zib_ape_tag_start(TEXT(TAG), 44, &there, &start) == 0 && there == 1 && start == 0);
    CHECK(zib_adjust_gain_value(250, 10, false) == 255);
    CHECK(zib_adjust_gain_value(250, 10, true) == 4);
}

static void utf8(void)
{
    uint8_t out[16];
    size_t n = 7;
    CHECK(zib_is_utf8(TEXT("\xe2\x82\xac")));
    CHECK(!zib_is_utf8(TEXT("\xff")));
    CHECK(zib_lossy_size(TEXT("\xe2\x82\x41"), 4, &n) == 0 && n == 4);
    CHECK(zib_lossy_size(TEXT("\xff\xff"), 5, &n) == ZIB_NO_ROOM && n == 4);
    CHECK(zib_lossy_into(TEXT("\xe2\x82\x41"), out, sizeof out, &n) == 0 && IS(out, n, "\xef\xbf\xbd\x41"));
    CHECK(zib_lossy_into(TEXT("\xe2\x82\x41"), out, 3, &n) == ZIB_NO_ROOM && n == 4);
}

static void values(void)
{
    uint8_t out[32];
    size_t n = 0;
    int32_t left = 0, right = 0;
    uint32_t flag = 7;
    uint64_t millionths = 7, rest = 7;
    CHECK(zib_parse_undo(TEXT("-3,junk"), &left, &right, &flag) == 0 && left == -3 && right == -3 && flag == 0);
    CHECK(zib_format_undo_value(0, 1000, true, out, sizeof out, &n) == 0 && IS(out, n, "+000,+1000,W"));
    CHECK(zib_format_undo_value(3, -12, false, out, 10, &n) == ZIB_NO_ROOM);
    CHECK(zib_accumulate_undo(TEXT("+003,-012,N"), 5, -5, &left, &right) == 0 && left == -2 && right == -7);
    CHECK(zib_format_minmax(94, 168, out, sizeof out, &n) == 0 && IS(out, n, "094,168"));
    CHECK(zib_range_wraps_out(TEXT("MP3GAIN_MINMAX"), TEXT("094,168"), 100));
    CHECK(zib_steps_to_db(-2, &flag, &millionths, &rest) == 0 && flag == 1 && millionths == 3010299 && rest == 956639812);
    CHECK(zib_shift_stored_value(TEXT("MP3GAIN_MINMAX"), TEXT("094,168"), 100, &flag, out, sizeof out, &n) == 0 && flag == 1 && IS(out, n, "194,255"));
    CHECK(zib_shift_stored_value(TEXT("REPLAYGAIN_TRACK_PEAK"), TEXT("0.9"), 1, &flag, out, sizeof out, &n) == 0 && flag == 0);
    CHECK(zib_shift_stored_value(TEXT("REPLAYGAIN_TRACK_PEAK"), TEXT("1.000000"), 1, &flag, out, sizeof out, &n) == 0 && flag == 1 && IS(out, n, "1.189207"));
}

#define FIVES "left=5\nright=5\n"

static void slips(void)
{
    uint8_t one[512], two[512], gain[1] = {252};
    int32_t left = 0, right = 0;
    uint32_t mode = 7;
    size_t n = 7, m = 7, peaks = 7;
    CHECK(zib_parse_slip(TEXT("left=-3\nright=+4\nmode=W\n"), &left, &right, &mode) == 0 && left == -3 && right == 4 && mode == ZIB_MODE_W);
    CHECK(zib_parse_slip(TEXT(FIVES "mode=N\n"), &left, &right, &mode) == 0 && left == 5 && right == 5 && mode == ZIB_MODE_N);
    CHECK(zib_parse_slip(TEXT(FIVES), &left, &right, &mode) == 0 && mode == ZIB_MODE_UNNAMED);
    CHECK(zib_parse_slip(TEXT("right=4\nleft=3\n"), &left, &right, &mode) == ZIB_MALFORMED_SLIP && left == 5 && mode == ZIB_MODE_UNNAMED);
    CHECK(zib_parse_slip(TEXT("left=256\nright=0\n"), &left, &right, &mode) == ZIB_STEP_OUT_OF_RANGE);
    CHECK(zib_resolve_mode(TEXT("audio"), ZIB_MODE_UNNAMED, &mode) == 0 && mode == ZIB_MODE_W);
    CHECK(zib_resolve_mode(TEXT("audio"), ZIB_MODE_N, &mode) == 0 && mode == ZIB_MODE_N);
    CHECK(zib_resolve_mode(TEXT("audio"), 3, &mode) == ZIB_MALFORMED_SLIP && mode == ZIB_MODE_N);
    /* a stored N is kept by a slip without a mode, and a written W meets refusal 9 */
    CHECK(zib_level(TEXT("audio"), gain, 1, NONE, 0, 0, false, one, sizeof one, &n, &peaks) == 0);
    CHECK(zib_resolve_mode(one, n, ZIB_MODE_UNNAMED, &mode) == 0 && mode == ZIB_MODE_N);
    CHECK(zib_level_by_slip(TEXT(FIVES "mode=W\n"), one, n, gain, 1, NONE, two, sizeof two, &m, &peaks) == ZIB_FLAG_DIFFERS && gain[0] == 252 && m == 7);
    CHECK(zib_level_by_slip(TEXT(FIVES), one, n, gain, 1, NONE, two, sizeof two, &m, &peaks) == 0 && gain[0] == 255);
    gain[0] = 252;
    CHECK(zib_level_by_slip(TEXT(FIVES), TEXT("audio"), gain, 1, NONE, two, sizeof two, &m, &peaks) == 0 && gain[0] == 1 && peaks == 0);
    CHECK(zib_undo(two, m, gain, 1, NONE, one, sizeof one, &n, &peaks) == 0 && gain[0] == 252 && IS(one, n, "audio"));
    CHECK(zib_level_by_slip(TEXT("left=5\n"), TEXT("audio"), NONE, NONE, one, 0, &n, &peaks) == ZIB_MALFORMED_SLIP);
    CHECK(zib_level_by_slip(TEXT("left=256\nright=0\n"), TEXT("audio"), NONE, NONE, one, 0, &n, &peaks) == ZIB_STEP_OUT_OF_RANGE);
    /* two undo items, spelled otherwise: 14, until both are removed */
    uint8_t area[128];
    size_t count = 0, length = 0, start = 0, size = 0;
    uint32_t there = 7, repeated = 7;
#define UNDOS "\x0b\0\0\0" "\0\0\0\0" "MP3GAIN_UNDO\0" "+003,+003,W" "\x0b\0\0\0" "\0\0\0\0" "mp3gain_undo\0" "+001,+001,N"
    CHECK(zib_get(TEXT(UNDOS), 2, TEXT("Mp3gain_Undo"), &there, &start, &size, &repeated) == 0 && there == 1 && start == 21 && size == 11 && repeated == 1);
    CHECK(zib_replace_ape_tag(TEXT("audio"), TEXT(UNDOS), 2, one, sizeof one, &n) == 0);
    CHECK(zib_undo(one, n, gain, 1, NONE, two, sizeof two, &m, &peaks) == ZIB_SECOND_UNDO && gain[0] == 252);
    CHECK(zib_level(one, n, gain, 1, NONE, 1, 1, true, two, sizeof two, &m, &peaks) == ZIB_SECOND_UNDO);
    CHECK(zib_level_by_slip(TEXT(FIVES), one, n, gain, 1, NONE, two, sizeof two, &m, &peaks) == ZIB_SECOND_UNDO && gain[0] == 252);
    CHECK(zib_resolve_mode(one, n, ZIB_MODE_UNNAMED, &mode) == 0 && mode == ZIB_MODE_W);
    CHECK(zib_read_ape_tag(one, n, area, sizeof area, &there, &count, &length) == 0 && there == 1 && count == 2 && IS(area, length, UNDOS));
    CHECK(zib_remove_ape_item(one, n, TEXT("MP3GAIN_UNDO"), two, sizeof two, &m) == 0 && IS(two, m, "audio"));
}

/* 5 by -5 is lost and not held; 255 by -256 aims at 0 alone, since the steps are clamped first. */
static void tally(void)
{
    size_t low = 7, high = 7, lost = 7;
    uint32_t least = 7, greatest = 7;
    CHECK(!zib_tally(NONE, 5, false, &low, &high, &lost, &least, &greatest) && low == 0 && high == 0 && lost == 0 && least == 255 && greatest == 0);
    CHECK(!zib_tally(TEXT("\5\6"), -5, false, &low, &high, &lost, &least, &greatest) && low == 0 && high == 0 && lost == 1 && least == 0 && greatest == 1);
    CHECK(zib_tally(TEXT("\5\6\0"), -6, false, &low, &high, &lost, &least, &greatest) && low == 1 && high == 0 && lost == 2 && least == 0 && greatest == 0);
    CHECK(zib_tally(TEXT("\5\6\0"), 250, false, &low, &high, &lost, &least, &greatest) && low == 0 && high == 1 && lost == 1 && least == 0 && greatest == 255);
    CHECK(!zib_tally(TEXT("\377"), -256, false, &low, &high, &lost, &least, &greatest) && low == 0 && lost == 1);
    CHECK(!zib_tally(TEXT("\5\6\0"), 250, true, &low, &high, &lost, &least, &greatest) && high == 0 && lost == 0 && least == 0 && greatest == 255);
}

/* The shortest frame, gain 80, and silence behind it. */
static void sound(void)
{
    uint8_t mp3[184] = {0xFF, 0xF3, 0x14, 0xC0, 0, 0, 0, 0x01, 0x40}, once[2000], again[2000], left[2] = {9, 9};
    size_t n = 7, m = 7, peaks = 7;
    CHECK(zib_read_gains(mp3, sizeof mp3, left, 2, NONE, &n, &m) == 0 && n == 1 && m == 0 && left[0] == 80 && left[1] == 9);
    CHECK(zib_level_mp3(mp3, sizeof mp3, 5, 5, ZIB_MODE_N, once, sizeof once, &n, &peaks) == 0 && n == 310 && once[8] == 0x54 && peaks == 0);
    CHECK(zib_level_mp3(once, n, 1, 1, ZIB_MODE_W, again, sizeof again, &m, &peaks) == ZIB_FLAG_DIFFERS && m == 0);
    CHECK(zib_level_mp3(once, n, 1, 1, 3, again, sizeof again, &m, &peaks) == ZIB_MALFORMED_SLIP && m == 0);
    CHECK(zib_level_mp3(once, n, -3, -3, ZIB_MODE_UNNAMED, again, sizeof again, &m, &peaks) == 0 && again[8] == 0x48);
    CHECK(zib_undo_mp3(again, m, once, m, &n, &peaks) == 0 && n == sizeof mp3 && memcmp(once, mp3, n) == 0);
    CHECK(zib_undo_mp3(mp3, sizeof mp3, once, sizeof once, &n, &peaks) == ZIB_NO_UNDO);
    mp3[1] = 0xF2;
    CHECK(zib_level_mp3(mp3, sizeof mp3, 5, 5, ZIB_MODE_N, once, sizeof once, &n, &peaks) == ZIB_HAS_CHECKSUM);
    CHECK(zib_read_gains(mp3, 23, left, 2, NONE, &n, &m) == ZIB_NO_FRAME && n == sizeof mp3 && left[0] == 80);
    CHECK(zib_level_mp3(mp3, 23, 256, 5, ZIB_MODE_N, once, sizeof once, &n, &peaks) == ZIB_STEP_OUT_OF_RANGE);
}

/* A caller's own struct gets both amplitudes; a refused call leaves them. */
static void amplitudes(void)
{
    struct { double left, right; } pair = {7, 8};
    CHECK(zib_amplitudes(0, -8, &pair.left, &pair.right) == 0 && pair.left == 1.0 && pair.right == 0.25);
    CHECK(zib_amplitudes(256, 0, &pair.left, &pair.right) == ZIB_STEP_OUT_OF_RANGE && pair.left == 1.0 && pair.right == 0.25);
    CHECK(zib_amplitudes(0, -256, &pair.left, &pair.right) == ZIB_STEP_OUT_OF_RANGE && pair.left == 1.0 && pair.right == 0.25);
    CHECK(zib_amplitudes(-1, 2, &pair.left, &pair.right) == 0 && pair.left == 0x1.ae89f995ad3adp-1 && pair.right == 0x1.6a09e667f3bcdp0);
    CHECK(zib_amplitudes(255, -255, &pair.left, &pair.right) == 0 && pair.left == 0x1.ae89f995ad3adp63 && pair.right == 0x1.306fe0a31b715p-64);
}

/* Where the fixed view reads nothing, both lent numbers stay. */
static void fixed_ranges(void)
{
    uint32_t first = 7, second = 8;
    uint8_t out[7];
    size_t n = 0;
    CHECK(!zib_fixed_range(TEXT("+94,168"), &first, &second) && first == 7 && second == 8);
    CHECK(!zib_fixed_range(TEXT("0,0"), &first, &second) && first == 7 && second == 8);
    CHECK(zib_fixed_range(TEXT("94,168"), &first, &second) && first == 94 && second == 68);
    CHECK(zib_fixed_range(TEXT("999;001"), &first, &second) && first == 999 && second == 1);
    CHECK(zib_format_minmax(94, 168, out, sizeof out, &n) == 0 && zib_compare_range_views(out, n) == ZIB_VIEWS_AGREE);
    CHECK(zib_compare_range_views(TEXT("94 ,68 ")) == ZIB_VIEWS_AGREE && zib_compare_range_views(TEXT("0,000")) == ZIB_VIEWS_AGREE);
    CHECK(zib_compare_range_views(TEXT("94,168")) == ZIB_VIEWS_DIFFER && zib_compare_range_views(TEXT("0,200")) == ZIB_VIEWS_DIFFER);
    CHECK(zib_compare_range_views(TEXT("0094,168")) == ZIB_ONLY_OURS && zib_compare_range_views(TEXT("0,0")) == ZIB_ONLY_OURS);
    CHECK(zib_compare_range_views(TEXT("999,001")) == ZIB_ONLY_FIXED && zib_compare_range_views(TEXT("094;168")) == ZIB_ONLY_FIXED);
    CHECK(zib_compare_range_views(TEXT("1094,168")) == ZIB_NEITHER);
}

static void items(void)
{
    uint8_t a[256], b[256];
    size_t count = 0, n = 0, start = 0, size = 0;
    uint32_t there = 7, flags = 7, repeated = 7;
    int32_t steps = 7;
    CHECK(zib_is_key(TEXT("AB")) && !zib_is_key(TEXT("A")) && !zib_is_key(TEXT("tag")));
    CHECK(zib_which_key(TEXT("mp3gain_undo")) == 0 && zib_which_key(TEXT("AB")) == 8);
    size_t key_start, key_end;
    CHECK(zib_item_at(TEXT(AREA), 0, &there, &flags, &key_start, &key_end, &start, &size) == 0 && there == 1 && flags == 0);
    CHECK(key_start == 8 && key_end == 10 && start == 11 && size == 12);
    CHECK(zib_item_at(TEXT(COVER), 0, &there, &flags, &key_start, &key_end, &start, &size) == 0 && there == 1 && flags == 3);
    CHECK(zib_item_at(TEXT(COVER), 1, &there, &flags, &key_start, &key_end, &start, &size) == ZIB_MALFORMED_AREA && there == 1 && flags == 3);
    CHECK(zib_item_at(TEXT(AREA), 12, &there, &flags, &key_start, &key_end, &start, &size) == 0 && there == 0 && flags == 0 && key_end == 0);
    CHECK(zib_get(TEXT(AREA), 1, TEXT("ab"), &there, &start, &size, &repeated) == 0 && there == 1 && start == 11 && size == 1 && repeated == 0);
    CHECK(zib_get(TEXT(AREA AREA), 2, TEXT("ab"), &there, &start, &size, &repeated) == 0 && start == 11 && repeated == 1);
    CHECK(zib_get(TEXT(AREA), 2, TEXT("ab"), &there, &start, &size, &repeated) == ZIB_MALFORMED_AREA && repeated == 1);
    CHECK(zib_set(NONE, 0, TEXT("ab"), TEXT("c"), a, sizeof a, &count, &n) == 0 && count == 1 && IS(a, n, AREA));
    CHECK(zib_set(NONE, 0, TEXT("A"), TEXT("c"), a, sizeof a, &count, &n) == ZIB_BAD_KEY);
    CHECK(zib_set(NONE, 0, TEXT("AB"), TEXT("\xff"), a, sizeof a, &count, &n) == ZIB_NOT_UTF8);
    CHECK(zib_remove(TEXT(AREA), 1, TEXT("aB"), a, sizeof a, &count, &n) == 0 && count == 0 && n == 0);
    CHECK(zib_set_undo_gain(TEXT(AREA), 1, 3, -12, false, a, sizeof a, &count, &n) == 0 && count == 2);
    CHECK(zib_get_undo_gain(a, n, count, &there, &steps) == 0 && there == 1 && steps == 3);
    CHECK(zib_set_minmax(a, n, count, 94, 168, b, sizeof b, &count, &n) == 0 && count == 3);
    CHECK(zib_set_replaygain(b, n, count, TEXT("-3.500000 dB"), NONE, NONE, TEXT("0.9"), NONE, a, sizeof a, &count, &n) == 0 && count == 5);
    CHECK(zib_remove_replaygain(a, n, count, b, sizeof b, &start, &size) == 0 && start == 3);
    CHECK(zib_drop_undone(a, n, count, b, sizeof b, &start, &size) == 0 && start == 3);
    CHECK(zib_shift_stored_gain(a, n, count, 2, false, b, sizeof b, &start, &size) == 0 && start == 5);
    CHECK(zib_shift_stored_gain(a, n, count, 256, false, b, sizeof b, &start, &size) == ZIB_STEP_OUT_OF_RANGE);
    CHECK(zib_take_mp3gain(a, n, count, b, sizeof b, &start, &size) == 0 && start == 1 && IS(b, size, AREA));
}

static void files(void)
{
    uint8_t out[1024], again[1024], left[2] = {10, 0}, right[1] = {0};
    static uint8_t text[147473], tagged[209] = "audio" TAG "TAG", large[16777217];
    uint32_t there = 7;
    size_t count = 0, n = 0, m = 0, at = 0, peaks = 7, front = 7, from = 7, to = 7;
    CHECK(zib_find_ape_footer(TEXT(TAG), &there, &at) == 0 && there == 1 && at == 44);
    CHECK(zib_read_ape_tag(TEXT(TAG), out, sizeof out, &there, &count, &n) == 0 && there == 1 && count == 1 && IS(out, n, AREA));
    CHECK(zib_serialize_ape_tag(TEXT(AREA), 1, out, sizeof out, &n) == 0 && IS(out, n, TAG));
    CHECK(zib_serialize_ape_tag(TEXT(AREA), 1, out, 75, &n) == ZIB_NO_ROOM);
    CHECK(zib_split_ape_tag(tagged, sizeof tagged, &front, &from, &to) == 0 && front == 5 && from == 81 && to == 209);
    CHECK(zib_split_ape_tag(large, sizeof large, &front, &from, &to) == ZIB_FILE_TOO_LONG && front == 5 && from == 81 && to == 209);
    CHECK(zib_ape_tag_parts(tagged, sizeof tagged, &front, &from, &to) == 0 && front == 5 && from == 81 && to == 209);
    CHECK(zib_cut_ape_tag(tagged, sizeof tagged, &front, &from, &to) == 0 && front == 5 && from == 81 && to == 209);
    CHECK(zib_cut_ape_tag(tagged + 81, 128, &front, &from, &to) == 0 && front == 128 && from == 128 && to == 128);
    CHECK(zib_cut_ape_tag(large, sizeof large, &front, &from, &to) == ZIB_FILE_TOO_LONG && front == 128 && from == 128 && to == 128);
    CHECK(zib_split_ape_tag(tagged + 81, 128, &front, &from, &to) == 0 && front == 0 && from == 0 && to == 128);
    CHECK(zib_ape_tag_parts(tagged + 81, 128, &front, &from, &to) == 0 && front == 0 && from == 0 && to == 128);
    CHECK(zib_ape_tag_parts(large, sizeof large, &front, &from, &to) == ZIB_FILE_TOO_LONG && front == 0 && from == 0 && to == 128);
    CHECK(zib_find_audio_end(tagged, sizeof tagged, &at) == 0 && at == 5);
    CHECK(zib_find_audio_end(large, sizeof large, &at) == ZIB_FILE_TOO_LONG && at == 5);
    /* the smallest file in which the sound does not end where replacement puts the tag: a footer in an ID3v1 block */
    uint8_t inside[128] = "TAG";
    memcpy(inside + 96, "APETAGEX\0\0\0\0\1", 13);
    CHECK(zib_find_audio_end(inside, sizeof inside, &at) == 0 && at == 0);
    CHECK(zib_ape_tag_parts(inside, sizeof inside, &front, &from, &to) == 0 && front == 127 && from == to);
    CHECK(zib_replace_ape_tag(TEXT("audio" TAG), NONE, 0, out, sizeof out, &n) == 0 && IS(out, n, "audio"));
    CHECK(zib_gate(tagged, sizeof tagged, &from, &to, &count) == 0 && from == 37 && to == 49 && count == 1);
    CHECK(zib_gate(TEXT(END("\x80")), &from, &to, &count) == ZIB_NOT_EDITABLE && from == 37 && to == 49 && count == 1);
    CHECK(zib_gate(large, sizeof large, &from, &to, &count) == ZIB_FILE_TOO_LONG && count == 1);
    CHECK(zib_gate(TEXT("audio"), &from, &to, &count) == 0 && from == 0 && to == 0 && count == 0);
    CHECK(zib_set_ape_item(NONE, TEXT("ab"), TEXT("c"), out, 76, &n) == 0 && IS(out, n, TAG));
    CHECK(zib_remove_ape_item(TEXT("audio" TAG), TEXT("AB"), out, sizeof out, &n) == 0 && IS(out, n, "audio"));
    CHECK(zib_level(TEXT("audio" TAG), left, 2, right, 0, 5, 5, false, out, sizeof out, &n, &peaks) == 0 && left[0] == 15 && left[1] == 0 && peaks == 0);
    CHECK(zib_level(out, n, left, 2, right, 0, 5, 5, true, again, sizeof again, &m, &peaks) == ZIB_FLAG_DIFFERS && left[0] == 15);
    CHECK(zib_level(out, n, left, 0, right, 0, 5, 5, false, again, sizeof again, &m, &peaks) == ZIB_NO_LEFT_GAINS);
    CHECK(zib_undo(out, n, left, 2, right, 0, again, sizeof again, &m, &peaks) == 0 && left[0] == 10 && IS(again, m, "audio" TAG));
    CHECK(zib_undo(again, m, left, 2, right, 0, out, sizeof out, &n, &peaks) == ZIB_NO_UNDO && left[0] == 10);
    CHECK(zib_list_tag(TEXT(TAG), text) == 13 && IS(text, 13, "items=1\nAB=c\n"));
    CHECK(zib_list_tag(NONE, text) == 11 && IS(text, 11, "items=none\n"));
}

/* A tag without a header: items, and a footer with their size, in one byte, and their count. */
#define ITEMS(items, size, count) items "APETAGEX" "\xd0\7\0\0" size "\0\0\0" count "\0\0\0" "\0\0\0\0" "\0\0\0\0" "\0\0\0\0"
/* key AB, with these flags and a value of one byte */
#define FLAGGED(flags, value) "\1\0\0\0" flags "AB\0" value

/* The two stages of reading, and the end rewritten, in full and cut after each number of writes. */
static void tails(void)
{
    static uint8_t file[5 + 76 + 64], old[sizeof file], now[sizeof file], area[300];
    uint32_t there = 7, whole = 7;
    size_t n = 7, m = 7, count = 7, total, end = 7;
    memset(file, 0, sizeof file);
    memcpy(file, "audio" TAG, 81);
    CHECK(zib_bytes_needed(file, 81, 81, &n) == 0 && n == 81);
    CHECK(zib_bytes_needed(TEXT(TAG), 1000, &n) == 0 && n == 108);
    CHECK(zib_bytes_needed(TEXT(TAG), ZIB_FILE_LIMIT + (size_t)1, &n) == ZIB_FILE_TOO_LONG && n == 108);
    CHECK(zib_bytes_needed(TEXT(TAG), ZIB_FILE_LIMIT, &n) == 0);
    CHECK(zib_read_end(TEXT(TAG), 1000, area, sizeof area, &there, &count, &m) == 0 && there == 1 && count == 1 && IS(area, m, AREA));
    CHECK(zib_read_end(TEXT(TAG), 1000, area, 11, &there, &count, &m) == ZIB_NO_ROOM && m == 12);
    CHECK(zib_read_end(TEXT(TAG), ZIB_FILE_LIMIT + (size_t)1, area, sizeof area, &there, &count, &m) == ZIB_FILE_TOO_LONG && m == 12);
    CHECK(zib_read_end(TEXT("audio"), 5, area, sizeof area, &there, &count, &m) == 0 && there == 0 && count == 0 && m == 0);
    /* Two items for one: 12 bytes more. */
    memcpy(old, file, sizeof file);
    total = 81;
    CHECK(zib_rewrite_ape_tail(file, sizeof file, &total, TEXT(AREA AREA), 2, &end) == 0 && total == 93 && end == 5);
    CHECK(zib_replace_ape_tag(old, 81, TEXT(AREA AREA), 2, now, sizeof now, &n) == 0 && n == total && memcmp(file, now, sizeof file - 64) == 0);
    for (size_t k = 0; k <= 89; k++) {
        size_t longer = 5 + k > 81 ? 5 + k : 81;
        memcpy(now, old, sizeof old);
        total = 81, whole = 7, end = 7;
        CHECK(zib_rewrite_within(now, sizeof now, &total, TEXT(AREA AREA), 2, k, &whole, &end) == 0 && end == 5);
        CHECK(total == (k > 88 ? 93 : longer) && whole == (k > 88));
        CHECK(memcmp(now, file, 5 + (k > 88 ? 88 : k)) == 0 && memcmp(now + 5 + k, old + 5 + k, sizeof old - 5 - k) == 0);
    }
    total = 146, end = 7, whole = 7;
    CHECK(zib_rewrite_ape_tail(file, sizeof file, &total, TEXT("12345"), 1, &end) == ZIB_NO_ROOM && total == 146 && end == 7);
    CHECK(zib_rewrite_within(file, sizeof file, &total, TEXT("12345"), 1, 9, &whole, &end) == ZIB_NO_ROOM && total == 146 && end == 7 && whole == 7);
    total = 93;
    CHECK(zib_rewrite_ape_tail(file, sizeof file, &total, TEXT("12345"), 1, &end) == ZIB_MALFORMED_AREA && total == 93 && end == 7);
    CHECK(zib_rewrite_ape_tail(file, 93, &total, TEXT(AREA AREA AREA), 3, &end) == ZIB_NO_ROOM && total == 93 && end == 7);
    CHECK(zib_rewrite_ape_tail(file, sizeof file, &total, NONE, 0, &end) == 0 && total == 5 && end == 5);
    CHECK(zib_rewrite_ape_tail(file, sizeof file, &total, NONE, 0, &end) == 0 && total == 5 && end == 5);
}

/* A picture: read, kept by every edit and brought back by undo; and which flags the gate turns away. */
static void pictures(void)
{
    uint8_t area[256], file[256], one[512], two[512], gain[1] = {10};
    uint32_t there = 7, repeated = 7;
    size_t count = 0, n = 0, m = 0, k = 0, peaks = 7, start = 7, end = 7;
    CHECK(zib_read_ape_tag(TEXT(ITEMS(COVER AREA, "\x3c", "\2")), area, sizeof area, &there, &count, &n) == 0 && count == 2 && IS(area, n, COVER AREA));
    CHECK(zib_replace_ape_tag(TEXT("audio"), area, n, count, file, sizeof file, &m) == 0 && m == 5 + 64 + 28);
    CHECK(zib_gate(file, m, &start, &end, &count) == 0 && start == 37 && end == 65 && count == 2);
    CHECK(zib_level(file, m, gain, 1, NONE, 5, 5, true, one, sizeof one, &n, &peaks) == 0 && memcmp(one + 37, COVER AREA, 28) == 0);
    CHECK(zib_set_ape_item(one, n, TEXT("Title"), TEXT("Floor"), two, sizeof two, &k) == 0 && memcmp(two + 37, COVER AREA, 28) == 0);
    CHECK(zib_remove_ape_item(two, k, TEXT("title"), one, sizeof one, &n) == 0);
    CHECK(zib_undo(one, n, gain, 1, NONE, two, sizeof two, &k, &peaks) == 0 && gain[0] == 10 && k == m && memcmp(two, file, m) == 0);
    CHECK(zib_set_ape_item(file, m, TEXT("Cover"), TEXT("x"), one, sizeof one, &n) == 0);
    CHECK(memcmp(one + 37, "\1\0\0\0" "\1\0\0\0" "COVER\0" "x", 15) == 0); /* text now, and read-only still */
    CHECK(zib_set(TEXT(COVER), 1, TEXT("cover"), TEXT("x"), one, sizeof one, &count, &n) == 0 && IS(one, n, "\1\0\0\0" "\1\0\0\0" "COVER\0" "x"));
    CHECK(zib_get(TEXT(COVER), 1, TEXT("cover"), &there, &start, &end, &repeated) == 0 && there == 1 && start == 14 && end == 2);
    CHECK(zib_remove(TEXT(COVER AREA), 2, TEXT("ab"), one, sizeof one, &count, &n) == 0 && count == 1 && IS(one, n, COVER));
    /* type 3 is read as text, and not edited; so are bits above bit 2 */
    CHECK(zib_read_ape_tag(TEXT(ITEMS(FLAGGED("\6\0\0\0", "\xff"), "\x2c", "\1")), area, sizeof area, &there, &count, &n) == 0 && IS(area, n, "\3\0\0\0" "\6\0\0\0" "AB\0" "\xef\xbf\xbd"));
    CHECK(zib_gate(TEXT(ITEMS(FLAGGED("\6\0\0\0", "x"), "\x2c", "\1")), &start, &end, &count) == ZIB_NOT_EDITABLE);
    CHECK(zib_gate(TEXT(ITEMS(FLAGGED("\x8\0\0\0", "x"), "\x2c", "\1")), &start, &end, &count) == ZIB_NOT_EDITABLE);
    CHECK(zib_gate(TEXT(ITEMS(FLAGGED("\0\0\0\x80", "x"), "\x2c", "\1")), &start, &end, &count) == ZIB_NOT_EDITABLE);
    CHECK(zib_gate(TEXT(ITEMS(FLAGGED("\5\0\0\0", "\xff"), "\x2c", "\1")), &start, &end, &count) == ZIB_NOT_EDITABLE);
    CHECK(zib_gate(TEXT(ITEMS(FLAGGED("\5\0\0\0", "x"), "\x2c", "\1")), &start, &end, &count) == 0 && count == 1);
    CHECK(zib_gate(TEXT(ITEMS(FLAGGED("\3\0\0\0", "\xff"), "\x2c", "\1")), &start, &end, &count) == 0 && count == 1);
}

/* A length is what its call needs to the byte: with so much it is done, with a byte less it answers 5. A refusal leaves the number. */
static void lengths(void)
{
    static uint8_t large[ZIB_FILE_LIMIT + 1], tagged[209] = "audio" TAG "TAG";
    uint8_t out[512], back[512], gain[1] = {10};
    size_t n = 7, m = 7, k = 7, peaks = 7;
    CHECK(zib_set_length(NONE, TEXT("AB"), TEXT("c"), &n) == 0 && n == 76);
    CHECK(zib_set_length(TEXT(TAG), TEXT("ab"), TEXT("c"), &n) == 0 && n == 76 && zib_remove_length(TEXT(TAG), TEXT("ab"), &n) == 0 && n == 0);
    CHECK(zib_set_length(tagged + 81, 128, TEXT("AB"), TEXT("c"), &n) == 0 && n == 204);
    CHECK(zib_set_length(NONE, TEXT("AB"), TEXT("\xff"), &n) == ZIB_NOT_UTF8 && zib_set_length(NONE, TEXT("A"), TEXT("c"), &n) == ZIB_BAD_KEY && n == 204);
    CHECK(zib_set_length(NONE, TEXT("AB"), large, ZIB_AREA_LIMIT + 1, &n) == ZIB_TAG_TOO_LARGE && zib_set_length(TEXT(END("\x80")), TEXT("AB"), TEXT("c"), &n) == ZIB_NOT_EDITABLE);
    CHECK(zib_set_length(large, ZIB_FILE_LIMIT + 1, TEXT("AB"), TEXT("c"), &n) == ZIB_FILE_TOO_LONG && zib_set_length(large, ZIB_FILE_LIMIT, TEXT("AB"), TEXT("c"), &n) == ZIB_NO_ROOM && n == 204);
    CHECK(zib_set_length(large, ZIB_FILE_LIMIT, TEXT("AB"), large, ZIB_AREA_LIMIT + 1, &n) == ZIB_TAG_TOO_LARGE && n == 204);
    CHECK(zib_set_length(large, ZIB_FILE_LIMIT - 76, TEXT("AB"), TEXT("c"), &n) == 0 && n == ZIB_FILE_LIMIT);
    CHECK(zib_set_length(tagged, sizeof tagged, TEXT("CD"), TEXT("e"), &n) == 0 && n == 221);
    CHECK(zib_set_ape_item(tagged, sizeof tagged, TEXT("CD"), TEXT("e"), out, n - 1, &m) == ZIB_NO_ROOM && m == 7);
    CHECK(zib_set_ape_item(tagged, sizeof tagged, TEXT("CD"), TEXT("e"), out, n, &m) == 0 && m == n);
    CHECK(zib_remove_length(out, m, TEXT("cd"), &n) == 0 && n == sizeof tagged);
    CHECK(zib_remove_ape_item(out, m, TEXT("cd"), back, n - 1, &k) == ZIB_NO_ROOM && zib_remove_ape_item(out, m, TEXT("cd"), back, n, &k) == 0 && k == n);
    CHECK(zib_level_length(NONE, gain, 1, NONE, 5, 5, false, &n) == 0 && n == 126);
    CHECK(zib_level_length(NONE, NONE, gain, 1, 5, 5, false, &n) == ZIB_NO_LEFT_GAINS && zib_level_length(NONE, gain, 1, NONE, 256, 5, false, &n) == ZIB_STEP_OUT_OF_RANGE && n == 126);
    CHECK(zib_level(NONE, gain, 1, NONE, 5, 5, false, out, n - 1, &m, &peaks) == ZIB_NO_ROOM && gain[0] == 10);
    CHECK(zib_level(NONE, gain, 1, NONE, 5, 5, false, out, n, &m, &peaks) == 0 && m == n && gain[0] == 15);
    CHECK(zib_level_length(out, m, gain, 1, NONE, 5, 5, true, &n) == ZIB_FLAG_DIFFERS && zib_undo_length(NONE, gain, 1, NONE, &n) == ZIB_NO_UNDO && n == 126);
    CHECK(zib_level_by_slip_length(TEXT(FIVES), out, m, gain, 1, NONE, &n) == 0 && n == 126);
    CHECK(zib_level_by_slip_length(TEXT(FIVES "mode=W\n"), out, m, gain, 1, NONE, &n) == ZIB_FLAG_DIFFERS && zib_level_by_slip_length(TEXT("left=5\n"), out, m, gain, 1, NONE, &n) == ZIB_MALFORMED_SLIP);
    CHECK(zib_level_by_slip(TEXT(FIVES), out, m, gain, 1, NONE, back, n - 1, &k, &peaks) == ZIB_NO_ROOM && gain[0] == 15);
    CHECK(zib_level_by_slip(TEXT(FIVES), out, m, gain, 1, NONE, back, n, &k, &peaks) == 0 && k == n && gain[0] == 20);
    CHECK(zib_undo_length(back, k, gain, 1, NONE, &n) == 0 && n == 0 && zib_undo(back, k, gain, 1, NONE, out, n, &m, &peaks) == 0 && m == 0 && gain[0] == 10);
}

/* Every slice of every call as NULL with length 0. */
static void empty(void)
{
    uint8_t out[256], gain[1] = {9};
    static uint8_t text[ZIB_LIST_ROOM];
    uint32_t there = 7, flag = 7;
    int32_t left = 7, right = 7;
    size_t a = 7, b = 7, c = 7, d = 7;
    CHECK(!zib_read_u32_le(NONE, 0, &flag) && flag == 7);
    CHECK(!zib_ends_with_id3v1(NONE));
    CHECK(zib_ape_tag_start(NONE, 0, &there, &a) == 0 && there == 0 && a == 0);
    CHECK(zib_is_utf8(NONE));
    CHECK(zib_lossy_size(NONE, 0, &a) == 0 && a == 0);
    CHECK(zib_lossy_into(NONE, NONE, &a) == 0 && a == 0);
    CHECK(zib_lossy_into(TEXT("x"), NONE, &a) == ZIB_NO_ROOM);
    CHECK(zib_parse_undo(NONE, &left, &right, &flag) == 0 && left == 0 && right == 0 && flag == 0);
    CHECK(zib_format_undo_value(1, 2, true, NONE, &a) == ZIB_NO_ROOM);
    CHECK(zib_accumulate_undo(NONE, 5, -5, &left, &right) == 0 && left == -5 && right == 5);
    CHECK(zib_format_minmax(1, 2, NONE, &a) == ZIB_NO_ROOM);
    CHECK(!zib_range_wraps_out(NONE, NONE, 255) && !zib_range_wraps_out(TEXT("MP3GAIN_MINMAX"), NONE, 255));
    a = 7;
    CHECK(zib_shift_stored_value(NONE, NONE, 1, &flag, NONE, &a) == 0 && flag == 0 && a == 0);
    CHECK(zib_shift_stored_value(TEXT("MP3GAIN_MINMAX"), TEXT("1,2"), 1, &flag, NONE, &a) == ZIB_NO_ROOM);
    CHECK(zib_parse_slip(NONE, &left, &right, &flag) == ZIB_MALFORMED_SLIP);
    CHECK(zib_resolve_mode(NONE, ZIB_MODE_UNNAMED, &flag) == 0 && flag == ZIB_MODE_W);
    CHECK(zib_level_by_slip(NONE, NONE, NONE, NONE, NONE, &a, &b) == ZIB_MALFORMED_SLIP);
    CHECK(zib_level_by_slip(TEXT(FIVES), NONE, NONE, NONE, NONE, &a, &b) == ZIB_NO_LEFT_GAINS);
    CHECK(zib_level_by_slip(TEXT(FIVES), NONE, gain, 1, NONE, NONE, &a, &b) == ZIB_NO_ROOM && gain[0] == 9);
    CHECK(zib_read_gains(NONE, NONE, NONE, &a, &b) == ZIB_NO_FRAME);
    CHECK(zib_level_mp3(NONE, 1, 1, ZIB_MODE_W, NONE, &a, &b) == ZIB_NO_FRAME && zib_undo_mp3(NONE, NONE, &a, &b) == ZIB_NO_FRAME);
    CHECK(!zib_fixed_range(NONE, &there, &flag) && zib_compare_range_views(NONE) == ZIB_NEITHER);
    CHECK(!zib_is_key(NONE) && zib_which_key(NONE) == 8);
    CHECK(zib_item_at(NONE, 0, &there, &flag, &a, &b, &c, &d) == 0 && there == 0 && flag == 0 && a == 0 && b == 0 && c == 0 && d == 0);
    CHECK(zib_get(NONE, 0, TEXT("AB"), &there, &a, &b, &flag) == 0 && there == 0 && flag == 0);
    CHECK(zib_get(NONE, 0, NONE, &there, &a, &b, &flag) == ZIB_BAD_KEY && zib_get(NONE, 1, NONE, &there, &a, &b, &flag) == ZIB_MALFORMED_AREA);
    CHECK(zib_get_undo_gain(NONE, 0, &there, &left) == 0 && there == 0 && left == 0);
    CHECK(zib_set(NONE, 0, TEXT("AB"), NONE, out, sizeof out, &a, &b) == 0 && a == 1 && b == 11);
    CHECK(zib_set(NONE, 0, NONE, NONE, NONE, &a, &b) == ZIB_BAD_KEY && zib_set(NONE, 0, TEXT("AB"), NONE, NONE, &a, &b) == ZIB_NO_ROOM);
    CHECK(zib_remove(NONE, 0, TEXT("AB"), NONE, &a, &b) == 0 && a == 0 && b == 0 && zib_remove(NONE, 0, NONE, NONE, &a, &b) == ZIB_BAD_KEY);
    CHECK(zib_remove_replaygain(NONE, 0, NONE, &a, &b) == 0 && a == 0 && b == 0);
    CHECK(zib_drop_undone(NONE, 0, NONE, &a, &b) == 0 && a == 0 && b == 0);
    CHECK(zib_take_mp3gain(NONE, 0, NONE, &a, &b) == 0 && a == 0 && b == 0);
    CHECK(zib_set_undo_gain(NONE, 0, 1, 2, true, out, sizeof out, &a, &b) == 0 && zib_set_undo_gain(NONE, 0, 1, 2, true, NONE, &a, &b) == ZIB_NO_ROOM);
    CHECK(zib_set_minmax(NONE, 0, 1, 2, out, sizeof out, &a, &b) == 0 && zib_set_minmax(NONE, 0, 1, 2, NONE, &a, &b) == ZIB_NO_ROOM);
    CHECK(zib_set_replaygain(NONE, 0, NONE, NONE, NONE, NONE, NONE, NONE, &a, &b) == 0 && a == 0 && b == 0);
    CHECK(zib_set_replaygain(NONE, 0, NONE, NONE, NONE, NONE, TEXT("x"), NONE, &a, &b) == ZIB_NO_ROOM);
    CHECK(zib_shift_stored_gain(NONE, 0, 1, true, NONE, &a, &b) == 0 && a == 0 && b == 0);
    CHECK(zib_find_ape_footer(NONE, &there, &a) == 0 && there == 0 && a == 0);
    CHECK(zib_read_ape_tag(NONE, NONE, &there, &a, &b) == 0 && there == 0);
    CHECK(zib_read_ape_tag(TEXT(TAG), NONE, &there, &a, &b) == ZIB_NO_ROOM);
    CHECK(zib_serialize_ape_tag(NONE, 0, NONE, &a) == 0 && a == 0 && zib_serialize_ape_tag(TEXT(AREA), 1, NONE, &a) == ZIB_NO_ROOM);
    CHECK(zib_split_ape_tag(NONE, &a, &b, &c) == 0 && a == 0 && b == 0 && c == 0);
    CHECK(zib_ape_tag_parts(NONE, &a, &b, &c) == 0 && a == 0 && b == 0 && c == 0);
    CHECK(zib_cut_ape_tag(NONE, &a, &b, &c) == 0 && a == 0 && b == 0 && c == 0);
    CHECK(zib_find_audio_end(NONE, &a) == 0 && a == 0);
    CHECK(zib_replace_ape_tag(NONE, NONE, 0, NONE, &a) == 0 && a == 0 && zib_replace_ape_tag(NONE, TEXT(AREA), 1, NONE, &a) == ZIB_NO_ROOM);
    CHECK(zib_bytes_needed(NONE, 0, &a) == 0 && a == 0 && zib_read_end(NONE, 0, NONE, &there, &a, &b) == 0 && there == 0);
    a = 0;
    CHECK(zib_rewrite_ape_tail(NONE, &a, NONE, 0, &b) == 0 && a == 0 && b == 0 && zib_rewrite_ape_tail(NONE, &a, TEXT(AREA), 1, &b) == ZIB_NO_ROOM);
    CHECK(zib_rewrite_within(NONE, &a, NONE, 0, 1, &there, &b) == 0 && there == 1 && a == 0 && b == 0);
    CHECK(zib_gate(NONE, &a, &b, &c) == 0 && a == 0 && b == 0 && c == 0);
    CHECK(zib_set_ape_item(NONE, TEXT("AB"), NONE, out, sizeof out, &a) == 0 && a == 75);
    CHECK(zib_set_ape_item(NONE, NONE, NONE, NONE, &a) == ZIB_BAD_KEY && zib_set_ape_item(NONE, TEXT("AB"), NONE, NONE, &a) == ZIB_NO_ROOM);
    CHECK(zib_remove_ape_item(NONE, TEXT("AB"), NONE, &a) == 0 && a == 0 && zib_remove_ape_item(NONE, NONE, NONE, &a) == ZIB_BAD_KEY);
    CHECK(zib_level(NONE, NONE, NONE, 1, 1, false, NONE, &a, &b) == ZIB_NO_LEFT_GAINS);
    CHECK(zib_level(NONE, gain, 1, NONE, 1, 1, false, NONE, &a, &b) == ZIB_NO_ROOM && gain[0] == 9);
    CHECK(zib_level(NONE, gain, 1, NONE, 1, 1, false, out, sizeof out, &a, &b) == 0 && gain[0] == 10 && a == 126);
    CHECK(zib_undo(NONE, NONE, NONE, NONE, &c, &d) == ZIB_NO_LEFT_GAINS && zib_undo(NONE, gain, 1, NONE, NONE, &c, &d) == ZIB_NO_UNDO);
    CHECK(zib_undo(out, a, gain, 1, NONE, NONE, &c, &d) == 0 && gain[0] == 9 && c == 0);
    CHECK(zib_set_length(NONE, NONE, NONE, &a) == ZIB_BAD_KEY && zib_set_length(NONE, TEXT("AB"), NONE, &a) == 0 && a == 75);
    CHECK(zib_remove_length(NONE, NONE, &a) == ZIB_BAD_KEY && zib_remove_length(NONE, TEXT("AB"), &a) == 0 && a == 0);
    CHECK(zib_level_length(NONE, NONE, NONE, 1, 1, false, &a) == ZIB_NO_LEFT_GAINS && zib_undo_length(NONE, NONE, NONE, &a) == ZIB_NO_LEFT_GAINS);
    CHECK(zib_level_by_slip_length(NONE, NONE, NONE, NONE, &a) == ZIB_MALFORMED_SLIP && zib_level_by_slip_length(TEXT(FIVES), NONE, NONE, NONE, &a) == ZIB_NO_LEFT_GAINS);
    CHECK(zib_list_tag(NONE, text) == 11 && IS(text, 11, "items=none\n"));
}

/* a footer of a tag without a header: its size and its count have two bytes each */
#define BARE(size, count) "APETAGEX" "\xd0\7\0\0" size "\0\0" count "\0\0" "\0\0\0\0" "\0\0\0\0" "\0\0\0\0"
#define UNDO "\0\0\0\0" "\0\0\0\0" "MP3GAIN_UNDO\0"
#define GAIN "\10\0\0\0" "\0\0\0\0" "REPLAYGAIN_ALBUM_GAIN\0" "9.000000"
enum { GAINS = ZIB_ITEM_LIMIT - 2, GAIN_LEN = sizeof(GAIN) - 1 };

/* Room that docs/LIBRARY.md says is enough, where it is needed to the byte, and a byte less. */
static void rooms(void)
{
    static uint8_t area[GAINS * GAIN_LEN], file[GAINS * GAIN_LEN + 32], out[GAINS * GAIN_LEN + 32 * ZIB_ITEM_LIMIT + 200];
    uint8_t gain[1] = {9};
    uint32_t there = 7;
    size_t a = 7, b = 7;
    CHECK(zib_undo(TEXT(UNDO AREA BARE("\x41\0", "\2\0")), gain, 1, NONE, out, 65 + 11, &a, &b) == 0 && IS(out, a, TAG));
    CHECK(zib_undo(TEXT(UNDO AREA BARE("\x41\0", "\2\0")), gain, 1, NONE, out, 65 + 10, &a, &b) == ZIB_NO_ROOM);
    CHECK(zib_set_ape_item(TEXT("audio"), TEXT("ab"), TEXT("c"), out, 5 + 2 + 1 + 73, &a) == 0 && IS(out, a, "audio" TAG));
    CHECK(zib_set_ape_item(TEXT("audio"), TEXT("ab"), TEXT("c"), out, 5 + 2 + 1 + 72, &a) == ZIB_NO_ROOM);
    CHECK(zib_remove_ape_item(TEXT(AREA BARE("\x2c\0", "\1\0")), TEXT("xy"), out, 44 + 32, &a) == 0 && IS(out, a, TAG));
    CHECK(zib_remove_ape_item(TEXT(AREA BARE("\x2c\0", "\1\0")), TEXT("xy"), out, 44 + 31, &a) == ZIB_NO_ROOM);
    CHECK(zib_replace_ape_tag(TEXT("audio"), TEXT(AREA), 1, out, 5 + 12 + 64, &a) == 0 && IS(out, a, "audio" TAG));
    CHECK(zib_replace_ape_tag(TEXT("audio"), TEXT(AREA), 1, out, 5 + 12 + 63, &a) == ZIB_NO_ROOM);
    memcpy(out, "audio", 5), a = 5;
    CHECK(zib_rewrite_ape_tail(out, 5 + 12 + 63, &a, TEXT(AREA), 1, &b) == ZIB_NO_ROOM && zib_rewrite_ape_tail(out, 5 + 12 + 64, &a, TEXT(AREA), 1, &b) == 0 && IS(out, a, "audio" TAG));
    CHECK(zib_read_end(TEXT("\2\0\0\0" "\0\0\0\0" "\xff\xff\0" "\xff\xff" BARE("\x2d\0", "\1\0")), 45, out, 3 * 45, &there, &a, &b) == 0 && b == 21);
    CHECK(zib_serialize_ape_tag(TEXT(AREA), 1, out, 12 + 64, &a) == 0 && zib_serialize_ape_tag(TEXT(AREA), 1, out, 12 + 63, &a) == ZIB_NO_ROOM);
    CHECK(zib_lossy_into(TEXT("\xff\xff"), out, 6, &a) == 0 && a == 6 && zib_lossy_into(TEXT("\xff\xff"), out, 5, &a) == ZIB_NO_ROOM);
    CHECK(zib_set(TEXT(AREA), 1, TEXT("cd"), TEXT("e"), out, 12 + 2 + 1 + 9, &a, &b) == 0 && b == 24);
    CHECK(zib_set(TEXT(AREA), 1, TEXT("cd"), TEXT("e"), out, 12 + 2 + 1 + 8, &a, &b) == ZIB_NO_ROOM);
    CHECK(zib_remove(TEXT(AREA), 1, TEXT("cd"), out, 12, &a, &b) == 0 && zib_remove(TEXT(AREA), 1, TEXT("cd"), out, 11, &a, &b) == ZIB_NO_ROOM);
    CHECK(zib_remove_replaygain(TEXT(AREA), 1, out, 12, &a, &b) == 0 && zib_remove_replaygain(TEXT(AREA), 1, out, 11, &a, &b) == ZIB_NO_ROOM);
    CHECK(zib_drop_undone(TEXT(AREA), 1, out, 12, &a, &b) == 0 && zib_drop_undone(TEXT(AREA), 1, out, 11, &a, &b) == ZIB_NO_ROOM);
    CHECK(zib_take_mp3gain(TEXT(AREA), 1, out, 12, &a, &b) == 0 && zib_take_mp3gain(TEXT(AREA), 1, out, 11, &a, &b) == ZIB_NO_ROOM);
    CHECK(zib_set_undo_gain(TEXT(AREA), 1, INT32_MIN, INT32_MIN, true, out, 12 + 46, &a, &b) == 0 && b == 58);
    CHECK(zib_set_undo_gain(TEXT(AREA), 1, INT32_MIN, INT32_MIN, true, out, 12 + 45, &a, &b) == ZIB_NO_ROOM);
    CHECK(zib_set_minmax(TEXT(AREA), 1, 0, 255, out, 12 + 30, &a, &b) == 0 && zib_set_minmax(TEXT(AREA), 1, 0, 255, out, 12 + 29, &a, &b) == ZIB_NO_ROOM);
    CHECK(zib_set_replaygain(TEXT(AREA), 1, TEXT("a"), TEXT("b"), TEXT("c"), TEXT("d"), TEXT("e"), out, 12 + 149 + 5, &a, &b) == 0 && b == 166);
    CHECK(zib_set_replaygain(TEXT(AREA), 1, TEXT("a"), TEXT("b"), TEXT("c"), TEXT("d"), TEXT("e"), out, 12 + 149 + 4, &a, &b) == ZIB_NO_ROOM);
    CHECK(zib_format_undo_value(INT32_MIN, INT32_MIN, true, out, 25, &a) == 0 && zib_format_undo_value(INT32_MIN, INT32_MIN, true, out, 24, &a) == ZIB_NO_ROOM);
    CHECK(zib_format_minmax(0, 255, out, 7, &a) == 0 && zib_format_minmax(0, 255, out, 6, &a) == ZIB_NO_ROOM);
    /* The most that reading grows, and as many gain texts as level can move, each of which grows by 6 bytes. */
    CHECK(zib_read_ape_tag(TEXT("\2\0\0\0" "\0\0\0\0" "\xff\xff\0" "\xff\xff" BARE("\x2d\0", "\1\0")), out, 3 * 45, &there, &a, &b) == 0 && b == 21);
    for (size_t i = 0; i < GAINS; i++)
        memcpy(area + i * GAIN_LEN, GAIN, GAIN_LEN);
    memcpy(file, area, sizeof area);
    memcpy(file + sizeof area, BARE("\0\0", "\0\0"), 32);
    file[sizeof area + 12] = (uint8_t)sizeof file, file[sizeof area + 13] = (uint8_t)(sizeof file >> 8), file[sizeof area + 16] = (uint8_t)GAINS;
    CHECK(zib_shift_stored_gain(area, sizeof area, GAINS, -255, false, out, sizeof area + 32 * GAINS, &a, &b) == 0 && b == sizeof area + 6 * GAINS);
    CHECK(zib_level(file, sizeof file, gain, 1, NONE, -255, -255, false, out, sizeof file + 32 * GAINS + 140, &a, &b) == 0);
    CHECK(a == sizeof file + 32 + 6 * GAINS + 62);
}

/* The limits of the header are those of the library: each is reached, and passed by one. */
static void limits(void)
{
    static uint8_t file[ZIB_FILE_LIMIT + 1], area[11 + ZIB_AREA_LIMIT], one[ZIB_AREA_LIMIT + 200], two[ZIB_AREA_LIMIT + 200], text[ZIB_LIST_ROOM];
    uint8_t key[4] = "K000";
    size_t n = 0, m = 0, count = 0, start = 0, end = 0;
    uint32_t there = 7;
    CHECK(zib_lossy_size(file, ZIB_FILE_LIMIT, SIZE_MAX, &n) == 0 && n == ZIB_FILE_LIMIT && zib_lossy_size(file, ZIB_FILE_LIMIT + 1, SIZE_MAX, &n) == 0 && n == ZIB_FILE_LIMIT + 1);
    CHECK(zib_find_ape_footer(file, ZIB_FILE_LIMIT, &there, &n) == 0 && zib_find_ape_footer(file, ZIB_FILE_LIMIT + 1, &there, &n) == ZIB_FILE_TOO_LONG);
    CHECK(zib_list_tag(file, ZIB_LIST_LIMIT, text) == 11 && zib_list_tag(file, ZIB_LIST_LIMIT + 1, text) == 10);
    n = 0;
    for (int i = 0; i < ZIB_ITEM_LIMIT; i++) {
        key[1] = (uint8_t)('0' + i / 100), key[2] = (uint8_t)('0' + i / 10 % 10), key[3] = (uint8_t)('0' + i % 10);
        CHECK(zib_set_ape_item(i % 2 ? two : one, n, key, 4, NONE, i % 2 ? one : two, sizeof one, &n) == 0);
    }
    const uint8_t *full = ZIB_ITEM_LIMIT % 2 ? two : one;
    CHECK(zib_gate(full, n, &start, &end, &count) == 0 && count == ZIB_ITEM_LIMIT);
    CHECK(zib_set_ape_item(full, n, TEXT("one more"), NONE, file, sizeof file, &m) == ZIB_TAG_TOO_LARGE);
    CHECK(zib_set_ape_item(NONE, TEXT("AB"), area, ZIB_AREA_LIMIT - 11, file, sizeof file, &m) == 0 && m == ZIB_AREA_LIMIT + 64);
    CHECK(zib_set_ape_item(NONE, TEXT("AB"), area, ZIB_AREA_LIMIT - 10, file, sizeof file, &m) == ZIB_TAG_TOO_LARGE);
}

int main(void)
{
    frame();
    utf8();
    values();
    slips();
    tally();
    sound();
    amplitudes();
    fixed_ranges();
    items();
    files();
    tails();
    pictures();
    lengths();
    empty();
    rooms();
    limits();
    printf("faces: %d failed\n", failed);
    return failed != 0;
}
