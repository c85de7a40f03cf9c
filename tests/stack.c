/* What each call takes of the stack: it runs on a stack that was filled with one byte, and the lowest byte that changed shows how far it
 * went. Prints a line for each call: its name and the bytes below the caller's frame, the most of all inputs that are tried. */
#include "zibrunnos.h"
#include <pthread.h>
#include <stdio.h>
#include <stdlib.h>
#include <string.h>

enum { STACK = 1 << 20, FILL = 0xA5, ROOM = 1 << 18 };

static uint8_t *stack;
static uint8_t file[ROOM], area[ROOM], out[ROOM], text[ZIB_LIST_ROOM], left[1000], right[1000];
static size_t file_len, area_len, count;

/* The tags: none, one item, and the most items and bytes that a tag may have, with ranges and gain texts among them. */
enum { TAGS = 3 };

static size_t put_item(size_t at, const char *key, const char *value, size_t value_len)
{
    size_t n = strlen(key) + 1;
    area[at] = (uint8_t)value_len, area[at + 1] = (uint8_t)(value_len >> 8), area[at + 2] = area[at + 3] = 0;
    memset(area + at + 4, 0, 4);
    memcpy(area + at + 8, key, n);
    memcpy(area + at + 8 + n, value, value_len);
    return at + 8 + n + value_len;
}

static void make(int tag)
{
    static char filler[ZIB_AREA_LIMIT];
    static const char *keys[] = {"MP3GAIN_UNDO", "MP3GAIN_MINMAX", "MP3GAIN_ALBUM_MINMAX", "REPLAYGAIN_TRACK_GAIN"};
    static const char *values[] = {"+003,-012,N", "094,168", "000,200", "-3.500000 dB"};
    area_len = count = 0;
    if (tag == 1) {
        area_len = put_item(0, "MP3GAIN_UNDO", "+003,-012,N", 11);
        count = 1;
    }
    if (tag == 2) {
        memset(filler, 'x', sizeof filler);
        for (size_t i = 0; i < ZIB_ITEM_LIMIT - 3; i++) {
            const char *value = values[i % 4];
            area_len = put_item(area_len, i < 4 ? keys[i] : "REPLAYGAIN_ALBUM_GAIN", i < 4 ? value : "9.000000", strlen(i < 4 ? value : "9.000000"));
        }
        /* Room for what level adds: 6 bytes to each gain text. */
        size_t rest = ZIB_AREA_LIMIT - area_len - 8 * ZIB_ITEM_LIMIT - 100;
        area_len = put_item(area_len, "FILLER", filler, rest);
        count = ZIB_ITEM_LIMIT - 2;
    }
    /* A frame of Layer III, and silence. */
    static const uint8_t sound[5000] = {0xFF, 0xF3, 0x14, 0xC0, 0, 0, 0, 0x01, 0x40};
    if (zib_replace_ape_tag(sound, sizeof sound, area, area_len, count, file, sizeof file, &file_len) != 0) {
        printf("stack: the file of tag %d is not made\n", tag);
        exit(1);
    }
}

static const char *names[] = {
    "zib_level", "zib_undo", "zib_shift_stored_gain", "zib_set_ape_item", "zib_remove_ape_item", "zib_gate", "zib_find_ape_footer", "zib_read_ape_tag",
    "zib_serialize_ape_tag", "zib_split_ape_tag", "zib_replace_ape_tag", "zib_list_tag", "zib_is_key", "zib_which_key", "zib_item_at", "zib_get",
    "zib_get_undo_gain", "zib_set", "zib_remove", "zib_remove_replaygain", "zib_drop_undone", "zib_take_mp3gain", "zib_set_undo_gain", "zib_set_minmax",
    "zib_set_replaygain", "zib_parse_undo", "zib_format_undo_value", "zib_accumulate_undo", "zib_format_minmax", "zib_range_wraps_out",
    "zib_steps_to_db", "zib_shift_stored_value", "zib_parse_slip", "zib_is_utf8", "zib_lossy_size", "zib_lossy_into", "zib_read_u32_le",
    "zib_ends_with_id3v1", "zib_ape_tag_start", "zib_adjust_gain_value", "zib_resolve_mode", "zib_level_by_slip", "zib_amplitudes",
    "zib_fixed_range", "zib_compare_range_views", "zib_ape_tag_parts", "zib_find_audio_end", "zib_tally",
    "zib_read_gains", "zib_level_mp3", "zib_undo_mp3",
    "zib_bytes_needed", "zib_read_end",
    "zib_rewrite_ape_tail", "zib_rewrite_within",
    "zib_set_length", "zib_remove_length", "zib_level_length", "zib_level_by_slip_length", "zib_undo_length",
    "zib_cut_ape_tag",
};
enum { CALLS = sizeof names / sizeof *names, WAYS = 3 };

/* Each call, in the order of the names; `way` varies its arguments. Level and undo must be done where they can be, so that they go all the
 * way. */
static void call(int which, int way, int tag)
{
    static size_t a, b, c, d;
    static uint32_t t, f;
    static int32_t l, r;
    static uint64_t m, e;
    static double x, y;
    const uint8_t *k = (const uint8_t *)(way == 0 ? "MP3GAIN_UNDO" : way == 1 ? "new key here" : "FILLER\0\0\0\0\0\0"), *v = (const uint8_t *)"-3.500000 dB\xe2\x82\xac";
    size_t kn = way == 2 ? 6 : 12, vn = way == 2 ? 12 : 15;
    uint32_t reply = 0;
    switch (which) {
    case 0:
        reply = zib_level(file, file_len, left, sizeof left, right, sizeof right, -3, way == 1 ? 5 : -3, tag == 0 && way == 2, out, sizeof out, &a, &b);
        if (reply != 0) {
            printf("stack: level is refused with %u\n", reply);
            exit(1);
        }
        break;
    case 1:
        reply = zib_undo(file, file_len, left, sizeof left, right, sizeof right, out, sizeof out, &a, &b);
        if (reply != (tag == 0 ? ZIB_NO_UNDO : 0)) {
            printf("stack: undo answers %u\n", reply);
            exit(1);
        }
        break;
    case 2: zib_shift_stored_gain(area, area_len, count, 200, way == 1, out, sizeof out, &a, &b); break;
    case 3: zib_set_ape_item(file, file_len, k, kn, v, vn, out, sizeof out, &a); break;
    case 4: zib_remove_ape_item(file, file_len, k, kn, out, sizeof out, &a); break;
    case 5: zib_gate(file, file_len, &a, &b, &c); break;
    case 6: zib_find_ape_footer(file, file_len, &t, &a); break;
    case 7: zib_read_ape_tag(file, file_len, out, way == 0 ? sizeof out : area_len, &t, &a, &b); break;
    case 8: zib_serialize_ape_tag(area, area_len, count, out, sizeof out, &a); break;
    case 9: zib_split_ape_tag(file, file_len, &a, &b, &c); break;
    case 10: zib_replace_ape_tag(file, file_len, area, area_len, count, out, sizeof out, &a); break;
    case 11: {
        size_t skip = file_len > ZIB_LIST_LIMIT ? file_len - ZIB_LIST_LIMIT : 0;
        static uint8_t end[ZIB_LIST_LIMIT];
        memcpy(end, file + skip, file_len - skip);
        /* A tag of all 16,384 bytes, of one item that grows threefold, has the longest listing. */
        if (way == 2) {
            memset(end, 0xFF, sizeof end);
            memcpy(end + sizeof end - 32, "APETAGEX\xd0\7\0\0\0\x40\0\0\1\0\0\0\0\0\0\0\0\0\0\0\0\0\0\0", 32);
            memcpy(end, "\xd5\x3f\0\0\0\0\0\0AB", 11);
        }
        a = zib_list_tag(end, way == 2 ? sizeof end : file_len - skip, text);
        break;
    }
    case 12: zib_is_key(k, kn); break;
    case 13: zib_which_key(k, kn); break;
    case 14: zib_item_at(area, area_len, 0, &t, &f, &a, &b, &c, &d); break;
    case 15: zib_get(area, area_len, count, k, kn, &t, &a, &b, &f); break;
    case 16: zib_get_undo_gain(area, area_len, count, &t, &l); break;
    case 17: zib_set(area, area_len, count, k, kn, v, vn, out, sizeof out, &a, &b); break;
    case 18: zib_remove(area, area_len, count, k, kn, out, sizeof out, &a, &b); break;
    case 19: zib_remove_replaygain(area, area_len, count, out, sizeof out, &a, &b); break;
    case 20: zib_drop_undone(area, area_len, count, out, sizeof out, &a, &b); break;
    case 21: zib_take_mp3gain(area, area_len, count, out, sizeof out, &a, &b); break;
    case 22: zib_set_undo_gain(area, area_len, count, -2147483647, 2147483647, true, out, sizeof out, &a, &b); break;
    case 23: zib_set_minmax(area, area_len, count, 0, 255, out, sizeof out, &a, &b); break;
    case 24: zib_set_replaygain(area, area_len, count, v, vn, v, vn, v, vn, v, vn, v, vn, out, sizeof out, &a, &b); break;
    case 25: zib_parse_undo(ZIB_TEXT("+003,-012,N"), &l, &r, &t); break;
    case 26: zib_format_undo_value(-2147483647, 2147483647, true, out, sizeof out, &a); break;
    case 27: zib_accumulate_undo(ZIB_TEXT("+003,-012,N"), 5, -5, &l, &r); break;
    case 28: zib_format_minmax(94, 168, out, sizeof out, &a); break;
    case 29: zib_range_wraps_out(ZIB_TEXT("MP3GAIN_MINMAX"), ZIB_TEXT("094,168"), 100); break;
    case 30: zib_steps_to_db(-2147483647, &t, &m, &e); break;
    case 31:
        if (way == 0)
            zib_shift_stored_value(ZIB_TEXT("MP3GAIN_MINMAX"), ZIB_TEXT("094,168"), 100, &t, out, sizeof out, &a);
        else
            zib_shift_stored_value(ZIB_TEXT("REPLAYGAIN_TRACK_GAIN"), ZIB_TEXT("-3.500000 dB"), 200, &t, out, sizeof out, &a);
        break;
    case 32: zib_parse_slip(ZIB_TEXT("left=-3\nright=+4\nmode=W\n"), &l, &r, &t); break;
    case 33: zib_is_utf8(way == 0 ? v : area, way == 0 ? 15 : area_len); break;
    case 34: zib_lossy_size(way == 0 ? v : area, way == 0 ? 15 : area_len, ROOM, &a); break;
    case 35: zib_lossy_into(way == 0 ? v : area, way == 0 ? 15 : area_len, out, way == 1 ? area_len : ROOM, &a); break;
    case 36: zib_read_u32_le(file, file_len, 0, &t); break;
    case 37: zib_ends_with_id3v1(file, file_len); break;
    case 38: zib_ape_tag_start(file, file_len, file_len < 32 ? 0 : file_len - 32, &t, &a); break;
    case 39: zib_adjust_gain_value(250, 10, way == 1); break;
    case 40: zib_resolve_mode(file, file_len, ZIB_MODE_UNNAMED, &t); break;
    case 41: {
        static const char *slips[] = {"left=-3\nright=-3\n", "left=-3\nright=5\n", "left=-3\nright=-3\n"};
        const uint8_t *slip = (const uint8_t *)slips[way];
        reply = zib_level_by_slip(slip, strlen(slips[way]), file, file_len, left, sizeof left, right, sizeof right, out, sizeof out, &a, &b);
        if (reply != 0) {
            printf("stack: level by a slip is refused with %u\n", reply);
            exit(1);
        }
        break;
    }
    case 42: zib_amplitudes(-3, way == 1 ? 256 : 5, &x, &y); break;
    case 43: zib_fixed_range(ZIB_TEXT("094,168"), &t, &f); break;
    case 44: zib_compare_range_views(ZIB_TEXT("094,168")); break;
    case 45: zib_ape_tag_parts(file, file_len, &a, &b, &c); break;
    case 46: zib_find_audio_end(file, file_len, &a); break;
    case 47: zib_tally(left, sizeof left, way == 2 ? 5 : -5, way == 1, &a, &b, &c, &t, &f); break;
    case 48: zib_read_gains(file, file_len, left, sizeof left, right, sizeof right, &a, &b); break;
    case 49: zib_level_mp3(file, file_len, -3, way == 1 ? 5 : -3, ZIB_MODE_UNNAMED, out, sizeof out, &a, &b); break;
    case 50: zib_undo_mp3(file, file_len, out, sizeof out, &a, &b); break;
    case 51: zib_bytes_needed(file + file_len - ZIB_PROBE, ZIB_PROBE, file_len, &a); break;
    case 52: zib_read_end(file, file_len, file_len, out, way == 0 ? sizeof out : area_len, &t, &a, &b); break;
    case 53:
        a = file_len;
        zib_rewrite_ape_tail(file, sizeof file, &a, area, way == 1 ? 0 : area_len, way == 1 ? 0 : count, &b);
        break;
    case 54:
        a = file_len;
        zib_rewrite_within(file, sizeof file, &a, area, area_len, count, way == 1 ? 50 : ROOM, &t, &b);
        break;
    case 55: zib_set_length(file, file_len, k, kn, v, vn, &a); break;
    case 56: zib_remove_length(file, file_len, k, kn, &a); break;
    case 57:
        reply = zib_level_length(file, file_len, left, sizeof left, right, sizeof right, -3, way == 1 ? 5 : -3, tag == 0 && way == 2, &a);
        break;
    case 58: {
        const char *slip = way == 1 ? "left=-3\nright=5\n" : "left=-3\nright=-3\n";
        reply = zib_level_by_slip_length((const uint8_t *)slip, strlen(slip), file, file_len, left, sizeof left, right, sizeof right, &a);
        break;
    }
    case 59: zib_undo_length(file, file_len, left, sizeof left, right, sizeof right, &a); break;
    case 60: zib_cut_ape_tag(file, file_len, &a, &b, &c); break;
    }
    if ((which == 57 || which == 58) && reply != 0) {
        printf("stack: the length of a level is refused with %u\n", reply);
        exit(1);
    }
}

struct job {
    int which, way, tag;
    size_t used;
};

/* The lowest byte of the stack that a call changed, as a distance from this frame. */
static void *run(void *argument)
{
    struct job *job = argument;
    uint8_t *here = __builtin_frame_address(0), *at = stack;
    call(job->which, job->way, job->tag);
    while (*at == FILL)
        at++;
    job->used = (size_t)(here - at);
    return NULL;
}

int main(void)
{
    if (posix_memalign((void **)&stack, 4096, STACK) != 0)
        return 1;
    for (int which = 0; which < CALLS; which++) {
        size_t most = 0;
        for (int tag = 0; tag < TAGS; tag++)
            for (int way = 0; way < WAYS; way++) {
                struct job job = {which, way, tag, 0};
                pthread_attr_t attr;
                pthread_t thread;
                make(tag);
                memset(left, 100, sizeof left);
                memset(right, 200, sizeof right);
                memset(stack, FILL, STACK);
                if (pthread_attr_init(&attr) != 0 || pthread_attr_setstack(&attr, stack, STACK) != 0 || pthread_create(&thread, &attr, run, &job) != 0 ||
                    pthread_join(thread, NULL) != 0) {
                    printf("stack: no thread can be made\n");
                    return 1;
                }
                if (job.used > most)
                    most = job.used;
            }
        printf("%s %zu\n", names[which], most);
    }
    return 0;
}
