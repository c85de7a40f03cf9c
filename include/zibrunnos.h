/* Zibrunnos: reads and edits the APEv2 tags of MP3 loops, levels their gains, and undoes it.
 *
 * Slices. Every call works on bytes that it is lent. A slice is a pointer and a length; where the length is 0 the pointer may be NULL. A
 * slice that a call writes must not overlap any other that it is lent. Pointers to single numbers (`written`, `there`, ..) must not be
 * NULL.
 *
 * Replies. A call that answers uint32_t gives 0 for done, or the number of a refusal (enum zib_refusal). A refused call changes nothing: no
 * output, no gain, no number. Bytes of an output past the reported length stay as they were. Where several refusals apply, the first of
 * this order is given: 13, 1, 12, 2, 3, 4, 15, 16, 7, 8, 14, 10, 9, 11, 6, 5; but 5 for a file said to be longer than its buffer comes before all.
 *
 * No call allocates, keeps anything between calls, or uses a global variable, so any number of threads may call at once, each with its own
 * outputs and gains. docs/LIBRARY.md has an example of each call, the stack that it takes, and the room that its output needs;
 * docs/TERMS.md has the words. */
#ifndef ZIBRUNNOS_H
#define ZIBRUNNOS_H

#include <stdbool.h>
#include <stddef.h>
#include <stdint.h>

#ifdef __cplusplus
extern "C" {
#endif

#define ZIB_FILE_LIMIT 16777216 /* bytes of a file, of an item area and of a tag */
#define ZIB_ITEM_LIMIT 41       /* items of a tag that is edited */
#define ZIB_AREA_LIMIT 32768    /* bytes of the items of a tag that is edited */
#define ZIB_LIST_LIMIT 16384    /* bytes of a file that is listed */
#define ZIB_LIST_ROOM 147473    /* bytes that hold every listing */
#define ZIB_PROBE 160           /* last bytes of a file that say how many of them reading needs */

/* A string literal as a slice: its pointer and its length, without the closing zero. It makes two arguments. */
#define ZIB_TEXT(literal) (const uint8_t *)(literal), sizeof(literal) - 1

enum zib_refusal {
    ZIB_FILE_TOO_LONG = 1,      /* the file has more than ZIB_FILE_LIMIT bytes */
    ZIB_STEP_OUT_OF_RANGE = 2,  /* a step lies outside -255..255 */
    ZIB_BAD_KEY = 3,            /* the key is not 2 to 255 bytes of hex 20..7E, or is ID3, TAG, OggS or MP+ in any letter case */
    ZIB_NOT_UTF8 = 4,           /* the value is not UTF-8 */
    ZIB_NO_ROOM = 5,            /* the output is too short, or the result would have more than ZIB_FILE_LIMIT bytes */
    ZIB_TAG_TOO_LARGE = 6,      /* the new tag would have more than ZIB_ITEM_LIMIT items or ZIB_AREA_LIMIT bytes of items */
    ZIB_NO_LEFT_GAINS = 7,      /* the list of left gains is empty */
    ZIB_NOT_EDITABLE = 8,       /* the file has a tag that does not pass the editing gate: see zib_gate */
    ZIB_FLAG_DIFFERS = 9,       /* the file was levelled with the other flag before */
    ZIB_NO_UNDO = 10,           /* the file has no undo item */
    ZIB_UNDO_OUT_OF_RANGE = 11, /* an undo number would leave -32,768..32,767 */
    ZIB_MALFORMED_AREA = 12,    /* the item area is not exactly `count` items */
    ZIB_MALFORMED_SLIP = 13,    /* the level slip has another form */
    ZIB_SECOND_UNDO = 14,       /* the file has more than one undo item */
    ZIB_NO_FRAME = 15,          /* the sound has no Layer III frame */
    ZIB_HAS_CHECKSUM = 16       /* a frame of the sound has a checksum, which other gains would make wrong */
};

/* The mode of a level slip: how gains meet the ends of 0..255. */
enum zib_mode {
    ZIB_MODE_N = 0,      /* they are held there: the flag N */
    ZIB_MODE_W = 1,      /* they wrap: the flag W */
    ZIB_MODE_UNNAMED = 2 /* the slip has no line that says so: see zib_resolve_mode */
};

/* ---- Level and undo: libc_level.a */

/* Moves every gain by its side's steps and writes the file with the undo item and the range of all gains in its tag. A gain is the 8-bit
 * global_gain of a granule and channel of an MP3 frame; the caller reads the gains from the sound and writes them back. `wrap` is the flag:
 * false for N (a gain is held within 0..255, and 0 stays 0), true for W (modulo 256). `right` is empty for a mono file. The new file goes
 * to the front of `out` and its length to `written`; `peaks` is the number of peak items in its tag that were left as found. An output of
 * file_len + 32 * ZIB_ITEM_LIMIT + 140 bytes is long enough for every file. Refusals 1, 2, 7, 8, 14, 9, 11, 6 and 5. */
uint32_t zib_level(
    const uint8_t *file, size_t file_len, uint8_t *left, size_t left_len, uint8_t *right, size_t right_len, int32_t left_steps,
    int32_t right_steps, bool wrap, uint8_t *out, size_t out_len, size_t *written, size_t *peaks);

/* Moves every gain back by the numbers and the flag of the stored undo item, and writes the file without mp3gain's eight keys. The new file
 * goes to the front of `out` and its length to `written`; `peaks` is 0. An output of file_len + 11 bytes is long enough for every file, and
 * one of file_len bytes for a file that was settled before it was levelled. Refusals 1, 7, 8, 14, 10 and 5. */
uint32_t zib_undo(
    const uint8_t *file, size_t file_len, uint8_t *left, size_t left_len, uint8_t *right, size_t right_len, uint8_t *out,
    size_t out_len, size_t *written, size_t *peaks);

/* Moves the ranges, the gain texts and the peaks in an area by so many steps, whatever the type of their items; with `wrap`, a range that
 * would leave 0..255 is dropped. A value that is moved counts as set. The new area goes to the front of `out`, the number of its items to `items` and
 * its length to `written`. An output of area_len + 32 * count bytes is long enough. Refusals 12, 2 and 5. */
uint32_t zib_shift_stored_gain(
    const uint8_t *area, size_t area_len, size_t count, int32_t steps, bool wrap, uint8_t *out, size_t out_len, size_t *items,
    size_t *written);

/* ---- The level slip, which asks for a level in three lines: libc_slip.a */

/* Reads a level slip: the steps of either side, and its mode. Refusals 13 and 2. */
uint32_t zib_parse_slip(const uint8_t *text, size_t text_len, int32_t *left, int32_t *right, uint32_t *mode);

/* Says what the mode of a slip means for a file: ZIB_MODE_N and ZIB_MODE_W stay as they are, and ZIB_MODE_UNNAMED becomes the flag of the
 * file's undo item, or ZIB_MODE_W where it has none or does not pass the editing gate. An undo text without a W has the flag N. It takes no
 * notice of a second undo item. Refusal 13 for a number that is no mode. */
uint32_t zib_resolve_mode(const uint8_t *file, size_t file_len, uint32_t mode, uint32_t *resolved);

/* Does what zib_level does, as a slip asks: by its steps, and by its mode as zib_resolve_mode says. Refusals 13, 1, 2, 7, 8, 14, 9, 11, 6
 * and 5. */
uint32_t zib_level_by_slip(
    const uint8_t *slip, size_t slip_len, const uint8_t *file, size_t file_len, uint8_t *left, size_t left_len, uint8_t *right,
    size_t right_len, uint8_t *out, size_t out_len, size_t *written, size_t *peaks);

/* ---- The gains in the sound of an MP3: libc_sound.a. The sound begins behind an ID3v2 tag at the file's first byte and ends where a new tag
 * would be put; its frames are MPEG-1 and MPEG-2 Layer III. Channel 0 is left, channel 1 right, and one channel alone is left. */

/* Reads the gains of an MP3, frame by frame and granule by granule, to the front of `left` and `right`, as many as each has room for, and
 * says how many there are on either side: with two empty lists it only counts. Refusals 1, 15 and 16. */
uint32_t zib_read_gains(
    const uint8_t *file, size_t file_len, uint8_t *left, size_t left_len, uint8_t *right, size_t right_len, size_t *left_count,
    size_t *right_count);

/* Does what zib_level does, with the gains in the sound of the file itself: the new file has them moved, and no other bit of its sound changed.
 * `mode` is an enum zib_mode, which zib_resolve_mode explains. `file` is not written. Refusals 13 for a number that is no mode, then 1, 2, 15,
 * 16, 8, 14, 9, 11, 6 and 5. */
uint32_t zib_level_mp3(
    const uint8_t *file, size_t file_len, int32_t left_steps, int32_t right_steps, uint32_t mode, uint8_t *out, size_t out_len,
    size_t *written, size_t *peaks);

/* Does what zib_undo does, with the gains in the sound of the file itself. Refusals 1, 15, 16, 8, 14, 10 and 5. */
uint32_t zib_undo_mp3(const uint8_t *file, size_t file_len, uint8_t *out, size_t out_len, size_t *written, size_t *peaks);

/* ---- Items of a file's tag, and the editing gate: libc_edit.a */

/* Sets an item in the tag of a file: the first item with this key gets the value and keeps its spelling and its place; where there is none,
 * an item with the key in upper case is added at the end. What is set is text: of the flags that the item had only read-only stays, and a
 * new item has flags zero. The new file goes to the front of `out` and its length to `written`. An output of file_len + key_len + value_len
 * + 73 bytes is long enough. Refusals 1, 3, 4, 8, 6 and 5. */
uint32_t zib_set_ape_item(
    const uint8_t *file, size_t file_len, const uint8_t *key, size_t key_len, const uint8_t *value, size_t value_len, uint8_t *out,
    size_t out_len, size_t *written);

/* Removes every item with this key from the tag of a file. The new file goes to the front of `out` and its length to `written`. An output
 * of file_len + 32 bytes is long enough. Refusals 1, 3, 8 and 5. */
uint32_t zib_remove_ape_item(
    const uint8_t *file, size_t file_len, const uint8_t *key, size_t key_len, uint8_t *out, size_t out_len, size_t *written);

/* The editing gate: says whether a file may be edited, and where the items of its tag are: from `start` up to `end`, `count` of them. All
 * three are 0 for a file without a footer, which may be edited. Refusal 1; refusal 8 where a footer is found and the version is not 2000,
 * the size is less than 32, the tag would start before the file, the footer speaks of a header that is not there, the items are not exactly
 * `count` items that end at the footer, an item has type 3 or a bit of its flags above bit 2, a key is not UTF-8, a value that is not binary
 * is not UTF-8, or there are more than ZIB_ITEM_LIMIT items or ZIB_AREA_LIMIT bytes of items, pictures included. */
uint32_t zib_gate(const uint8_t *file, size_t file_len, size_t *start, size_t *end, size_t *count);

/* ---- How long the file will be that a call writes: libc_lengths.a. Each takes what its call takes, but for the output, and writes nothing but
 * `bytes`: the exact length that the call reports. It refuses what the call refuses, whatever the output, and 5 only where the file would have
 * more than ZIB_FILE_LIMIT bytes. The call is done with an output of so many bytes or more, and answers 5 to a shorter one. Of the gains it asks
 * only whether there are left ones. */

/* Of zib_set_ape_item. Refusals 1, 3, 4, 8, 6 and 5. */
uint32_t zib_set_length(
    const uint8_t *file, size_t file_len, const uint8_t *key, size_t key_len, const uint8_t *value, size_t value_len, size_t *bytes);

/* Of zib_remove_ape_item. Refusals 1, 3, 8 and 5. */
uint32_t zib_remove_length(const uint8_t *file, size_t file_len, const uint8_t *key, size_t key_len, size_t *bytes);

/* Of zib_level. Refusals 1, 2, 7, 8, 14, 9, 11, 6 and 5. */
uint32_t zib_level_length(
    const uint8_t *file, size_t file_len, const uint8_t *left, size_t left_len, const uint8_t *right, size_t right_len,
    int32_t left_steps, int32_t right_steps, bool wrap, size_t *bytes);

/* Of zib_level_by_slip. Refusals 13, 1, 2, 7, 8, 14, 9, 11, 6 and 5. */
uint32_t zib_level_by_slip_length(
    const uint8_t *slip, size_t slip_len, const uint8_t *file, size_t file_len, const uint8_t *left, size_t left_len,
    const uint8_t *right, size_t right_len, size_t *bytes);

/* Of zib_undo. Refusals 1, 7, 8, 14, 10 and 5. */
uint32_t zib_undo_length(
    const uint8_t *file, size_t file_len, const uint8_t *left, size_t left_len, const uint8_t *right, size_t right_len, size_t *bytes);

/* ---- The tag of a file as a whole: libc_ape.a */

/* Finds the footer of a file's tag: `there` is 1 and `footer` its place, or both are 0. Refusal 1. */
uint32_t zib_find_ape_footer(const uint8_t *file, size_t file_len, uint32_t *there, size_t *footer);

/* Reads the tag of a file into an item area: `there` is 1, with the number of items and the length of their area, or all three are 0 for no
 * tag. The items keep their flags, and binary values are copied as they are; in a key, and in any other value, each part that is not UTF-8
 * becomes U+FFFD. An area of 3 * file_len bytes is long enough. Refusals 1 and 5. */
uint32_t zib_read_ape_tag(
    const uint8_t *file, size_t file_len, uint8_t *area, size_t area_len, uint32_t *there, size_t *count, size_t *written);

/* Writes the tag of the `count` items of an area, header and footer included, to the front of `out`, and its length into `written`. No
 * items make no tag: the length is then 0. An output of area_len + 64 bytes is long enough. Refusals 12 and 5. */
uint32_t zib_serialize_ape_tag(const uint8_t *area, size_t area_len, size_t count, uint8_t *out, size_t out_len, size_t *written);

/* Says where a file is cut: the part before its tag ends at `front`, and the part after it runs from `from` to `to`. Without a tag, these
 * are the parts before and after the place where one would go. Refusal 1. */
uint32_t zib_split_ape_tag(const uint8_t *file, size_t file_len, size_t *front, size_t *from, size_t *to);

/* The same, by the name that says what it is for: which two parts of a file stay when its tag is replaced. Refusal 1. */
uint32_t zib_ape_tag_parts(const uint8_t *file, size_t file_len, size_t *front, size_t *from, size_t *to);

/* Says where a file is cut around its tag alone, in the same way: without a tag the whole file is the part before it. It differs where nothing
 * follows the tag, or there is none: an ID3v1 block at the end of the part before the tag stays there. Refusal 1. */
uint32_t zib_cut_ape_tag(const uint8_t *file, size_t file_len, size_t *front, size_t *from, size_t *to);

/* Writes a file with the `count` items of an area in place of its tag to the front of `out`, and its length into `written`. It does not
 * look at the old items, and not at the editing gate. An output of file_len + area_len + 64 bytes is long enough. Refusals 1, 12 and 5. */
uint32_t zib_replace_ape_tag(
    const uint8_t *file, size_t file_len, const uint8_t *area, size_t area_len, size_t count, uint8_t *out, size_t out_len,
    size_t *written);

/* ---- Only the end of a file read: libc_tail_read.a. A file on a slow card is read in two stages: its last ZIB_PROBE bytes (all of them where it
 * has fewer) say how many final bytes hold the tag, and those bytes are read as the whole file would be. `total` is the length of the file. */

/* Says how many final bytes of a file zib_read_end needs, by the last ZIB_PROBE bytes of it: at least those, and at most all. Refusal 1, by
 * `total`. */
uint32_t zib_bytes_needed(const uint8_t *probe, size_t probe_len, size_t total, size_t *needed);

/* Reads the tag of a file from so many final bytes of it, as zib_read_ape_tag reads it from all of them. An output of 3 * end_len bytes is long
 * enough. Refusals 1, by `total`, and 5. */
uint32_t zib_read_end(
    const uint8_t *end, size_t end_len, size_t total, uint8_t *area, size_t area_len, uint32_t *there, size_t *count, size_t *written);

/* ---- The end of a file rewritten where it is: libc_tail_write.a. The file lies at the front of a buffer, with room behind it; `total` is its
 * length, and afterwards that of the new file. An ID3v1 block before the tag stays there; else the new file is that of zib_replace_ape_tag.
 *
 * To bring it to a card: write the bytes of the buffer from `end` to the new length, in rising order, and let each reach the card before the next
 * does; set the file's length last, where it became shorter. Where `end` is the new length and that is the old one, there is nothing to write. A
 * power failure then leaves every byte before `end`, the first k new bytes, and the rest of the old file: zib_rewrite_within shows it for each k. Such
 * a file may pass the gate with a tag that was never stored: ask an undo only of a file whose writing was finished (docs/LIBRARY.md, "Torn tags"). */

/* Writes the new tag and what follows it into the buffer, from `end` on; `end` is the old length where nothing is written, which is so for a file
 * without a tag that is given no items. It does not look at the old items, and not at the editing gate. A buffer of total + area_len + 64 bytes is long
 * enough. Refusals 5 for a `total` past the buffer, then 1, 12 and 5. */
uint32_t zib_rewrite_ape_tail(
    uint8_t *buf, size_t buf_len, size_t *total, const uint8_t *area, size_t area_len, size_t count, size_t *end);

/* The same, stopped after `budget` writes, each byte being one, and the one behind the last byte setting the length: the buffer and the length then are
 * those that a power failure leaves. `whole` is 1 where all were made, and 0 else. The same refusals. */
uint32_t zib_rewrite_within(
    uint8_t *buf, size_t buf_len, size_t *total, const uint8_t *area, size_t area_len, size_t count, size_t budget, uint32_t *whole, size_t *end);

/* ---- The listing: libc_list.a */

/* Lists the tag of a file into `text`, and answers the length of the listing. A file of more than ZIB_LIST_LIMIT bytes is listed as
 * `refused=1`: pass its last ZIB_LIST_LIMIT bytes. No other call takes a pointer without a length: `text` has ZIB_LIST_ROOM bytes. */
size_t zib_list_tag(const uint8_t *file, size_t file_len, uint8_t text[ZIB_LIST_ROOM]);

/* ---- An item area: `count` items one after another, each the length of its value and its flags in four bytes each (the lowest first), its
 * key, a zero byte and its value. Bit 0 of the flags says read-only, bits 2..1 the type: 0 text, 1 binary (a picture), 2 external (a link),
 * 3 reserved; an area may hold any flags. The calls that read one: libc_items.a */

/* Answers whether a call takes this key, or gives refusal 3 for it. */
bool zib_is_key(const uint8_t *key, size_t key_len);

/* Answers which of mp3gain's eight keys this is, in any letter case: its place, from 0 to 7, or 8 for none of them. */
size_t zib_which_key(const uint8_t *key, size_t key_len);

/* Finds the item that begins at the place `at`: `there` is 1, with its flags and the places where its key and its value start and end, or all
 * six numbers are 0 at the end of the area. The first item begins at 0, and each next one where the value before it ends. Refusal 12. */
uint32_t zib_item_at(
    const uint8_t *area, size_t area_len, size_t at, uint32_t *there, uint32_t *flags, size_t *key_start, size_t *key_end,
    size_t *value_start, size_t *value_end);

/* Finds the value of the first item with this key: `there` is 1, with its place and its size in the area, and `repeated` is 1 where a later
 * item has the key too, else 0. All four are 0 where no item has the key. Refusals 12 and 3. */
uint32_t zib_get(
    const uint8_t *area, size_t area_len, size_t count, const uint8_t *key, size_t key_len, uint32_t *there, size_t *start,
    size_t *size, uint32_t *repeated);

/* Reads the left number of the first undo item, and takes no notice of a second one: `there` is 1 and `steps` the number, or both are 0 where
 * there is none. Refusal 12. */
uint32_t zib_get_undo_gain(const uint8_t *area, size_t area_len, size_t count, uint32_t *there, int32_t *steps);

/* ---- Edits of an item area. Each writes the new area to the front of `out`, the number of its items into `items` and its length into
 * `written`: libc_area.a */

/* Sets an item, as zib_set_ape_item does in a file. An output of area_len + key_len + value_len + 9 bytes is long enough. Refusals 12, 3, 4
 * and 5. */
uint32_t zib_set(
    const uint8_t *area, size_t area_len, size_t count, const uint8_t *key, size_t key_len, const uint8_t *value, size_t value_len,
    uint8_t *out, size_t out_len, size_t *items, size_t *written);

/* Removes every item with this key. An output of area_len bytes is long enough, here and in the next three. Refusals 12, 3 and 5. */
uint32_t zib_remove(
    const uint8_t *area, size_t area_len, size_t count, const uint8_t *key, size_t key_len, uint8_t *out, size_t out_len,
    size_t *items, size_t *written);

/* Removes the five REPLAYGAIN items. Refusals 12 and 5. */
uint32_t zib_remove_replaygain(
    const uint8_t *area, size_t area_len, size_t count, uint8_t *out, size_t out_len, size_t *items, size_t *written);

/* Removes what says nothing true after an undo: the five REPLAYGAIN items and MP3GAIN_ALBUM_MINMAX. Refusals 12 and 5. */
uint32_t zib_drop_undone(const uint8_t *area, size_t area_len, size_t count, uint8_t *out, size_t out_len, size_t *items, size_t *written);

/* Removes mp3gain's eight keys. Refusals 12 and 5. */
uint32_t zib_take_mp3gain(const uint8_t *area, size_t area_len, size_t count, uint8_t *out, size_t out_len, size_t *items, size_t *written);

/* Sets the undo item to these numbers and this flag. An output of area_len + 46 bytes is long enough. Refusals 12 and 5. */
uint32_t zib_set_undo_gain(
    const uint8_t *area, size_t area_len, size_t count, int32_t left, int32_t right, bool wrap, uint8_t *out, size_t out_len,
    size_t *items, size_t *written);

/* Sets MP3GAIN_MINMAX to the least and the greatest gain. An output of area_len + 30 bytes is long enough. Refusals 12 and 5. */
uint32_t zib_set_minmax(
    const uint8_t *area, size_t area_len, size_t count, uint8_t least, uint8_t greatest, uint8_t *out, size_t out_len, size_t *items,
    size_t *written);

/* Sets the REPLAYGAIN items; an empty text is not set. An output of area_len + 149 bytes and the five lengths is long enough. Refusals 12,
 * 4 and 5. */
uint32_t zib_set_replaygain(
    const uint8_t *area, size_t area_len, size_t count, const uint8_t *track_gain, size_t track_gain_len, const uint8_t *track_peak,
    size_t track_peak_len, const uint8_t *album_gain, size_t album_gain_len, const uint8_t *album_peak, size_t album_peak_len,
    const uint8_t *algorithm, size_t algorithm_len, uint8_t *out, size_t out_len, size_t *items, size_t *written);

/* ---- The values that mp3gain keeps in a tag: libc_values.a. A call here that has no refusals always answers 0. */

/* Reads an undo text: its two numbers, and 1 for the flag W or 0 for N. An empty text reads as 0, 0 and N. */
uint32_t zib_parse_undo(const uint8_t *text, size_t text_len, int32_t *left, int32_t *right, uint32_t *wrap);

/* Writes the undo text of two numbers and a flag, which has at most 25 bytes. Refusal 5. */
uint32_t zib_format_undo_value(int32_t left, int32_t right, bool wrap, uint8_t *out, size_t out_len, size_t *written);

/* Gives the undo numbers after a further level by these steps: those of the text less the steps. */
uint32_t zib_accumulate_undo(const uint8_t *text, size_t text_len, int32_t left, int32_t right, int32_t *newleft, int32_t *newright);

/* Writes the text of a range, which has 7 bytes. Refusal 5. */
uint32_t zib_format_minmax(uint8_t least, uint8_t greatest, uint8_t *out, size_t out_len, size_t *written);

/* Answers whether an item is a range, MP3GAIN_MINMAX or MP3GAIN_ALBUM_MINMAX, and one of its numbers would leave 0..255. */
bool zib_range_wraps_out(const uint8_t *key, size_t key_len, const uint8_t *value, size_t value_len, int32_t steps);

/* Gives steps as decibels, exactly: `minus` is 1 below zero, `millionths` are whole millionths of a decibel, and `rest` is what
 * is left over, in units of 10^-15 dB. */
uint32_t zib_steps_to_db(int32_t steps, uint32_t *minus, uint64_t *millionths, uint64_t *rest);

/* Moves one stored value, a range, a gain text or a peak, by so many steps: `moved` is 1 and the new text, of at most 32 bytes, goes to
 * `out`, or `moved` and `written` are 0 and the value stays as it is. A peak text of 1 or 2 digits, a point and 6 digits is moved to the
 * nearest millionth, a half going up, unless it would pass 99.999999. Refusal 5. */
uint32_t zib_shift_stored_value(
    const uint8_t *key, size_t key_len, const uint8_t *value, size_t value_len, int32_t steps, uint32_t *moved, uint8_t *out,
    size_t out_len, size_t *written);

/* ---- What a level does to a list of gains: libc_tally.a */

/* Counts the gains that a level by so many steps holds at 0 (`low`) and at 255 (`high`), and those that no undo brings back (`lost`): all that
 * are not 0 and leave 1..255. Under W all three are 0. `least` and `greatest` are those of the gains afterwards, 255 and 0 for none. Answers
 * whether a gain was held. No gain changes. */
bool zib_tally(
    const uint8_t *gains, size_t gains_len, int32_t steps, bool wrap, size_t *low, size_t *high, size_t *lost, uint32_t *least,
    uint32_t *greatest);

/* ---- Amplitudes for a mixer: libc_amplitudes.a */

/* Gives 2 to the power steps / 4 for either side, the factor by which so many steps change an amplitude: a whole power of two times the double
 * nearest to the fourth root of 1, 2, 4 or 8, with nothing rounded. Zero steps give exactly 1.0. Refusal 2. */
uint32_t zib_amplitudes(int32_t left_steps, int32_t right_steps, double *left, double *right);

/* ---- Ranges read at fixed places, as an older tool reads them, beside the fields that this library parses: libc_fixed_ranges.a */

/* What the two views of a text say of each other. */
enum zib_views {
    ZIB_VIEWS_AGREE = 0,  /* both read it, as the same two numbers */
    ZIB_VIEWS_DIFFER = 1, /* both read it, as other numbers */
    ZIB_ONLY_OURS = 2,    /* its fields parse, and it has no numbers at the fixed places */
    ZIB_ONLY_FIXED = 3,   /* it has numbers at the fixed places, and its fields do not parse */
    ZIB_NEITHER = 4       /* neither reads it */
};

/* Reads bytes 0 to 2 and bytes 4 to 6 of a text, each as its leading digits, and answers whether both have one; where not, `first` and
 * `second` stay as they were. The numbers go up to 999, and byte 3 is not looked at. */
bool zib_fixed_range(const uint8_t *text, size_t text_len, uint32_t *first, uint32_t *second);

/* Answers what the two views of a text say of each other, as a number of enum zib_views. Of every range that this library writes it is
 * ZIB_VIEWS_AGREE. */
uint8_t zib_compare_range_views(const uint8_t *text, size_t text_len);

/* ---- UTF-8: libc_utf8.a */

/* Answers whether the text is UTF-8. */
bool zib_is_utf8(const uint8_t *text, size_t text_len);

/* Gives the length that the text has with U+FFFD in place of each part that is not UTF-8, where that is at most `room`. Refusal 5. */
uint32_t zib_lossy_size(const uint8_t *text, size_t text_len, size_t room, size_t *size);

/* Writes the text with U+FFFD in place of each part that is not UTF-8. An output of 3 * text_len bytes is long enough. Refusal 5. */
uint32_t zib_lossy_into(const uint8_t *text, size_t text_len, uint8_t *out, size_t out_len, size_t *written);

/* ---- The end of a file, and one gain: libc_frame.a */

/* Reads the number of the four bytes at the place `at`, the lowest first, and answers whether there are four bytes; where there are not,
 * `value` stays as it is. */
bool zib_read_u32_le(const uint8_t *bytes, size_t bytes_len, size_t at, uint32_t *value);

/* Answers whether the file ends in an ID3v1 block: 128 bytes that begin with TAG. */
bool zib_ends_with_id3v1(const uint8_t *file, size_t file_len);

/* Finds where the tag starts whose footer is at the place `footer`: `there` is 1 and `start` its place, or both are 0 where that lies
 * before the file or no whole footer fits there. Refusal 1. */
uint32_t zib_ape_tag_start(const uint8_t *file, size_t file_len, size_t footer, uint32_t *there, size_t *start);

/* Gives where the sound of a file ends: before its ID3v1 block, if it has one, and before the tag that stands there. Refusal 1. */
uint32_t zib_find_audio_end(const uint8_t *file, size_t file_len, size_t *end);

/* Answers a gain after so many steps: modulo 256 with `wrap`; without it 0 stays 0, and any other gain is held within 0..255. */
uint8_t zib_adjust_gain_value(uint8_t current, int32_t steps, bool wrap);

#ifdef __cplusplus
}
#endif

#endif
