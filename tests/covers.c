/* Sets an item in the tag of a file, or removes one, for tests/covers.py: covers set FILE KEY VALUE, covers remove FILE KEY. */
#include "zibrunnos.h"
#include <stdio.h>
#include <stdlib.h>
#include <string.h>

int main(int n, char **words)
{
    static uint8_t file[ZIB_FILE_LIMIT], out[ZIB_FILE_LIMIT];
    bool set = n == 5 && strcmp(words[1], "set") == 0;
    if (!set && !(n == 4 && strcmp(words[1], "remove") == 0))
        return 2;
    FILE *f = fopen(words[2], "rb");
    if (f == NULL)
        return 2;
    size_t len = fread(file, 1, sizeof file, f), written = 0;
    fclose(f);
    const uint8_t *key = (const uint8_t *)words[3], *value = set ? (const uint8_t *)words[4] : NULL;
    uint32_t refused = set ? zib_set_ape_item(file, len, key, strlen(words[3]), value, strlen(words[4]), out, sizeof out, &written)
                           : zib_remove_ape_item(file, len, key, strlen(words[3]), out, sizeof out, &written);
    if (refused != 0) {
        fprintf(stderr, "refused: %u\n", (unsigned)refused);
        return 1;
    }
    f = fopen(words[2], "wb");
    if (f == NULL || fwrite(out, 1, written, f) != written || fclose(f) != 0)
        return 2;
    return 0;
}
