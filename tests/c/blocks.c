/* A file in blocks, from C: packs it, unpacks that and compares; then takes the file itself for a packed one. From the
   repository's root, after `make`:
     gcc -Wall -Wextra -Werror -Iinclude tests/c/blocks.c target/staticlib/libads.a -o target/blocks
     target/blocks samples/one-chunk.ads
   It is C++ as well. */
#include <ads.h>

#include <stdio.h>
#include <string.h>

#define MOST 65536

static uint8_t file[MOST];
static uint8_t blocks[ADS_PACKED_BYTES(MOST)];
static uint8_t copy[MOST];

static ads_written print(const char *what, ads_written written)
{
    if (written.number == ADS_OK)
        printf("%s: %zu bytes\n", what, written.length);
    else
        printf("%s: refused with %d (%s)\n", what, written.number, ads_words(written.number));
    return written;
}

int main(int count, char **given)
{
    FILE *from = count == 2 ? fopen(given[1], "rb") : NULL;
    if (from == NULL)
        return 1;
    size_t length = fread(file, 1, sizeof file, from);
    fclose(from);

    print("a byte short", ads_pack(file, length, blocks, ADS_PACKED_BYTES(length) - 1));
    ads_written packed = print("packed", ads_pack(file, length, blocks, ADS_PACKED_BYTES(length)));
    ads_written unpacked = print("unpacked", ads_unpack(blocks, packed.length, copy, length));
    bool same = unpacked.length == length && memcmp(file, copy, length) == 0;
    print("as it stands", ads_unpack(file, length, copy, sizeof copy));
    return packed.length == ADS_PACKED_BYTES(length) && same ? 0 : 1;
}
