/* Every row that a row rests on, from C: prints them, then how many dependencies name no row. From the repository's root,
   after `make`:
     gcc -Wall -Wextra -Werror -Iinclude tests/c/ancestors.c target/staticlib/libads.a -o target/ancestors
     target/ancestors samples/ancestors.ads 5
   It is C++ as well. */
#include <ads.h>

#include <stdio.h>
#include <stdlib.h>

static uint8_t file[65536];
static size_t rows[ADS_ANCESTORS_ROOM];

int main(int count, char **given)
{
    FILE *from = count == 3 ? fopen(given[1], "rb") : NULL;
    if (from == NULL)
        return 1;
    size_t length = fread(file, 1, sizeof file, from);
    fclose(from);

    ads_ancestry ancestry = ads_ancestors(file, length, strtoull(given[2], NULL, 10), rows, ADS_ANCESTORS_ROOM);
    if (ancestry.number != ADS_OK) {
        printf("refused with %d (%s)\n", ancestry.number, ads_words(ancestry.number));
        return 0;
    }
    for (size_t each = 0; each < ancestry.count; each++)
        printf("row %zu\n", rows[each]);
    printf("%zu rows, %zu missing\n", ancestry.count, ancestry.missing);
    return 0;
}
