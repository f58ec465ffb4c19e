/* The price statement of a file, from C: prints the statement, then the file's bytes in three parts. The rates are cents for
   each chunk and for each started 1,024 contents bytes. From the repository's root, after `make`:
     gcc -Wall -Wextra -Werror -Iinclude tests/c/price.c target/staticlib/libads.a -o target/price
     target/price samples/two-chunks.ads 100 7
   It is C++ as well. */
#include <ads.h>

#include <stdio.h>
#include <stdlib.h>

#define MOST 65536

static uint8_t file[MOST];
static uint8_t text[ADS_PRICE_ROOM(ADS_MOST_ROWS(MOST))];

int main(int count, char **given)
{
    FILE *from = count == 4 ? fopen(given[1], "rb") : NULL;
    if (from == NULL)
        return 1;
    size_t length = fread(file, 1, sizeof file, from);
    fclose(from);

    ads_priced priced = ads_price(file, length, strtoull(given[2], NULL, 10), strtoull(given[3], NULL, 10),
                                  text, sizeof text);
    if (priced.number != ADS_OK) {
        printf("refused with %d (%s)\n", priced.number, ads_words(priced.number));
        return 0;
    }
    fwrite(text, 1, priced.length, stdout);
    printf("header %zu, chunks %zu, unread %zu\n", priced.header, priced.chunks, priced.unread);
    return priced.header + priced.chunks + priced.unread == length ? 0 : 1;
}
