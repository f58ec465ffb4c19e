/* The library from C: begins a file, appends a chunk, reads the file and prints its rows, contents and listing.
   From the repository's root, after `make`:
     gcc -Wall -Wextra -Werror -Iinclude tests/c/example.c target/staticlib/libads.a -o target/example && target/example
   After `make install`:
     gcc -Wall -Wextra -Werror tests/c/example.c $(pkg-config --cflags --libs ads) -o target/example && target/example
   It is C++ as well: g++ -Wall -Wextra -Werror -x c++ -Iinclude tests/c/example.c -x none target/staticlib/libads.a */
#include <ads.h>

#include <stdio.h>
#include <string.h>

#define BYTES(text) ((const uint8_t *)(text))
#define TEXT(text) BYTES(text), strlen(text)

/* Room for a header without a mark and one chunk of 3 bytes. */
static uint8_t buffer[ADS_APPEND_ROOM(ADS_BEGIN_ROOM(0), 0, 0, 0, 3)];

static int refused(const char *call, int number)
{
    if (number != ADS_OK)
        fprintf(stderr, "%s: refused with %d (%s)\n", call, number, ads_words(number));
    return number != ADS_OK;
}

static ads_description described(void)
{
    ads_description d = ads_description_new();
    d = ads_sub_format(d, TEXT("ADS\\DATA\\TEST"));
    d = ads_generic_type(d, BYTES("TXT"));
    d = ads_synch_type(d, BYTES("GEN"));
    d = ads_time_standard(d, BYTES("UTC"));
    d = ads_time_offset(d, BYTES("+0000      8.035"));
    d = ads_event_synch(d, BYTES("NUL"));
    d = ads_serial_number(d, BYTES("#20240229123456789SURVEYDESK0100042001"));
    d = ads_recording(d, BYTES("20240229"), TEXT("RECORDER"));
    return ads_writing(d, BYTES("20240301"), TEXT("DESK"));
}

/* The length of the file made in the buffer, or 0 where a call is refused. */
static size_t make_file(void)
{
    ads_written begun = ads_begin(BYTES("LLC"), TEXT(""), BYTES("#20240101000000000SURVEYDESK0100001196"),
                                  BYTES("20240229"), TEXT("RECORDER"), BYTES("20240301"), TEXT("DESK"),
                                  buffer, sizeof buffer);
    if (refused("begin", begun.number))
        return 0;

    const size_t no_parents[1] = {0};
    ads_ends ends = ads_append(buffer, sizeof buffer, begun.length, described(), no_parents, 0, TEXT(""), TEXT("abc"),
                               false);
    if (refused("append", ends.number))
        return 0;
    printf("writes %zu to %zu, to %zu, to %zu\n", begun.length, ends.first, ends.second, ends.third);
    return ends.third;
}

static const char *ending_words(uint8_t ending)
{
    return ending == ADS_COUNTED ? "counted" : ending == ADS_FOUND ? "found" : "by mini-chunks";
}

static void print_rows(const ads_row *rows, size_t count, size_t length)
{
    for (size_t k = 0; k < count; k++) {
        ads_part part = ads_contents(buffer, length, k);
        printf("row %zu: serial %.*s, offset %lld, %s contents \"%.*s\"\n", k, ADS_SERIAL_BYTES,
               (const char *)rows[k].serial, (long long)rows[k].offset, ending_words(rows[k].ending), (int)part.bytes,
               (const char *)buffer + part.place);
    }
}

int main(void)
{
    size_t length = make_file();
    if (length == 0)
        return 1;

    static ads_row rows[ADS_MOST_ROWS(sizeof buffer)];
    ads_reading reading = ads_read(buffer, length, rows, ADS_MOST_ROWS(sizeof buffer));
    print_rows(rows, reading.count, length);
    if (!ads_is_clean(reading, length)) {
        fprintf(stderr, "not clean: stops at byte %zu with %d (%s)\n", reading.stop, reading.number,
                ads_words(reading.number));
        return 1;
    }
    printf("%zu rows, clean\n", reading.count);

    static uint8_t text[ADS_LISTING_ROOM];
    ads_written listing = ads_listing(buffer, length, text, sizeof text);
    if (refused("listing", listing.number))
        return 1;
    fwrite(text, 1, listing.length, stdout);
    return 0;
}
