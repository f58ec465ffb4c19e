/* The layout that the library was compiled for and the header's sizes, asserted while this is compiled:
     gcc -std=c11 -Wall -Wextra -Wpedantic -Werror -Iinclude -fsyntax-only tests/c/layout.c
   There is no code. It is C++ as well. */
#include <ads.h>

#include <assert.h>

#ifdef __cplusplus
#define ALIGN(type) alignof(type)
#else
#define ALIGN(type) _Alignof(type)
#endif

#define SIZE(type, size) static_assert(sizeof(type) == (size) && ALIGN(type) == 8, #type)
#define PLACE(type, field, place) static_assert(offsetof(type, field) == (place), #type " " #field)

SIZE(ads_row, 104);
PLACE(ads_row, serial, 0);
PLACE(ads_row, place, 40);
PLACE(ads_row, header, 48);
PLACE(ads_row, contents, 56);
PLACE(ads_row, bytes, 64);
PLACE(ads_row, end, 72);
PLACE(ads_row, dependencies, 80);
PLACE(ads_row, offset, 88);
PLACE(ads_row, multichunk, 96);
PLACE(ads_row, good, 97);
PLACE(ads_row, ending, 98);

SIZE(ads_reading, 24);
PLACE(ads_reading, count, 0);
PLACE(ads_reading, stop, 8);
PLACE(ads_reading, good, 16);
PLACE(ads_reading, number, 17);

SIZE(ads_written, 16);
PLACE(ads_written, length, 0);
PLACE(ads_written, number, 8);

SIZE(ads_counted, 16);
PLACE(ads_counted, count, 0);
PLACE(ads_counted, number, 8);

SIZE(ads_counted_row, 24);
PLACE(ads_counted_row, count, 0);
PLACE(ads_counted_row, row, 8);
PLACE(ads_counted_row, number, 16);

SIZE(ads_parent_answer, 16);
PLACE(ads_parent_answer, row, 0);
PLACE(ads_parent_answer, found, 8);
PLACE(ads_parent_answer, agree, 9);
PLACE(ads_parent_answer, number, 10);

SIZE(ads_ends, 32);
PLACE(ads_ends, first, 0);
PLACE(ads_ends, second, 8);
PLACE(ads_ends, third, 16);
PLACE(ads_ends, number, 24);

SIZE(ads_part, 24);
PLACE(ads_part, place, 0);
PLACE(ads_part, bytes, 8);
PLACE(ads_part, number, 16);

SIZE(ads_ancestry, 24);
PLACE(ads_ancestry, count, 0);
PLACE(ads_ancestry, missing, 8);
PLACE(ads_ancestry, number, 16);

SIZE(ads_priced, 40);
PLACE(ads_priced, length, 0);
PLACE(ads_priced, header, 8);
PLACE(ads_priced, chunks, 16);
PLACE(ads_priced, unread, 24);
PLACE(ads_priced, number, 32);

SIZE(ads_text256, 264);
PLACE(ads_text256, bytes, 0);
PLACE(ads_text256, given, 256);

SIZE(ads_text32, 40);
PLACE(ads_text32, bytes, 0);
PLACE(ads_text32, given, 32);

SIZE(ads_description, 504);
PLACE(ads_description, subformat, 0);
PLACE(ads_description, generic, 264);
PLACE(ads_description, synch, 267);
PLACE(ads_description, standard, 270);
PLACE(ads_description, alternate, 273);
PLACE(ads_description, offset, 311);
PLACE(ads_description, event, 327);
PLACE(ads_description, linked, 330);
PLACE(ads_description, serial, 368);
PLACE(ads_description, recorded, 406);
PLACE(ads_description, recorder, 416);
PLACE(ads_description, written, 456);
PLACE(ads_description, writer, 464);

static_assert(sizeof(((ads_row *)0)->serial) == ADS_SERIAL_BYTES, "ADS_SERIAL_BYTES");
static_assert(ADS_SERIAL_COMPARED == 35, "ADS_SERIAL_COMPARED");
static_assert(sizeof(((ads_row *)0)->ending) == 1, "ending");
static_assert(ADS_COUNTED == 0 && ADS_FOUND == 1 && ADS_BY_MINI_CHUNKS == 2, "endings");
static_assert(ADS_DECLARED == 1 && ADS_UNDECLARED == 2 && ADS_MALFORMED == 3, "verdicts");
static_assert(ADS_MOST_ROWS(0) == 1 && ADS_MOST_ROWS(319 + 856) == 2, "ADS_MOST_ROWS");
static_assert(ADS_BEGIN_ROOM(0) == 319 && ADS_BEGIN_ROOM(90) == 499, "ADS_BEGIN_ROOM");
static_assert(ADS_APPEND_ROOM(319, 0, 0, 0, 3) == 1178, "ADS_APPEND_ROOM");
static_assert(ADS_APPEND_ROOM(0, 1, 1, 1, 1) == 856 + 2 + 344 + 1 + 1, "ADS_APPEND_ROOM");
static_assert(ADS_RELATIONS_ROOM(0) == 131 && ADS_RELATIONS_ROOM(1 + 1) == 131 + 605 + 605, "ADS_RELATIONS_ROOM");
static_assert(ADS_MOST_VERDICTS(130 + 13) >= 1 && ADS_MOST_VERDICTS(12) == 0, "ADS_MOST_VERDICTS");
static_assert(ADS_PRICE_ROOM(0) == 25 && ADS_PRICE_ROOM(1 + 1) == 25 + 38 + 38, "ADS_PRICE_ROOM");
static_assert(ADS_ANCESTORS_ROOM == 64 - 1, "ADS_ANCESTORS_ROOM");
static_assert(4 + 2 + ADS_BLOCK_DATA + 2 == ADS_BLOCK_BYTES, "ADS_BLOCK_BYTES");
static_assert(ADS_PACKED_BYTES(0) == 512 && ADS_PACKED_BYTES((size_t)0) == 512, "ADS_PACKED_BYTES");
static_assert(ADS_PACKED_BYTES(504) == 512 && ADS_PACKED_BYTES(504 + 1) == 512 + 512, "ADS_PACKED_BYTES");
static_assert(ADS_PACKED_BYTES(1056964608) == ADS_MOST_BYTES, "ADS_PACKED_BYTES");
