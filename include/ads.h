/* ads.h: SEG-UKOOA ADS metafiles 1.00, the table of chunks (x86-64 Linux). `make` builds the library, `make install`
   installs it, and `pkg-config --cflags --libs ads` links it. Each function of the library is proved to give what its
   contract in crates/ads/src says, on any bytes; ads_words and the macros are this header's own.

   Rules for every signature. The caller lends every buffer, for the time of the call: no call allocates, keeps a
   pointer, prints, or changes what it is lent by a pointer to const. A pointer with a length is to that many bytes
   (or rows, row numbers, verdicts), all of them set, and is not null, also where the length is 0;
   `const uint8_t word[3]` is a pointer to just 3 bytes. What a call may write must not overlap anything else that is
   lent to it. Apart from that a call takes any bytes and any numbers. It answers a struct by value (ads_is_clean a
   bool). Its `number` is 0, or the number of a refusal (the table below); then the other values are 0 and false and
   what was lent is untouched. Only ads_read answers its values and rows beside a number. Rows and dependencies count
   from 0, places from the file's first byte. Texts have no zero byte behind them. A file is lent as a whole, in
   memory; reading it from disk and writing it there is the caller's. A call may take up to ADS_STACK_BYTES of stack. */
#ifndef ADS_H
#define ADS_H

#include <stdbool.h>
#include <stddef.h>
#include <stdint.h>

#ifdef __cplusplus
extern "C" {
#endif

/* The version of this header and of its library; the number is major * 1000000 + minor * 1000 + patch. */
#define ADS_VERSION "0.10.0"
#define ADS_VERSION_NUMBER 10000

/* ---- sizes */

#define ADS_SERIAL_BYTES 38       /* bytes of a serial number */
#define ADS_SERIAL_COMPARED 35    /* bytes by which two are compared: all but the check, which may be written in several
                                     ways */
#define ADS_MOST_BYTES (1 << 30)  /* bytes of the longest file, and of the longest buffer, that a call takes */
#define ADS_MOST_MARK 999         /* bytes of the longest mark */
#define ADS_MOST_PARENTS 16       /* parents that one append takes */
#define ADS_STACK_BYTES (1 << 20) /* stack that a call may take */
#define ADS_LISTING_ROOM 10240    /* bytes that are enough for any listing */
#define ADS_ANCESTORS_ROOM 63     /* entries that are enough for the ancestors of any row */
#define ADS_BLOCK_BYTES 512       /* bytes of a block */
#define ADS_BLOCK_DATA 504        /* data bytes of a block */

/* Rows that are enough for any file of this length: a chunk has at least 856 bytes. */
#define ADS_MOST_ROWS(length) ((length) / 856 + 1)

/* Bytes that ads_begin writes. */
#define ADS_BEGIN_ROOM(mark_length) (319 + 2 * (mark_length))

/* Bytes of a file of `length` bytes and the chunk that ads_append adds to it. ADS_MOST_MARK for the mark's length is
   enough for any file. */
#define ADS_APPEND_ROOM(length, mark_length, parent_count, specific_length, contents_length) \
    ((length) + 856 + 344 * (parent_count) + (specific_length) + (contents_length) + 2 * (mark_length))

/* Bytes that ads_relations_write writes at most for a file whose rows have so many dependencies together. */
#define ADS_RELATIONS_ROOM(dependencies) (131 + 605 * (dependencies))

/* Verdicts that are enough for ads_relations_check of a row with so many bytes of contents, and for
   ads_relations_check_latest of a file none of whose relation chunks has more: a relation line has at least 12 bytes,
   and a line feed before it. */
#define ADS_MOST_VERDICTS(bytes) ((bytes) / 13)

/* Bytes that are enough for ads_price of a file with so many rows: a line has at most 7, 10 and 18 digits and 3 bytes
   more, the last one 25 bytes. ADS_MOST_ROWS(length) rows are enough for any file. */
#define ADS_PRICE_ROOM(rows) (38 * (rows) + 25)

/* Bytes that ads_pack writes for a file of this length: a block for each started 504 bytes, and one for no bytes. */
#define ADS_PACKED_BYTES(length) \
    (((length) + ((length) == 0) - 1) / ADS_BLOCK_DATA * ADS_BLOCK_BYTES + ADS_BLOCK_BYTES)

/* ---- the numbers: docs/numbers.tsv */

/* 1 to 9 are faults of the bytes at ads_read's stop, and of what ads_begin and ads_append were given. */
enum {
    ADS_OK = 0,             /* every call: no refusal */
    ADS_TITLE = 1,          /* read: the first 65 bytes don't match; the mark length is out of form */
    ADS_TAPE = 2,           /* read, begin: NUL with a mark of no bytes, the tape form; read: however the 0 is written */
    ADS_MARK_MINI = 3,      /* read, begin: the mark begins "MiniChunk=" */
    ADS_CUT = 4,            /* read: the bytes end too soon, but for a file of no bytes, which reads with 0; the mark of
                               an open chunk isn't found */
    ADS_DIFFERS = 5,        /* read: a label, LF, mark or listed word differs */
    ADS_FORM = 6,           /* read, begin, append: a field is out of form or range. A length, a count or a check may have
                               spaces in front of at least one digit. begin, append: also a wrong listed word, an
                               over-long text or a mark over 999 bytes */
    ADS_LENGTH = 7,         /* read: a length disagrees with what it measures, or the type count is outside 1 to 64 */
    ADS_SHORT_ID = 8,       /* read: a short ID is there twice or undeclared, or there is no mini-chunk */
    ADS_REPEATED = 9,       /* read: a whole chunk's serial number is already in a row; append: the one given is. Two are
                               the same if their first 35 bytes are */
    ADS_ROWS_FULL = 10,     /* read: another whole chunk with a new serial number, and no row left */
    ADS_LIMIT = 11,         /* every call: a lent byte buffer, also a packed file, over 2^30, or append's length over the
                               buffer's */
    ADS_NOT_CLEAN = 12,     /* append: the file has no bytes, or doesn't read to its end with number 0 */
    ADS_NO_ROW = 13,        /* parent, ancestors, contents, gather, relations_check: no such row; relations_check_latest:
                               no row is a relation chunk; append: no such parent, repeated, or over 16 */
    ADS_NO_DEPENDENCY = 14, /* parent: no such dependency; gather: not a MultiChunk, or the ID is undeclared */
    ADS_MARK_ZERO = 15,     /* begin, append: the mark has a zero byte */
    ADS_OPEN = 16,          /* append: open under LLC or for BIN, or the mark is first found before the data's end */
    ADS_MULTICHUNK = 17,    /* append: of a MultiChunk */
    ADS_NO_ROOM = 18,       /* begin, append, gather, relations_write, price, listing, pack, unpack: the lent buffer is
                               too short for the result; ancestors, relations_check, relations_check_latest: the list
                               is */
    ADS_NOT_RELATIONS = 19, /* relations_check: the row's sub-format isn't ADS\SYS\Relations */
    ADS_HEADING = 20,       /* relations_check, relations_check_latest: the first line of the contents isn't the
                               heading */
    ADS_TOTAL = 21,         /* price: the total is 10^18 cents or more */
    ADS_CIRCLE = 23,        /* ancestors: a chain of dependencies from the row comes back to a row on it */
    ADS_ROWS_OVER_64 = 24,  /* ancestors: the reading has more than 64 rows */
    ADS_BLOCK_SUM = 27,     /* unpack: the sum of a block isn't that of its first 510 bytes */
    ADS_BLOCK_NUMBER = 28,  /* unpack: the number of a block isn't its place, counted from 0 */
    ADS_BLOCK_USE = 29      /* unpack: a block uses more than 504 bytes, or fewer and isn't the last, or is the last of
                               several and uses none; a spare byte isn't zero; a block isn't whole, or there is none */
};

/* A number in words, for a message. */
static inline const char *ads_words(int number)
{
    switch (number) {
    case ADS_OK: return "no refusal";
    case ADS_TITLE: return "the first 65 bytes are not those of an ADS 1.00 file";
    case ADS_TAPE: return "NUL with a mark of no bytes, the tape form";
    case ADS_MARK_MINI: return "the mark begins with MiniChunk=";
    case ADS_CUT: return "the bytes end too soon";
    case ADS_DIFFERS: return "a label, line feed, mark or listed word differs";
    case ADS_FORM: return "a field is out of form or range";
    case ADS_LENGTH: return "a length disagrees with what it measures, or the type count is outside 1 to 64";
    case ADS_SHORT_ID: return "a short ID is there twice or undeclared, or there is no mini-chunk";
    case ADS_REPEATED: return "the serial number is already in a row";
    case ADS_ROWS_FULL: return "another whole chunk with a new serial number, and no row left";
    case ADS_LIMIT: return "a byte buffer is over 2^30 bytes, or the length is over the buffer's";
    case ADS_NOT_CLEAN: return "the file isn't clean";
    case ADS_NO_ROW: return "no such row";
    case ADS_NO_DEPENDENCY: return "no such dependency, not a MultiChunk, or the short ID is undeclared";
    case ADS_MARK_ZERO: return "the mark has a zero byte";
    case ADS_OPEN: return "open under LLC or for BIN, or the mark is found before the data's end";
    case ADS_MULTICHUNK: return "a MultiChunk can't be appended";
    case ADS_NO_ROOM: return "the buffer or list is too short for the result";
    case ADS_NOT_RELATIONS: return "the row isn't a relation chunk";
    case ADS_HEADING: return "the heading line of the relation chunk differs";
    case ADS_TOTAL: return "the total has more than 18 digits";
    case ADS_CIRCLE: return "a chain of dependencies comes back to a row on it";
    case ADS_ROWS_OVER_64: return "more than 64 rows in the reading";
    case ADS_BLOCK_SUM: return "the sum of a block is wrong";
    case ADS_BLOCK_NUMBER: return "the number of a block is wrong";
    case ADS_BLOCK_USE: return "the use of a block is wrong, a spare byte isn't zero, or a block isn't whole";
    default: return "no such number";
    }
}

/* ---- what is answered */

/* How the end of a chunk was found, as its own bytes say. Of a MultiChunk it is by its mini-chunks, under LLC and NUL;
   of another chunk by the mark exactly if its content length is 0, which only NUL has, and else it is counted. */
enum {
    ADS_COUNTED = 0,       /* by the content length */
    ADS_FOUND = 1,         /* by the mark */
    ADS_BY_MINI_CHUNKS = 2 /* by its mini-chunks */
};

/* One chunk of the table. The numbers beside the fields are their places in the struct. */
typedef struct ads_row {
    uint8_t serial[38];  /*  0: serial number, as it stands; compare ADS_SERIAL_COMPARED bytes of it */
    size_t place;        /* 40: where the chunk begins */
    size_t header;       /* 48: bytes of its header */
    size_t contents;     /* 56: contents place, after the content length line; for a MultiChunk, its first line */
    size_t bytes;        /* 64: contents bytes */
    size_t end;          /* 72: where the chunk ends, its closing included */
    size_t dependencies; /* 80: how many */
    int64_t offset;      /* 88: time offset in units of 10^-10 second; 0 under SPE or NUL standard */
    bool multichunk;     /* 96: it is a MultiChunk */
    bool good;           /* 97: its sum is good */
    uint8_t ending;      /* 98: how its end was found: ADS_COUNTED, ADS_FOUND or ADS_BY_MINI_CHUNKS */
} ads_row;               /* 104 bytes, as all structs here aligned to 8 */

typedef struct ads_reading {
    size_t count;   /*  0: rows written to the table */
    size_t stop;    /*  8: end of the last chunk in a row, else of the header; 0 if that isn't whole */
    bool good;      /* 16: header sum good; never where the header isn't whole */
    uint8_t number; /* 17: 0 to 11; 0 alone doesn't say that the file is clean: ads_is_clean does */
} ads_reading;      /* 24 bytes */

typedef struct ads_written {
    size_t length;  /*  0: bytes written at the start of the buffer */
    uint8_t number; /*  8 */
} ads_written;      /* 16 bytes */

/* What is said of a relation line. */
enum {
    ADS_DECLARED = 1,   /* the header of a row declares just that dependency */
    ADS_UNDECLARED = 2, /* none does */
    ADS_MALFORMED = 3   /* it hasn't five well-formed fields */
};

typedef struct ads_counted {
    size_t count;   /*  0: verdicts written at the start of the list */
    uint8_t number; /*  8 */
} ads_counted;      /* 16 bytes */

typedef struct ads_counted_row {
    size_t count;   /*  0: verdicts written at the start of the list */
    size_t row;     /*  8: the row that was checked */
    uint8_t number; /* 16 */
} ads_counted_row;  /* 24 bytes */

typedef struct ads_parent_answer {
    size_t row;     /*  0: the row with the dependency's serial number; 0 where none is found */
    bool found;     /*  8: there is such a row; else the parent is missing */
    bool agree;     /*  9: the dependency names that row's own sub-format */
    uint8_t number; /* 10 */
} ads_parent_answer; /* 16 bytes */

/* The ends of append's three writes: header with content length line, data, closing. */
typedef struct ads_ends {
    size_t first, second, third; /*  0, 8, 16 */
    uint8_t number;              /* 24 */
} ads_ends;                      /* 32 bytes */

/* A part of the file: `bytes` bytes from file + place on. */
typedef struct ads_part {
    size_t place, bytes; /*  0, 8 */
    uint8_t number;      /* 16 */
} ads_part;              /* 24 bytes */

typedef struct ads_ancestry {
    size_t count;   /*  0: rows listed */
    size_t missing; /*  8: dependencies, of the row and of those listed, that name no row */
    uint8_t number; /* 16 */
} ads_ancestry;     /* 24 bytes */

/* header, chunks and unread add to the file's length. */
typedef struct ads_priced {
    size_t length;  /*  0: bytes of the statement, at the start of the buffer */
    size_t header;  /*  8: bytes of the file header, 319 and twice the mark's; 0 if it isn't whole */
    size_t chunks;  /* 16: bytes of the chunks in rows, end less place */
    size_t unread;  /* 24: bytes from the stop on */
    uint8_t number; /* 32 */
} ads_priced;       /* 40 bytes */

/* ---- the file */

/* Writes a file header at the start of the buffer, ADS_BEGIN_ROOM(mark_length) bytes. strategy is "LLC" or "NUL"; a
   date is such as "20240229"; an agent has at most 32 bytes. Tests 11, 6, 2, 3, 15, 18. */
ads_written ads_begin(const uint8_t strategy[3], const uint8_t *mark, size_t mark_length, const uint8_t serial[38],
                      const uint8_t recorded[8], const uint8_t *recorder, size_t recorder_length,
                      const uint8_t written[8], const uint8_t *writer, size_t writer_length,
                      uint8_t *buffer, size_t buffer_length);

/* Reads the file into a table of `room` rows; ADS_MOST_ROWS(length) are enough. Rows past the count are not written. It
   answers its values whatever the number is: the rows before a fault, or before the table was full, hold. Given 11:
   count 0, stop 0, not good. A file of no bytes: number 0, count 0, stop 0, not good; it isn't clean. */
ads_reading ads_read(const uint8_t *file, size_t length, ads_row *rows, size_t room);

/* Whether the file is clean, by its reading and its length: it has a byte, number 0, and stop at its end. Only to a
   clean file can ads_append append; only ads_begin starts a file. */
bool ads_is_clean(ads_reading reading, size_t length);

/* The calls below judge the file by a reading of their own with rows enough: rows before a fault count. */

/* The parent that a row's dependency names. Tests 11, 13, 14. */
ads_parent_answer ads_parent(const uint8_t *file, size_t length, size_t row, size_t dependency);

/* Writes every row that is reached from `row` by dependencies, in one or more steps, each once, in rising order and
   without `row` itself, into a list of `room` entries; ADS_ANCESTORS_ROOM are always enough. A dependency leads to the
   row that ads_parent finds, whatever its sub-format. It also answers how many dependencies of `row` and of the listed
   rows name no row; a serial number that two of them name counts twice. Entries past the count keep their state. Tests
   11 (of the file alone), 13, 24 (however many rows are reached), 23 (from `row` on a circle is reached, also one of a
   single row, and one that `row` isn't on), 18. */
ads_ancestry ads_ancestors(const uint8_t *file, size_t length, size_t row, size_t *rows, size_t room);

/* The part of the file that the row names, which the row's own `contents` and `bytes` name too. Tests 11, 13. */
ads_part ads_contents(const uint8_t *file, size_t length, size_t row);

/* Joins, in order, the data of a MultiChunk's mini-chunks under one short ID (at most 10 bytes) into the buffer, for
   which the row's `bytes` are enough. A declared ID without mini-chunks gives length 0. Bytes past the length keep
   their state. Tests 11, 13, 14, 18. */
ads_written ads_gather(const uint8_t *file, size_t length, size_t row, const uint8_t *id, size_t id_length,
                       uint8_t *buffer, size_t buffer_length);

/* Writes the contents of a relation chunk (ADS\SYS\Relations) for the file: the heading line, then a line for each
   dependency of each row, in row order: serial number and sub-format of the child and of the parent, as the child's
   header has them, divided by tabs. Left out are the dependencies of a relation chunk, and those that name that
   sub-format or whose serial number is a relation chunk's. ADS_RELATIONS_ROOM says how many bytes are enough. Bytes
   past the length keep their state. Tests 11, 18. */
ads_written ads_relations_write(const uint8_t *file, size_t length, uint8_t *buffer, size_t buffer_length);

/* Writes, for each relation line of the row's contents, in their order, ADS_DECLARED, ADS_UNDECLARED or ADS_MALFORMED
   into a list of `room` entries; ADS_MOST_VERDICTS says how many are enough. A relation line is one whose first field
   is "ADS relation"; others are comments and get no entry. Entries past the count keep their state. Tests 11 (of the
   file alone), 13, 19, 20, 18. */
ads_counted ads_relations_check(const uint8_t *file, size_t length, size_t row, uint32_t *verdicts, size_t room);

/* The same of the relation chunk that holds: of all relation chunks of the file the one with the latest
   Chunk_Writing_Date, and of equal dates the later row. It answers that row too. Its sum, its heading and its lines
   aren't asked in choosing: a wrong heading is 20, whatever others there are. Tests 11 (of the file alone), 13 (no row is
   a relation chunk, also where the file has no whole header), 20, 18. */
ads_counted_row ads_relations_check_latest(const uint8_t *file, size_t length, uint32_t *verdicts, size_t room);

/* Writes the price statement of the file: for each row its number, its contents bytes and its cents, then "total" and
   the sum of the cents; a line each, with spaces between, LF behind, and no leading zeros. A row with a good sum costs
   `fee` cents, and `rate` cents for each started 1,024 contents bytes, none for no bytes; a row with a bad sum costs 0.
   Both rates are any numbers. It also answers the file's bytes in three parts. ADS_PRICE_ROOM says how many bytes are
   enough. Bytes past the length keep their state. Tests 11 (file, buffer), 21, 18. */
ads_priced ads_price(const uint8_t *file, size_t length, uint64_t fee, uint64_t rate, uint8_t *buffer,
                     size_t buffer_length);

/* Writes the listing of the file's table as text: header sum ("header none" of a file of no bytes), count, a line for
   each row, stop and number. An input over 65,536 bytes is no refusal: its text is "end 0 11" and LF.
   ADS_LISTING_ROOM bytes are enough for any text. Tests 11 (of the buffer alone), 18. */
ads_written ads_listing(const uint8_t *input, size_t length, uint8_t *buffer, size_t buffer_length);

/* ---- blocks */

/* A file in blocks of 512 bytes, for disks that lose single blocks. Both calls take any bytes and judge no metafile. A
   block has, big-endian, its number from 0 in 4 bytes, how many bytes it uses in 2, 504 data bytes, and in 2 the sum of
   these first 510 bytes modulo 65,536. All blocks but the last use 504, and spare data bytes are zero.

   The packed file of no bytes is one block of 512 zeros. So a copy of one block that came back as zeros unpacks, with
   number 0, as a file of no bytes. And a copy whose last blocks are missing, but not all, is itself a packed file, that
   of the bytes before them. Whoever must see such losses carries the length beside the copy and compares it. Any other
   block that is missing or came back as zeros is refused, with 28 or 29. */

/* Writes the packed file of a file, ADS_PACKED_BYTES(length) bytes. A file of up to 1,056,964,608 bytes can be packed,
   for the packed file has at most 2^30. Bytes past the length keep their state. Tests 11 (file, buffer), 18. */
ads_written ads_pack(const uint8_t *file, size_t length, uint8_t *buffer, size_t buffer_length);

/* Writes the file that a packed file holds; the packed file's own length is room enough. Only what ads_pack writes is
   taken. Bytes past the length keep their state. Tests 11 (packed file, buffer), then the blocks in order, the first
   wrong one deciding: 27 its sum, 28 its number, 29 its use or a spare byte that isn't zero. A partial block at the end
   is 29, whatever it holds, and so is a packed file without a block. 18 comes last. */
ads_written ads_unpack(const uint8_t *blocks, size_t length, uint8_t *buffer, size_t buffer_length);

/* ---- append */

/* The description of a chunk to append. Make one by ads_description_new and the functions below and don't look inside:
   a text is kept as its first bytes and the length that was given. */
typedef struct ads_text256 {
    uint8_t bytes[256]; /*   0 */
    size_t given;       /* 256 */
} ads_text256;          /* 264 bytes */

typedef struct ads_text32 {
    uint8_t bytes[32]; /*  0 */
    size_t given;      /* 32 */
} ads_text32;          /* 40 bytes */

typedef struct ads_description {
    ads_text256 subformat;                     /*   0 */
    uint8_t generic[3], synch[3], standard[3]; /* 264, 267, 270 */
    uint8_t alternate[38], offset[16];         /* 273, 311 */
    uint8_t event[3], linked[38];              /* 327, 330 */
    uint8_t serial[38], recorded[8];           /* 368, 406 */
    ads_text32 recorder;                       /* 416 */
    uint8_t written[8];                        /* 456 */
    ads_text32 writer;                         /* 464 */
} ads_description;                             /* 504 bytes */

/* Each function takes a description by value and hands it back with one field set. Nothing is judged here: a text of
   any length is taken, and ads_append refuses what is out of form or over-long (6); of fields never set, too, all but
   the sub-format, which is then an empty text. */
ads_description ads_description_new(void);

/* SubFormat_ID, at most 256 bytes. */
ads_description ads_sub_format(ads_description d, const uint8_t *text, size_t length);

/* Generic_Type: "BIN" or "TXT". */
ads_description ads_generic_type(ads_description d, const uint8_t word[3]);

/* Chunk_Time_Synch_Type: "GEN" or "SPE". */
ads_description ads_synch_type(ads_description d, const uint8_t word[3]);

/* Chunk_Time_Standard: "UTC" or "NUL"; or ALT with its serial number. The later call of the two holds. */
ads_description ads_time_standard(ads_description d, const uint8_t word[3]);
ads_description ads_alternate_standard(ads_description d, const uint8_t serial[38]);

/* Chunk_Time_Offset, as it stands in the file: sign, hours, minutes, seconds, such as "+0000      8.035". */
ads_description ads_time_offset(ads_description d, const uint8_t bytes[16]);

/* Chunk_Event_Synch: "NUL"; or SLV, or MAS, with its serial number. The last call of the three holds. */
ads_description ads_event_synch(ads_description d, const uint8_t word[3]);
ads_description ads_slave_event(ads_description d, const uint8_t serial[38]);
ads_description ads_master_event(ads_description d, const uint8_t serial[38]);

/* Chunk_Serial_Number. */
ads_description ads_serial_number(ads_description d, const uint8_t serial[38]);

/* Recording date and agent, writing date and agent; an agent has at most 32 bytes. */
ads_description ads_recording(ads_description d, const uint8_t date[8], const uint8_t *agent, size_t length);
ads_description ads_writing(ads_description d, const uint8_t date[8], const uint8_t *agent, size_t length);

/* Appends a chunk to the file that the buffer's first `length` bytes hold; ADS_APPEND_ROOM says how long the buffer
   must be. parents are rows of that file, at most 16, none twice; specific data and contents are any bytes; open leaves
   the content length 0 (NUL and TXT only), and the row says ADS_FOUND, else ADS_COUNTED. Bytes past the third end keep
   their state. Tests 11, 12, 6, 17, 13, 9, 15, 16, 18.
   Then write the buffer's bytes from the old length to the first end, from there to the second, and from there to the
   third, each on disk before the next: after a power cut at any byte the file reads with its old rows, or whole. */
ads_ends ads_append(uint8_t *buffer, size_t buffer_length, size_t length, ads_description description,
                    const size_t *parents, size_t parent_count, const uint8_t *specific, size_t specific_length,
                    const uint8_t *contents, size_t contents_length, bool open);

#ifdef __cplusplus
}
#endif

#endif
