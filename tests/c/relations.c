/* The relations of a file, from C: prints how many lines a relation chunk for it would have, for each relation chunk that
   it has what is said of its lines, and the same of the one that holds. From the repository's root, after `make`:
     gcc -Wall -Wextra -Werror -Iinclude tests/c/relations.c target/staticlib/libads.a -o target/relations
     target/relations samples/relations.ads
   It is C++ as well. */
#include <ads.h>

#include <stdio.h>

#define MOST 65536

static uint8_t file[MOST];
static uint8_t text[MOST];
static uint32_t verdicts[ADS_MOST_VERDICTS(MOST)];

static void print_verdicts(size_t count, uint8_t number)
{
    static const char *const words[] = {"declared", "undeclared", "malformed"};
    for (size_t line = 0; line < count; line++)
        printf(" %s", words[verdicts[line] - ADS_DECLARED]);
    if (number != ADS_OK)
        printf(" refused with %d (%s)", number, ads_words(number));
    printf("\n");
}

/* The length of the file, read into memory; 0 where it can't be opened. */
static size_t read_file(const char *name)
{
    FILE *from = fopen(name, "rb");
    size_t length = from == NULL ? 0 : fread(file, 1, sizeof file, from);
    if (from != NULL)
        fclose(from);
    return length;
}

int main(int count, char **names)
{
    size_t length = count == 2 ? read_file(names[1]) : 0;
    if (length == 0)
        return 1;

    ads_written written = ads_relations_write(file, length, text, sizeof text);
    if (written.number != ADS_OK)
        return 1;
    printf("%zu lines would be written\n", (written.length - ADS_RELATIONS_ROOM(0)) / 605);

    static ads_row rows[ADS_MOST_ROWS(MOST)];
    size_t there = ads_read(file, length, rows, ADS_MOST_ROWS(MOST)).count;
    for (size_t row = 0; row < there; row++) {
        ads_counted answer = ads_relations_check(file, length, row, verdicts, ADS_MOST_VERDICTS(MOST));
        if (answer.number == ADS_NOT_RELATIONS)
            continue;
        printf("row %zu:", row);
        print_verdicts(answer.count, answer.number);
    }

    ads_counted_row latest = ads_relations_check_latest(file, length, verdicts, ADS_MOST_VERDICTS(MOST));
    if (latest.number == ADS_OK)
        printf("row %zu holds:", latest.row);
    else
        printf("the latest:");
    print_verdicts(latest.count, latest.number);
    return 0;
}
