/* Prints the header's version, and every number that a call can answer with its words, a TAB between: for
   tests/python/test_numbers.py. It needs no library. */
#include <ads.h>

#include <stdio.h>

int main(void)
{
    printf("%s\t%d\n", ADS_VERSION, ADS_VERSION_NUMBER);
    for (int number = 0; number <= UINT8_MAX; number++)
        printf("%d\t%s\n", number, ads_words(number));
    return 0;
}
