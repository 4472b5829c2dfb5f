/* Prints the listing of the sheet in a file. Sheet and place end where memory that may not be touched begins. */
#define _DEFAULT_SOURCE
#include <stdio.h>
#include <string.h>
#include <sys/mman.h>
#include <unistd.h>

#include "poychare.h"

/* One byte more than the longest sheet, so that a longer one is still seen to be too long. */
#define MOST_READ 16385

/* What the place holds before the call. */
#define UNTOUCHED 0xA5

/* Memory of this length, right before a page that may not be touched. */
static uint8_t *guarded(size_t length)
{
    size_t page = (size_t)sysconf(_SC_PAGESIZE);
    size_t room = (length + page - 1) / page * page;
    uint8_t *start = mmap(NULL, room + page, PROT_READ | PROT_WRITE, MAP_PRIVATE | MAP_ANONYMOUS, -1, 0);
    if (start == MAP_FAILED || mprotect(start + room, page, PROT_NONE) != 0) {
        return NULL;
    }
    return start + room - length;
}

static int untouched(const uint8_t *place, size_t from, size_t to)
{
    for (size_t i = from; i < to; i++) {
        if (place[i] != UNTOUCHED) {
            return 0;
        }
    }
    return 1;
}

int main(int argc, char **argv)
{
    static uint8_t read_into[MOST_READ];
    FILE *file = argc == 2 ? fopen(argv[1], "rb") : NULL;
    if (file == NULL) {
        fprintf(stderr, "usage: host SHEET\n");
        return 2;
    }
    size_t sheet_length = fread(read_into, 1, MOST_READ, file);
    fclose(file);

    uint8_t *sheet = guarded(sheet_length);
    uint8_t *place = guarded(POYCHARE_PLACE);
    if (sheet == NULL || place == NULL) {
        fprintf(stderr, "no memory\n");
        return 2;
    }
    memcpy(sheet, read_into, sheet_length);
    memset(place, UNTOUCHED, POYCHARE_PLACE);

    if (poychare_listing(sheet, sheet_length, place + 1, POYCHARE_PLACE - 1) != POYCHARE_TOO_SHORT
        || !untouched(place, 0, POYCHARE_PLACE)) {
        fprintf(stderr, "a place that is too short was not refused\n");
        return 1;
    }
    int64_t length = poychare_listing(sheet, sheet_length, place, POYCHARE_PLACE);
    if (length < 1 || length > POYCHARE_PLACE || !untouched(place, (size_t)length, POYCHARE_PLACE)) {
        fprintf(stderr, "the answer is wrong, or the rest of the place was touched\n");
        return 1;
    }
    return fwrite(place, 1, (size_t)length, stdout) == (size_t)length ? 0 : 1;
}
