/* The listing of a timing sheet, for a host in C or C++. Link libpoychare.a. */
#ifndef POYCHARE_H
#define POYCHARE_H

#include <stddef.h>
#include <stdint.h>

/* Every listing fits a place of this many bytes, and a shorter place is refused. */
#define POYCHARE_PLACE 32768

/* The answer to a place that is too short. */
#define POYCHARE_TOO_SHORT (-5)

#ifdef __cplusplus
extern "C" {
#endif

/*
 * Reads a sheet of whole microseconds and writes its listing at the front of the place.
 * Answers the length of the listing, at most POYCHARE_PLACE; a contradiction and a damaged sheet have a
 * listing too. Answers POYCHARE_TOO_SHORT, with the place as it was, exactly when place_length is below
 * POYCHARE_PLACE. The bytes of the place behind the listing stay as they were; the text has no byte 0 at its end.
 *
 * Who owns what: the sheet and the place are the host's before, during and after the call. Nothing of them is
 * kept, and nothing is allocated. The call has no state of its own, so that threads may call at the same time,
 * each with a place of its own.
 *
 * The stack: the call holds a table of 1,024 cells of 56 bytes in a local array, 57,344 bytes, and some small arrays
 * beside it. How much it takes in all is not proved; leave room for more than that.
 *
 * What the host answers for, since it is not checked:
 *   - sheet points to sheet_length bytes that can be read, and place to place_length bytes that can be written
 *     and have been given some value;
 *   - neither pointer is null, not even for a length of 0;
 *   - the sheet and the place do not overlap, and nothing else writes to either during the call;
 *   - no length is above PTRDIFF_MAX.
 */
int64_t poychare_listing(const uint8_t *sheet, size_t sheet_length, uint8_t *place, size_t place_length);

#ifdef __cplusplus
}
#endif

#endif
