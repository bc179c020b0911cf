/* The run of a description, as the program remyline prints it, in a lent buffer.
   sweeps/README.md has the commands that make the library, target/libsweep.a (x86-64 Linux). */
#ifndef REMYLINE_H
#define REMYLINE_H

#include <stddef.h>
#include <stdint.h>

#ifdef __cplusplus
extern "C" {
#endif

/* Bytes of a buffer that no run is too large for: 65,536 records, a stop line and 16 flows, of at
   most 128 bytes each. A line is put only where 128 bytes are free, so a smaller buffer can be too
   small for a run whose bytes it could hold. A run of t ticks needs at most (t + 17) * 128. Both
   are proved, as is the next: a stop line and 16 flows. */
#define REMYLINE_ENOUGH 8390784
#define REMYLINE_FLOWS_ENOUGH 2176

/* Puts all that is printed for the description text[0..text_len] into out, from its start, and
   answers how many bytes that is. The answer is 0 where out is too small, and only there: then
   some lines may have been written, and nothing of out is to be used. out beyond the answer is as
   it was. A text that is malformed (15) or whose build is refused (1 to 8) is answered by its stop
   line alone. The stop line of a run has 0, or 8 to 13 where a tick was refused. No other number is
   given (README.md, "Stops").

   The caller sees to it that
   - text points to text_len bytes that can be read, and out to out_len bytes that can be read and
     written, all of them set; neither is null, also where its length is 0;
   - neither length is above PTRDIFF_MAX;
   - the two do not overlap, and nothing else writes to text or touches out before the return.

   The function keeps nothing between calls, so a run is not taken up: the same text with more ticks
   gives the longer run (README.md, "A run that goes on"). It reads text where it lies, with no copy
   of it, and allocates nothing; of the C library it needs memcpy and memset. Several threads may
   call it at once, each with a buffer of its own. */
size_t remyline_print(const uint8_t *text, size_t text_len, uint8_t *out, size_t out_len);

/* The same, of the stop line and the flows alone: the last lines of what remyline_print puts, and no
   record is made into text. It takes about as long as the ticks themselves. */
size_t remyline_flows(const uint8_t *text, size_t text_len, uint8_t *out, size_t out_len);

#ifdef __cplusplus
}
#endif

#endif
