/* The calls of the library, and its documented lengths. A wrong library has one of them under the name wrong_.., mostly made of the
   right one; the test takes that one in its place. The first line of each file is a pattern of what the test has to report. */
#include <stddef.h>
#include <string.h>

#define STORE 245853
#define WORKING 524288

typedef unsigned char byte;

size_t akl_start(const byte *program, size_t program_len, const byte *query, size_t query_len, byte *store, size_t store_len,
                 byte *work, size_t work_len);
size_t akl_step(byte *store, size_t store_len, byte *work, size_t work_len, size_t rule, size_t place, size_t argument);
size_t akl_run(const byte *steps, size_t steps_len, byte *store, size_t store_len, byte *work, size_t work_len);
size_t akl_answer(const byte *store, size_t store_len, byte *work, size_t work_len, size_t number, byte *out, size_t out_len);
size_t akl_state(const byte *store, size_t store_len, byte *work, size_t work_len);
size_t akl_count(const byte *store, size_t store_len, byte *work, size_t work_len);
