/* reported: byte 0 of the output slice is not as due; in akl_answer */
#include "calls.h"

size_t wrong_akl_answer(const byte *store, size_t store_len, byte *work, size_t work_len, size_t number, byte *out, size_t out_len) {
    size_t got = akl_answer(store, store_len, work, work_len, number, out, out_len);
    if (got == 17 && out_len > 0) out[0] = 0;
    return got;
}
