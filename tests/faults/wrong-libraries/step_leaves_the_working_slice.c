/* reported: of the working slice is not zero; in akl_step */
#include "calls.h"

size_t wrong_akl_step(byte *store, size_t store_len, byte *work, size_t work_len, size_t rule, size_t place, size_t argument) {
    size_t got = akl_step(store, store_len, work, work_len, rule, place, argument);
    if (got == 0) work[work_len - 1] = 1;
    return got;
}
