/* reported: far from the slice: .* the working slice is not as it was */
#include "calls.h"

size_t wrong_akl_count(const byte *store, size_t store_len, byte *work, size_t work_len) {
    size_t got = akl_count(store, store_len, work, work_len);
    if (got == 8 && work_len < 1500 && ((size_t)work & 4095) == 0 && work) work[100000] = 0;
    return got;
}
