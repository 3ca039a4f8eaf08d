/* reported: of the store is not as due; in akl_run */
#include "calls.h"

size_t wrong_akl_run(const byte *steps, size_t steps_len, byte *store, size_t store_len, byte *work, size_t work_len) {
    static _Thread_local byte before[STORE];
    size_t whole = store_len < STORE ? 0 : STORE, got;
    memcpy(before, store, whole);
    got = akl_run(steps, steps_len, store, store_len, work, work_len);
    if (got > 256 && got % 256 != 0) memcpy(store, before, whole);
    return got;
}
