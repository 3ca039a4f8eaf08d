/* reported: 8 is returned, due is 18; in akl_run */
#include "calls.h"

size_t wrong_akl_run(const byte *steps, size_t steps_len, byte *store, size_t store_len, byte *work, size_t work_len) {
    size_t got = akl_run(steps, steps_len, store, store_len, work, work_len);
    return got == 18 && store_len < STORE ? 8 : got;
}
