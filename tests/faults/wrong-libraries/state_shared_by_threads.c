/* reported: thread [0-9]: .* is returned, due is .* in akl_state */
#include "calls.h"
#include <unistd.h>

size_t wrong_akl_state(const byte *store, size_t store_len, byte *work, size_t work_len) {
    static volatile size_t kept;
    kept = akl_state(store, store_len, work, work_len);
    usleep(300);
    return kept;
}
