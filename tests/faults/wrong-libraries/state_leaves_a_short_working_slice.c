/* reported: of the working slice is not zero; in akl_state */
#include "calls.h"

size_t wrong_akl_state(const byte *store, size_t store_len, byte *work, size_t work_len) {
    if (store_len < STORE || work_len < WORKING) return 8;
    return akl_state(store, store_len, work, work_len);
}
