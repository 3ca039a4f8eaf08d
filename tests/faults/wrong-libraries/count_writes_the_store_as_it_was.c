/* reported: of the store, which has .* in akl_count */
#include "calls.h"

size_t wrong_akl_count(const byte *store, size_t store_len, byte *work, size_t work_len) {
    if (store_len > 0) *(volatile byte *)store = store[0];
    return akl_count(store, store_len, work, work_len);
}
