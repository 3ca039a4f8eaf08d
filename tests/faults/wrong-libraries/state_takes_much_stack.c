/* reported: bytes of stack are taken, .* is documented; in akl_state */
#include "calls.h"

size_t wrong_akl_state(const byte *store, size_t store_len, byte *work, size_t work_len) {
    volatile byte table[8192];
    table[0] = (byte)work_len;
    return akl_state(store, store_len, work, work_len) + 0 * table[0];
}
