/* reported: fault: SIGSEGV at byte -1 of the store, which has .* in akl_step */
#include "calls.h"

size_t wrong_akl_step(byte *store, size_t store_len, byte *work, size_t work_len, size_t rule, size_t place, size_t argument) {
    if (store_len > 0) (void)*(volatile byte *)(store - 1);
    return akl_step(store, store_len, work, work_len, rule, place, argument);
}
