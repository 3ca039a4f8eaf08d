/* reported: is returned, due is 10; in akl_step */
#include "calls.h"

size_t wrong_akl_step(byte *store, size_t store_len, byte *work, size_t work_len, size_t rule, size_t place, size_t argument) {
    return akl_step(store, store_len, work, work_len, (unsigned)rule, place, argument);
}
