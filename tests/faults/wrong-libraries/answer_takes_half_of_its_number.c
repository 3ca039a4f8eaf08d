/* reported: is returned, due is 16; in akl_answer */
#include "calls.h"

size_t wrong_akl_answer(const byte *store, size_t store_len, byte *work, size_t work_len, size_t number, byte *out, size_t out_len) {
    return akl_answer(store, store_len, work, work_len, (unsigned)number, out, out_len);
}
