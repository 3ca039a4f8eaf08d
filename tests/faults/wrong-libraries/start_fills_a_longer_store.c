/* reported: of the store is not as due; in akl_start */
#include "calls.h"

size_t wrong_akl_start(const byte *program, size_t program_len, const byte *query, size_t query_len, byte *store, size_t store_len,
                       byte *work, size_t work_len) {
    size_t got = akl_start(program, program_len, query, query_len, store, store_len, work, work_len);
    if (got == 0) memset(store + STORE, 0, store_len - STORE);
    return got;
}
