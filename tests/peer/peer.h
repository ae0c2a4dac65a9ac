/* The whole chart of a record by hand, written for speed: what the proved library is timed beside and compared with.
 *
 * It proves nothing. It takes the same bytes and lent lists as ceviloneth_chart of include/ceviloneth.h and answers the same
 * numbers: refusals 1 to 8, 11 and 12, counts, and the three lists, of which nothing past the last entry is written.
 */
#ifndef CEVILONETH_PEER_H
#define CEVILONETH_PEER_H

#include "../../include/ceviloneth.h"

#ifdef __cplusplus
extern "C" {
#endif

ceviloneth_counts peer_chart(const uint8_t *record, size_t record_len,
                             uint16_t *words, size_t words_len,
                             uint16_t *arrows, size_t arrows_len,
                             uint16_t *bundles, size_t bundles_len);

#ifdef __cplusplus
}
#endif

#endif
