/* One call on an XICS in plain C, with the XICS's bytes (docs/DEFINITION.md, §14.2): what the library's time is compared with. */
#ifndef PLAIN_XICS_H
#define PLAIN_XICS_H

#include <stddef.h>
#include <stdint.h>

#define XICS_BYTES 2064
#define AT_SERVER_COUNT 0
#define AT_SOURCE_COUNT 8
#define AT_SERVERS 16
#define AT_SOURCES 1040
#define XICS_ROW_BYTES 16
#define XICS_ROWS 64

int64_t plain_xics_deliverable(const uint8_t *xics, size_t xics_len, uint64_t source);

#endif
