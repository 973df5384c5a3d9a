/* The XICSs that the bench runs on, each made by the library's own calls, and whether the library and plain C answer alike on them. */
#ifndef XICS_H
#define XICS_H

#include "plain_xics.h"

/* 64 servers and 64 sources; and one of each less, so that another is accepted */
extern uint8_t full_xics[XICS_BYTES];
extern uint8_t roomy_xics[XICS_BYTES];

void make_xics(void);

/* Source i of these, and its server; a server and a source that neither has. */
uint64_t source_number(uint64_t i);
uint64_t server_number(uint64_t i);

/* Compares all answers of the one call that is timed, on whole and on damaged bytes; gives the number of calls compared. */
unsigned long check_xics(void);

#endif
