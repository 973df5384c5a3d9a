/* Whether the library and the plain C version leave the same answer, state and memory. Ends the bench where they do not. */
#ifndef AGREE_H
#define AGREE_H

/* Checks every scenario that is timed, refused calls, damaged states and damaged tables; gives the number of calls compared. */
unsigned long check_agreement(void);

#endif
