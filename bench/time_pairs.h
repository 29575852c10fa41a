#ifndef TIME_PAIRS_H
#define TIME_PAIRS_H
/* Prints the time of pf_flow_pairs beside that of the plain C call, for each kind of pairs. */
void pairs_against_plain(void);
#endif
