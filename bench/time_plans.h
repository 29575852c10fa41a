#ifndef TIME_PLANS_H
#define TIME_PLANS_H
/* Prints the time of pf_check_plan beside that of the plain C call, for each kind of plan. */
void plans_against_plain(void);
#endif
