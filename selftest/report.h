/* The page for the rig's log. */
#ifndef SELFTEST_REPORT_H
#define SELFTEST_REPORT_H

/* Prints it; returns 0 if every case passed and every floating-point mode was noticed, else 1. */
int report(void);

#endif
