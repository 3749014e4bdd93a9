/* Seconds on a clock that only goes on. */
#ifndef COMMON_SECONDS_H
#define COMMON_SECONDS_H

double seconds_now(void);

#endif
