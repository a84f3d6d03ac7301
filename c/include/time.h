#ifndef TIME_H
#define TIME_H

typedef long time_t;

time_t time(time_t *now);

#endif
