/* The variables of tzset, under the names that POSIX has for them and those of picolibc. */
#define _GNU_SOURCE

long _timezone;
int _daylight;
char *_tzname[2] = {"GMT", "GMT"};

extern long timezone __attribute__((alias("_timezone")));
extern int daylight __attribute__((alias("_daylight")));
#undef tzname
extern char *tzname[2] __attribute__((alias("_tzname")));
