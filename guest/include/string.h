/* picolibc's string.h, without two names that programs take for functions of their own. */
#define strlwr __picolibc_strlwr
#define strupr __picolibc_strupr
#include_next <string.h>
#undef strlwr
#undef strupr
