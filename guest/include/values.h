#include <float.h>
#include <limits.h>
