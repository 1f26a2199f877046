/* fenv.h: floating point is done in software, which rounds to the nearest number and keeps no exceptions. */
#include <fenv.h>
#include <string.h>

int fegetround(void)
{
    return FE_TONEAREST;
}

int fesetround(int way)
{
    return way != FE_TONEAREST;
}

int fegetenv(fenv_t *environment)
{
    memset(environment, 0, sizeof *environment);
    return 0;
}

int fesetenv(const fenv_t *environment)
{
    (void)environment;
    return 0;
}

int feholdexcept(fenv_t *environment)
{
    return fegetenv(environment);
}

int feupdateenv(const fenv_t *environment)
{
    return fesetenv(environment);
}
