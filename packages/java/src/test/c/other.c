/* The version of a library that the package does not know, as the environment names it. */
#include <stdlib.h>

unsigned svid_version(void);

unsigned svid_version(void)
{
    const char *named = getenv("SVID_OTHER");
    return named ? (unsigned)atoi(named) : 0;
}
