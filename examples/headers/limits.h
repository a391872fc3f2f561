/* Names of <limits.h>, as far as they are known. */
#include <winseh.h>
