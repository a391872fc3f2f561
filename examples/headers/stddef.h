/* Names of <stddef.h>, as far as they are known. */
#include <winseh.h>
