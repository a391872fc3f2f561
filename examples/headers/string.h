/* Names of <string.h>, as far as they are known. */
#include <winseh.h>
