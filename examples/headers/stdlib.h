/* Names of <stdlib.h>, as far as they are known. */
#include <winseh.h>
