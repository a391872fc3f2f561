/* Names of <stdint.h>, as far as they are known. */
#include <winseh.h>
