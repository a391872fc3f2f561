/* Names of <winnt.h>, as far as they are known. */
#include <winseh.h>
