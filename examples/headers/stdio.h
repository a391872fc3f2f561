/* Names of <stdio.h>, as far as they are known. */
#include <winseh.h>
