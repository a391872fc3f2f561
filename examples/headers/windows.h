/* Names of <windows.h>, as far as they are known. */
#include <winseh.h>
