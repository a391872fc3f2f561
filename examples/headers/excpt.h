/* Names of <excpt.h>, as far as they are known. */
#include <winseh.h>
