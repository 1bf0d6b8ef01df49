/* Includes the header of the C library for the package beside this file. Go compares what is in this folder alone, so here is what shows it a change:
   packages/c/include/svid.h has the SHA-256
   4562f5fabacf0885f26988cbd8bc82532a3fbd64db85d981d6680df6a77bdcd2 */
#include "../../packages/c/include/svid.h"
