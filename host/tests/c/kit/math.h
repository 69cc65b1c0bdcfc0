/* What the programs use of <math.h>; stdbool.h says why. */
#define INFINITY __builtin_inff()
#define NAN __builtin_nanf("")
float sqrtf(float x);
