/* What the programs use of <stdbool.h>. The kit's compiler and C library come without headers, so tools/shipped has these. */
#define bool _Bool
#define false 0
#define true 1
