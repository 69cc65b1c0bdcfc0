/* What the programs use of <stdlib.h>; stdbool.h says why. */
void abort(void);
