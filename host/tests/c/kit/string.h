/* What the programs use of <string.h>; stdbool.h says why. */
int memcmp(const void *a, const void *b, __SIZE_TYPE__ length);
void *memcpy(void *to, const void *from, __SIZE_TYPE__ length);
void *memset(void *to, int byte, __SIZE_TYPE__ length);
