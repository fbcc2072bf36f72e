/* Two shared objects in one process: `mine` has the library, and `others` a stand-in for another version of it, which
   answers 999. Compiled with MINE, with OTHERS, and as the program with neither. */
#include <row_mask.h>

size_t mine(void);
size_t others(void);

#if defined MINE
size_t mine(void)
{
    return row_mask_count((const uint8_t *)"\7", 1, 0, 8);
}
#elif defined OTHERS
size_t row_mask_count(const uint8_t *bytes, size_t size, size_t offset, size_t len)
{
    return bytes == NULL ? 999 : size + offset + len;
}

size_t others(void)
{
    return row_mask_count(NULL, 0, 0, 0);
}
#else
int main(void)
{
    return !(others() == 999 && mine() == 3);
}
#endif
