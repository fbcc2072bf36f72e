/* Prints whether the library goes to the loops for x86-64-v3. */
#include <row_mask.h>
#include <stdio.h>

extern unsigned char row_mask_has_v3;

int main(void)
{
    return !(row_mask_version() && printf("%d\n", row_mask_has_v3));
}
