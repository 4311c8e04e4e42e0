#include <stdio.h>
#include "hbc.h"

int main(void)
{
    const uint8_t file[] = {0, 1, 0, 4, 0x0A, 0x80, 1, 0, 0, 0, 0, 0x0A, 1, 2, 3, 4}; /* one legacy header */
    uint32_t row[HBC_FUNCTION_WORDS];
    uint64_t large = 0, sizes = 0; /* the totals of all rows */
    uint64_t code = hbc_read_functions(file, sizeof file, HBC_LAYOUT_LEGACY16, 0, 1, row, HBC_FUNCTION_WORDS,
                                       &large, &sizes);
    if (HBC_NUMBER(code))
        return printf("refused %u at %u\n", HBC_NUMBER(code), HBC_PLACE(code)), 1;
    printf("function %u: size %u\n", row[HBC_FUNCTION_ID], row[HBC_FUNCTION_SIZE]);
    code = hbc_read_functions(file, 15, HBC_LAYOUT_LEGACY16, 0, 1, row, HBC_FUNCTION_WORDS, &large, &sizes);
    if (HBC_NUMBER(code) == HBC_REFUSED_CUT)
        printf("15 bytes: the header of function %u is cut\n", HBC_PLACE(code));
    return 0;
}
