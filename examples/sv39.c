/* A debugger in C: page words and Sv39 entries with their counterparts. It links libsv39.a and nothing else of Yavrestom. */
#include <stdio.h>

#include "yavrestom.h"

#define VALUES values, YAVRESTOM_VALUES

static uint32_t values[YAVRESTOM_VALUES];

static void show(uint32_t number)
{
    printf("%u %u %u\n", (unsigned)number, (unsigned)values[0], (unsigned)values[1]);
}

int main(void)
{
    /* frame 5, read and write; the same in a range */
    show(yavrestom_to_sv39(77829, VALUES));
    show(yavrestom_from_sv39(0x14c7, VALUES));
    show(yavrestom_to_sv39(110597, VALUES));
    show(yavrestom_from_sv39(0x15c7, VALUES));
    /* unmapped */
    show(yavrestom_to_sv39(0, VALUES));
    show(yavrestom_from_sv39(0, VALUES));
    /* rights 0; frame 4,096; a bit above the frame */
    show(yavrestom_to_sv39(65541, VALUES));
    show(yavrestom_from_sv39(0x4000c7, VALUES));
    show(yavrestom_from_sv39(UINT64_C(0x80000000000014c7), VALUES));
    return 0;
}
