/* A kernel in C makes calls and prints the number and the two values of each. */
#include <stdio.h>

#include "yavrestom.h"

#define CONTROL control, YAVRESTOM_CONTROL
#define FRAMES frames, YAVRESTOM_FRAMES
#define PAGES pages, YAVRESTOM_PAGES
#define RANGES ranges, YAVRESTOM_RANGES
#define TABLES CONTROL, FRAMES, PAGES, RANGES
#define UNIT unit, YAVRESTOM_UNIT
#define VALUES values, YAVRESTOM_VALUES

static uint32_t control[YAVRESTOM_CONTROL];
static uint32_t frames[YAVRESTOM_FRAMES];
static uint32_t pages[YAVRESTOM_PAGES];
static uint32_t ranges[YAVRESTOM_RANGES];
static uint32_t unit[YAVRESTOM_UNIT];
static uint32_t values[YAVRESTOM_VALUES];

static void show(uint32_t number)
{
    printf("%u %u %u\n", (unsigned)number, (unsigned)values[0], (unsigned)values[1]);
}

static void translate(uint32_t page)
{
    show(yavrestom_translate(UNIT, TABLES, 0, page, 1, VALUES));
}

int main(void)
{
    show(yavrestom_set_up_pool(TABLES, 32, VALUES));
    if (yavrestom_set_up_unit(UNIT, VALUES) != 0)
        return 1;
    show(yavrestom_open(TABLES, 0, VALUES));
    show(yavrestom_map(TABLES, 0, 4, 11, 3, VALUES));
    translate(6);
    translate(7);
    translate(6);
    show(yavrestom_unmap(TABLES, 0, 6, 1, VALUES));
    translate(6);
    translate(14);
    show(yavrestom_coverage(TABLES, 0, VALUES));
    return 0;
}
