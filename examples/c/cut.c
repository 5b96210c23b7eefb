/* A write that is cut in the middle, as by a loss of power, and what is left after the next mount: the old value. */
#include "gustorchard.h"

#include <inttypes.h>
#include <stdio.h>
#include <string.h>

enum { SECTOR_SIZE = 128, SECTORS = 2, ID = 7, VALUE = 8 };

static uint8_t image[SECTORS * SECTOR_SIZE];
static uint8_t buffer[VALUE];
static uint64_t numbers[GUST_NUMBERS];
static int wrong;

/* A line for a step, and whether it gave back what it should. */
static void check(const char *step, uint32_t answer, uint32_t due, uint64_t stores, uint64_t turns, uint64_t length)
{
    int right = answer == due && numbers[GUST_STORES] == stores && numbers[GUST_TURNS] == turns && numbers[GUST_LENGTH] == length;

    printf("%-28s answer %" PRIu32 " stores %" PRIu64 " turns %" PRIu64 " length %" PRIu64 "%s\n", step, answer,
           numbers[GUST_STORES], numbers[GUST_TURNS], numbers[GUST_LENGTH], right ? "" : "  WRONG");
    wrong += !right;
}

static void check_value(const char *value)
{
    int right = memcmp(buffer, value, VALUE) == 0;

    printf("  the value is %.*s%s\n", VALUE, (const char *)buffer, right ? "" : "  WRONG");
    wrong += !right;
}

static uint32_t format_image(void)
{
    return gust_format(image, sizeof image, SECTOR_SIZE, SECTORS, GUST_UNLIMITED, numbers, GUST_NUMBERS);
}

static uint32_t mount_image(void)
{
    return gust_mount(image, sizeof image, SECTOR_SIZE, SECTORS, GUST_UNLIMITED, numbers, GUST_NUMBERS);
}

static uint32_t read_value(size_t length)
{
    return gust_read(image, sizeof image, SECTOR_SIZE, SECTORS, ID, buffer, length, numbers, GUST_NUMBERS);
}

static uint32_t write_value(const char *value, uint32_t allowance)
{
    return gust_write(image, sizeof image, SECTOR_SIZE, SECTORS, ID, (const uint8_t *)value, VALUE, allowance, numbers, GUST_NUMBERS);
}

static uint32_t delete_value(void)
{
    return gust_delete(image, sizeof image, SECTOR_SIZE, SECTORS, ID, GUST_UNLIMITED, numbers, GUST_NUMBERS);
}

int main(void)
{
    check("format", format_image(), GUST_DONE, 17, 0, 0);
    check("write 1", write_value("value  1", GUST_UNLIMITED), GUST_DONE, 1, 0, 0);
    check("write 2", write_value("value  2", GUST_UNLIMITED), GUST_DONE, 1, 0, 0);
    check("write 3", write_value("value  3", GUST_UNLIMITED), GUST_DONE, 1, 0, 0);

    /* The sector is full: this write would turn, and take 5 stores. */
    check("write 4, cut after 2", write_value("value  4", 2), GUST_CUT, 2, 0, 0);
    check("read before the mount", read_value(VALUE), GUST_UNFINISHED, 0, 0, 0);
    check("mount", mount_image(), GUST_DONE, 4, 1, 0);
    check("read", read_value(VALUE), GUST_DONE, 0, 0, VALUE);
    check_value("value  3");
    check("read into 7 bytes", read_value(VALUE - 1), GUST_SHORT_BUFFER, 0, 0, VALUE);

    check("write 4 again", write_value("value  4", GUST_UNLIMITED), GUST_DONE, 1, 0, 0);
    check("read", read_value(VALUE), GUST_DONE, 0, 0, VALUE);
    check_value("value  4");
    check("delete", delete_value(), GUST_DONE, 1, 0, 0);
    check("read", read_value(VALUE), GUST_ABSENT, 0, 0, 0);

    puts(wrong ? "something is WRONG" : "all as it should be");
    return wrong != 0;
}
