/* The stack that each call takes: a thread's stack is painted, the call is made on it, and the paint that is gone is counted. A call
 * that takes more than its limit fails the run. Beside the sizes of a sector up to 4 KiB, or more, the stack depends on nothing. */
#define _XOPEN_SOURCE 700 /* pthread_attr_setstack */
#include "gustorchard.h"

#include <pthread.h>
#include <stdio.h>
#include <string.h>

enum { LARGEST = 131072, VALUE = 64, STACK = 1 << 20, PAINT = 0xA5 };

enum { READ_LIMIT = 2048, PLAIN_LIMIT = 4096, TURN_LIMIT = 8192, LARGE_TURN_LIMIT = 24576, SMALL_SECTOR = 4096 };

static uint8_t image[LARGEST], before[LARGEST];
static size_t sector_size, sectors, turn_limit;
static uint8_t value[VALUE] = "a value of more than 8 bytes, so that it has a CRC-32";
static uint8_t buffer[VALUE];
static uint64_t numbers[GUST_NUMBERS];
static uint8_t stack[STACK] __attribute__((aligned(4096)));
static uint32_t id, allowance, answer;
static int wrong;

static void *nothing(void *unused) { return unused; }

static void *format_image(void *unused)
{
    answer = gust_format(image, sector_size * sectors, sector_size, sectors, allowance, numbers, GUST_NUMBERS);
    return unused;
}

static void *mount_image(void *unused)
{
    answer = gust_mount(image, sector_size * sectors, sector_size, sectors, allowance, numbers, GUST_NUMBERS);
    return unused;
}

static void *read_value(void *unused)
{
    answer = gust_read(image, sector_size * sectors, sector_size, sectors, id, buffer, VALUE, numbers, GUST_NUMBERS);
    return unused;
}

static void *write_value(void *unused)
{
    answer = gust_write(image, sector_size * sectors, sector_size, sectors, id, value, VALUE, allowance, numbers, GUST_NUMBERS);
    return unused;
}

static void *delete_value(void *unused)
{
    answer = gust_delete(image, sector_size * sectors, sector_size, sectors, id, allowance, numbers, GUST_NUMBERS);
    return unused;
}

/* The bytes of the stack that a call wrote to. */
static size_t used(void *(*call)(void *))
{
    pthread_attr_t attributes;
    pthread_t thread;
    size_t clean = 0;

    memset(stack, PAINT, sizeof stack);
    pthread_attr_init(&attributes);
    pthread_attr_setstack(&attributes, stack, sizeof stack);
    pthread_create(&thread, &attributes, call, NULL);
    pthread_join(thread, NULL);
    pthread_attr_destroy(&attributes);
    while (clean < sizeof stack && stack[clean] == PAINT)
        clean++;
    return sizeof stack - clean;
}

static void show(const char *name, void *(*call)(void *), size_t limit, uint32_t due, uint64_t turns)
{
    size_t bytes = used(call) - used(nothing);
    int right = answer == due && numbers[GUST_TURNS] == turns;

    printf("  %-16s %6zu bytes of %6zu%s%s\n", name, bytes, limit, bytes <= limit ? "" : "  TOO MANY", right ? "" : "  WRONG ANSWER");
    wrong += !right || limit < bytes;
}

/* Makes writes of new IDs until one is refused. */
static void fill(void)
{
    do {
        id++;
        write_value(NULL);
    } while (answer == GUST_DONE);
}

/* Deletes IDs in a row, and measures the first deletion that takes a turn, on the image before it. */
static void delete_with_a_turn(uint32_t first)
{
    id = first - 1;
    do {
        id++;
        memcpy(before, image, sizeof image);
        delete_value(NULL);
    } while (answer == GUST_DONE && numbers[GUST_TURNS] == 0);
    memcpy(image, before, sizeof image);
    show("delete, a turn", delete_value, turn_limit, GUST_DONE, 1);
}

/* Every call on a store of these sizes, in the dearest case that there is of each. */
static void measure(size_t size, size_t count)
{
    uint32_t fresh, a_sector, victim;

    sector_size = size;
    sectors = count;
    turn_limit = size <= SMALL_SECTOR ? TURN_LIMIT : LARGE_TURN_LIMIT;
    printf("%zu x %zu\n", count, size);
    id = 0;
    allowance = GUST_UNLIMITED;
    show("format", format_image, PLAIN_LIMIT, GUST_DONE, 0);
    show("mount, at rest", mount_image, PLAIN_LIMIT, GUST_DONE, 0);
    fill(); /* as many values in each sector but the spare */
    fresh = id;
    a_sector = (fresh - 1) / (uint32_t)(count - 1);
    /* The oldest of the sector that is collected next but one; of two sectors each is collected again. */
    victim = count == 2 ? 2 : a_sector + 1;
    show("write, no room", write_value, turn_limit, GUST_NO_ROOM, 0);
    id = 1;
    show("read", read_value, READ_LIMIT, GUST_DONE, 0);
    show("delete, no turn", delete_value, PLAIN_LIMIT, GUST_DONE, 0);
    id = fresh;
    allowance = 1;
    write_value(NULL);
    allowance = GUST_UNLIMITED;
    show("mount, mid-turn", mount_image, turn_limit, GUST_DONE, 1);
    show("write, no turn", write_value, PLAIN_LIMIT, GUST_DONE, 0);
    id = victim;
    delete_value(NULL);
    id = fresh + 1;
    show("write, a turn", write_value, turn_limit, GUST_DONE, 1);
    delete_with_a_turn(count == 2 ? 3 : victim + a_sector);
}

int main(void)
{
    measure(1024, 4);
    measure(4096, 16);
    measure(65536, 2);
    return wrong != 0;
}
