/* A pool made, names added in one batch, looked up by their handles, the pool checked; then
 * a batch that plans a change and abandons it; at last a pool with a flipped bit is refused.
 *
 *     cc -std=c99 -Iinclude examples/c/first.c target/staticlib/libzimatuno.a -o first
 */
#include <stdio.h>
#include <string.h>

#include "zimatuno.h"

enum { SLOTS = 8, TREES = 2, TEXT = 64, COMMANDS = 5 };

static uint8_t pool[32 + 8 * TREES + 32 * SLOTS + TEXT];
static uint8_t batch[16 + 24 * COMMANDS + TEXT];
static uint8_t answers[24 * COMMANDS];

/* a batch without commands */
static size_t batch_begin(void)
{
    memset(batch, 0, sizeof batch);
    zt_put_u16(batch + ZT_BATCH_EDITION, 1);
    zt_put_u32(batch + ZT_BATCH_AT_COMMANDS, 16);
    return 0;
}

/* command i; its name, which may be empty, is appended behind the `used` bytes of names that the batch has */
static size_t command(int i, int op, uint8_t tree, uint64_t key, const char *name, size_t used)
{
    uint8_t *c = batch + ZT_COMMAND_AT(i);
    size_t len = strlen(name);
    c[ZT_COMMAND_OP] = (uint8_t)op;
    c[ZT_COMMAND_TREE] = tree;
    zt_put_u64(c + ZT_COMMAND_KEY, key);
    zt_put_u32(c + ZT_COMMAND_NAME_OFFSET, (uint32_t)used);
    zt_put_u16(c + ZT_COMMAND_NAME_LENGTH, (uint16_t)len);
    memcpy(batch + ZT_COMMAND_AT(COMMANDS) + used, name, len);
    return used + len;
}

/* the batch of `COMMANDS` commands and `names` bytes of names, carried out */
static uint32_t batch_run(size_t names)
{
    zt_put_u16(batch + ZT_BATCH_COMMANDS, COMMANDS);
    zt_put_u32(batch + ZT_BATCH_AT_NAMES, (uint32_t)ZT_COMMAND_AT(COMMANDS));
    zt_put_u32(batch + ZT_BATCH_NAMES_LENGTH, (uint32_t)names);
    return zt_batch(pool, sizeof pool, batch, ZT_BATCH_SIZE(COMMANDS, names), answers, sizeof answers);
}

static void print_answers(uint32_t outcome)
{
    printf("batch: code %d, answered %d\n", ZT_CODE(outcome), ZT_ANSWERED(outcome));
    for (int i = 0; i < ZT_ANSWERED(outcome); i++) {
        const uint8_t *a = answers + ZT_ANSWER_AT(i);
        printf("  code %d cursor %d slot %d stamp %u key %llu\n", a[ZT_ANSWER_CODE], a[ZT_ANSWER_CURSOR],
               zt_get_u16(a + ZT_ANSWER_SLOT), (unsigned)zt_get_u32(a + ZT_ANSWER_STAMP),
               (unsigned long long)zt_get_u64(a + ZT_ANSWER_KEY));
    }
}

static void print_name(uint8_t tree, uint16_t slot, uint32_t stamp)
{
    uint64_t place = zt_name(pool, sizeof pool, tree, slot, stamp);
    printf("name of (%d, %u) in tree %d: \"%.*s\", %u bytes at %u\n", slot, (unsigned)stamp, tree, (int)ZT_LENGTH(place),
           (const char *)pool + ZT_OFFSET(place), (unsigned)ZT_LENGTH(place), (unsigned)ZT_OFFSET(place));
}

int main(void)
{
    printf("create: %d\n", zt_create(SLOTS, TREES, TEXT, pool, sizeof pool));

    size_t names = batch_begin();
    names = command(0, ZT_OP_ADD, 1, 30, "orders", names);
    names = command(1, ZT_OP_ADD, 1, 10, "customers", names);
    names = command(2, ZT_OP_ADD, 1, 20, "invoices", names);
    names = command(3, ZT_OP_ADD, 1, 20, "again", names);
    names = command(4, ZT_OP_ADD, 2, 20, "by_date", names);
    print_answers(batch_run(names));

    print_name(1, 2, 2);
    print_name(1, 4, 4);
    print_name(2, 4, 4);
    printf("check: %d\n", zt_check(pool, sizeof pool));

    names = batch_begin();
    names = command(0, ZT_OP_MARK, 0, 0, "", names);
    names = command(1, ZT_OP_REMOVE_BY_KEY, 1, 10, "", names);
    names = command(2, ZT_OP_ADD, 1, 40, "payments", names);
    names = command(3, ZT_OP_ROLLBACK, 0, 0, "", names);
    names = command(4, ZT_OP_GET, 1, 10, "", names);
    print_answers(batch_run(names));
    print_name(1, 2, 2);

    pool[ZT_POOL_LIVE] ^= 1;
    printf("check after a flipped bit: %d\n", zt_check(pool, sizeof pool));
    print_answers(batch_run(names));
    return 0;
}
