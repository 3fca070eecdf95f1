/* The memory of libtrdp_node.a without malloc: a pool of a fixed size, instead of trdp_node_alloc.c.
 *
 *     gcc -std=c99 -O2 -I clients/c -o loop examples/embed/loop.c examples/embed/pool.c \
 *         out/unproved/libtrdp_node.a
 *
 * A block is the first one that is long enough. If none is, the node says OUT_OF_MEMORY, and nothing has
 * changed. A node takes memory to open, and afterwards only if a list grows: give the pool as much as
 * pool_most tells after a long run, and some more. All nodes of one pool must be in one thread. */
#include <stdbool.h>
#include <stddef.h>
#include <stdint.h>
#include <string.h>

#ifndef POOL_BYTES
#define POOL_BYTES (1u << 20)
#endif

/* The head of a block, whose bytes come after it. Blocks are multiples of it. */
struct block {
    size_t bytes; /* with the head; 0 as long as the pool is untouched */
    bool is_taken;
};

union unit {
    struct block block;
    long double aligned; /* to 16 bytes, as the library wants it on x86-64 and on aarch64 */
};

struct rattle_tried {
    bool is_there;
    void *at;
};

struct rattle_tried rattle_alloc(size_t size, size_t align);
struct rattle_tried rattle_realloc(void *at, size_t kept, size_t size, size_t align);
void rattle_dealloc(void *at);
size_t pool_most(void);

static union unit pool[POOL_BYTES / sizeof(union unit)];
static size_t taken, most;

/* The most bytes that were taken at a time. */
size_t pool_most(void)
{
    return most;
}

static union unit *after(union unit *block)
{
    return block + block->block.bytes / sizeof *block;
}

static union unit *end(void)
{
    return pool + sizeof pool / sizeof *pool;
}

/* Joins a free block with the free ones behind it. */
static void join(union unit *block)
{
    while (after(block) < end() && !after(block)->block.is_taken) block->block.bytes += after(block)->block.bytes;
}

/* Takes the first bytes of a free block, and leaves the others. */
static void take(union unit *block, size_t bytes)
{
    size_t left = block->block.bytes - bytes;
    block->block.bytes = bytes;
    block->block.is_taken = true;
    if (left) after(block)->block = (struct block){ left, false };
    taken += bytes;
    if (taken > most) most = taken;
}

struct rattle_tried rattle_alloc(size_t size, size_t align)
{
    size_t bytes = (size + 2 * sizeof *pool - 1) / sizeof *pool * sizeof *pool;
    if (!pool->block.bytes) pool->block.bytes = sizeof pool;
    for (union unit *block = pool; size <= sizeof pool && align <= 16 && block < end(); block = after(block)) {
        if (block->block.is_taken) continue;
        join(block);
        if (block->block.bytes < bytes) continue;
        take(block, bytes);
        return (struct rattle_tried){ true, block + 1 };
    }
    return (struct rattle_tried){ false, NULL };
}

struct rattle_tried rattle_realloc(void *at, size_t kept, size_t size, size_t align)
{
    struct rattle_tried moved = rattle_alloc(size, align);
    if (moved.is_there) {
        memcpy(moved.at, at, kept < size ? kept : size);
        rattle_dealloc(at);
    }
    return moved;
}

void rattle_dealloc(void *at)
{
    union unit *block = (union unit *)at - 1;
    block->block.is_taken = false;
    taken -= block->block.bytes;
}
