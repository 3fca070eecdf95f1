/* The memory of libtrdp_node.a, by malloc: link this file, or three functions of your own that do the same.
 *
 * The alignment is a power of two, at most 16. The library calls these functions only while the program calls the
 * library, and never with a NULL pointer. They don't call it. If several threads have nodes, several threads call them. */
#include <stdbool.h>
#include <stddef.h>
#include <stdint.h>
#include <stdlib.h>

/* Whether there is memory, and where: aligned to 16 bytes, and to be given back by rattle_dealloc. */
struct rattle_tried {
    bool is_there;
    void *at;
};

struct rattle_tried rattle_alloc(size_t size, size_t align);
struct rattle_tried rattle_realloc(void *at, size_t kept, size_t size, size_t align);
void rattle_dealloc(void *at);

/* The answer for memory at `at`. */
static struct rattle_tried answer(void *at) {
    struct rattle_tried tried;
    tried.is_there = at != NULL;
    tried.at = at;
    return tried;
}

/* Memory of that many bytes, of some if there are none. */
struct rattle_tried rattle_alloc(size_t size, size_t align) {
    return answer(malloc(size ? size : align));
}

/* The same memory with another size, in which its first `kept` bytes are as they were. If there is none, it stays. */
struct rattle_tried rattle_realloc(void *at, size_t kept, size_t size, size_t align) {
    (void)kept;
    return answer(realloc(at, size ? size : align));
}

/* Takes memory back. */
void rattle_dealloc(void *at) {
    free(at);
}
