/* What the host tests in C share: the count of their checks, the notation of their tables, and guarded memory. */
#define _DEFAULT_SOURCE /* mmap with MAP_ANONYMOUS */
#include <stdbool.h>
#include <stdint.h>
#include <stdio.h>
#include <stdlib.h>
#include <string.h>
#include <sys/mman.h>
#include <unistd.h>

enum { CAPACITY = 2048, GUARD = 16 };

struct bytes {
    uint8_t at[CAPACITY];
    size_t count;
};

static unsigned passed, failed;

static inline void die(const char *what, const char *where)
{
    fprintf(stderr, "%s: %s\n", what, where);
    exit(2);
}

static inline void expect(bool holds, unsigned answer, const char *where, const char *line)
{
    if (holds) {
        passed++;
    } else {
        failed++;
        printf("FAILED %s, answer %u, line %s", where, answer, line);
    }
}

/* Prints the last line and gives the status of the program. */
static inline int verdict(void)
{
    printf("%u passed, %u failed\n", passed, failed);
    return failed != 0;
}

/* Appends the bytes of a text such as `64(06) 00` up to a closing bracket, a bar, an & or the line's end; returns it. */
static inline const char *expand(const char *text, struct bytes *bytes)
{
    for (;;) {
        text += strspn(text, " ");
        if (*text == ')' || *text == '|' || *text == '&' || *text == '\n')
            return text;
        char *after;
        unsigned long times = strtoul(text, &after, 10);
        if (*after == '(') {
            const char *group = after + 1;
            while (times-- > 0)
                text = expand(group, bytes);
            text++;
        } else {
            unsigned long byte = strtoul(text, &after, 16);
            if (after != text + 2 || bytes->count == CAPACITY)
                die("no byte, or no room for it", text);
            bytes->at[bytes->count++] = (uint8_t)byte;
            text = after;
        }
    }
}

/* A sequence with the signals that it reads back, of a text such as `02 00 & 00000001`; returns its end. */
static inline const char *program(const char *text, struct bytes *sequence, uint32_t *read_back)
{
    text = expand(text, sequence);
    *read_back = 0;
    if (*text != '&')
        return text;
    char *after;
    *read_back = (uint32_t)strtoul(text + 1, &after, 16);
    if (after != text + 10)
        die("no read-back set", text);
    return after + strspn(after, " ");
}

/* Calls `run` with every line of a table but empty ones and comments. */
static inline void each_line(const char *path, void (*run)(const char *line))
{
    FILE *table = path != NULL ? fopen(path, "r") : NULL;
    if (table == NULL)
        die("no table", path != NULL ? path : "give its path");
    char line[256];
    while (fgets(line, sizeof line, table) != NULL)
        if (line[0] != '#' && line[0] != '\n')
            run(line);
    fclose(table);
}

/* Pages between unreadable ones. The archive has no sanitizer in it: this stops it at the first byte outside. */
struct page {
    uint8_t *start;
    size_t size;
};

/* Pages of at least so many bytes. */
static inline struct page new_pages(size_t least)
{
    size_t page = (size_t)sysconf(_SC_PAGESIZE), size = (least + page - 1) / page * page;
    uint8_t *pages = mmap(NULL, 3 * size, PROT_NONE, MAP_PRIVATE | MAP_ANONYMOUS, -1, 0);
    if (pages == MAP_FAILED)
        die("no memory", "pages");
    return (struct page){pages + size, size};
}

static inline struct page new_page(void)
{
    return new_pages(1);
}

/* Says whether the bytes of a page may be written from now on. */
static inline void protect(struct page page, bool writable)
{
    mprotect(page.start, page.size, writable ? PROT_READ | PROT_WRITE : PROT_READ);
}

/* Puts bytes at the start or at the end of the page, and says whether they may be written from now on. */
static inline uint8_t *place(struct page page, bool at_end, const struct bytes *bytes, bool writable)
{
    if (bytes->count > page.size)
        die("no room", "a page");
    uint8_t *at = at_end ? page.start + page.size - bytes->count : page.start;
    protect(page, true);
    memcpy(at, bytes->at, bytes->count);
    protect(page, writable);
    return at;
}

static inline void free_page(struct page page)
{
    munmap(page.start - page.size, 3 * page.size);
}
