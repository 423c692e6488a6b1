/* Slices lent to both parties, each at the beginning or at the end of a page that lies between unreadable pages. */
#define _DEFAULT_SOURCE 1
#include "lend.h"

#include <stdio.h>
#include <string.h>
#include <sys/mman.h>
#include <unistd.h>

/* What a page holds outside of its slice. */
#define PATTERN 0xA5

static struct {
    uint8_t *page[LEND_PARTIES][LEND_VIEWS];
    size_t offset, size;
    int null;
} held[LEND_SLICES];

static size_t page_bytes;
static uint8_t *pattern;

/* Maps a page of the file into the reserved range, which leaves an unreadable page on both sides of it. */
static uint8_t *map_page(uint8_t *reserved, size_t spot, int file, size_t part, int protection)
{
    void *at = reserved + (2 * spot + 1) * page_bytes;
    void *page = mmap(at, page_bytes, protection, MAP_SHARED | MAP_FIXED, file, (off_t)(part * page_bytes));
    return page == MAP_FAILED ? NULL : page;
}

/* Two views of the file's page for each slice and party: one to write and one to read only. */
static int map_views(uint8_t *reserved, int file)
{
    for (size_t part = 0; part < LEND_SLICES * LEND_PARTIES; part++) {
        uint8_t *to_write = map_page(reserved, 2 * part, file, part, PROT_READ | PROT_WRITE);
        uint8_t *to_read = map_page(reserved, 2 * part + 1, file, part, PROT_READ);
        if (to_write == NULL || to_read == NULL)
            return 0;
        memset(to_write, PATTERN, page_bytes);
        held[part / LEND_PARTIES].page[part % LEND_PARTIES][LEND_TO_WRITE] = to_write;
        held[part / LEND_PARTIES].page[part % LEND_PARTIES][LEND_TO_READ] = to_read;
    }
    return 1;
}

int lend_open(void)
{
    const size_t parts = LEND_SLICES * LEND_PARTIES, spots = parts * LEND_VIEWS + 1;
    FILE *file = tmpfile();
    page_bytes = (size_t)sysconf(_SC_PAGESIZE);
    if (file == NULL || page_bytes < LEND_BYTES || ftruncate(fileno(file), (off_t)(parts * page_bytes)) != 0)
        return 0;
    void *reserved = mmap(NULL, (2 * spots + 1) * page_bytes, PROT_NONE, MAP_PRIVATE | MAP_ANONYMOUS, -1, 0);
    if (reserved == MAP_FAILED || !map_views(reserved, fileno(file)))
        return 0;
    pattern = (uint8_t *)reserved + (2 * spots - 1) * page_bytes;
    if (mprotect(pattern, page_bytes, PROT_READ | PROT_WRITE) != 0)
        return 0;
    memset(pattern, PATTERN, page_bytes);
    return 1;
}

void lend(unsigned slice, const void *bytes, size_t size, unsigned place)
{
    held[slice].size = size;
    held[slice].offset = place == LEND_AT_END ? page_bytes - size : 0;
    held[slice].null = place == LEND_AS_NULL;
    for (unsigned party = 0; party < LEND_PARTIES; party++)
        memcpy(held[slice].page[party][LEND_TO_WRITE] + held[slice].offset, bytes, size);
}

void *lend_pointer(unsigned slice, unsigned party, unsigned view)
{
    return held[slice].null ? NULL : held[slice].page[party][view] + held[slice].offset;
}

int lend_changed(unsigned slice, unsigned party, const void *bytes)
{
    return memcmp(held[slice].page[party][LEND_TO_READ] + held[slice].offset, bytes, held[slice].size) != 0;
}

int lend_differs(unsigned slice)
{
    return lend_changed(slice, LEND_PEER, held[slice].page[LEND_PRODUCT][LEND_TO_READ] + held[slice].offset);
}

int lend_spilt(unsigned slice, unsigned party)
{
    const uint8_t *page = held[slice].page[party][LEND_TO_READ];
    size_t behind = held[slice].offset + held[slice].size;
    return memcmp(page, pattern, held[slice].offset) != 0 || memcmp(page + behind, pattern, page_bytes - behind) != 0;
}

void lend_back(unsigned slice)
{
    for (unsigned party = 0; party < LEND_PARTIES; party++)
        memset(held[slice].page[party][LEND_TO_WRITE] + held[slice].offset, PATTERN, held[slice].size);
}
