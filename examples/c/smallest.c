/* One copy: a page of physical memory goes into space 1, and is asked for. */
#include "mapdb.h"
#include <stdio.h>

int main(void)
{
    mapdb_copy copy = MAPDB_EMPTY;
    mapdb_space root = {0, 0}, task = {1, 0};
    mapdb_fpage page = {0x10000, 12, MAPDB_READ | MAPDB_WRITE};
    mapdb_fpage window = {0x40000, 12, 0};
    mapdb_issued issued;
    mapdb_found found;
    uint32_t status = mapdb_create(&copy, 0);

    if (status == MAPDB_DONE)
        status = mapdb_map(&copy, root, 0, &page, task, &window, &issued);
    if (status == MAPDB_DONE)
        status = mapdb_served(&copy, task, 0x40000 >> MAPDB_PAGE_ORDER, &found);
    if (status == MAPDB_DONE)
        printf("frame %#llx, rights %u\n", (unsigned long long)found.frame, (unsigned)found.rights);
    else
        printf("%s\n", mapdb_status_name(status));
    mapdb_destroy(&copy);
    return status == MAPDB_DONE ? 0 : 1;
}
