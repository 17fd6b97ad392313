// A font's image in a file: a folder with two glyphs, one drawn and edited in the middle; listed, checked, its inventory printed, and mended after a host went
// down. A title bar says which folder a window shows. glyphs IMAGE.
#include <stdio.h>
#include <stdlib.h>
#include <string.h>
#include "dzomrelig.h"

static uint8_t arena[64 * DZ_BLOCK], table[DZ_TABLE];

// Who asks: one of the four who share the image.
enum { ANNA = 1, BEN = 2 };

// A call that is refused ends the program, with the reason's name.
static void must(const char *what, uint32_t reason)
{
    if (reason == DZ_DONE) return;
    fprintf(stderr, "%s: %s\n", what, dz_reason_name(reason));
    exit(1);
}

// Each node has a file of its own, under a name that no other node has.
static const uint8_t *new_file(void)
{
    static uint8_t name[DZ_FILE_NAME];
    name[0]++;
    return name;
}

static dz_handle_t create(dz_handle_t folder, const char *name, uint32_t type)
{
    dz_handle_t made = {0, 0};
    must(name, dz_create(arena, sizeof arena, table, DZ_TABLE, ANNA, (uint32_t)folder.hold, folder.stamp, (const uint8_t *)name, strlen(name),
                         type, 0644, 1700000000, 0, new_file(), DZ_FILE_NAME, dz_handle_words(&made), DZ_HANDLE_WORDS));
    return made;
}

static void close_node(dz_handle_t node)
{
    must("close", dz_close(arena, sizeof arena, table, DZ_TABLE, ANNA, (uint32_t)node.hold, node.stamp));
}

// What a window that shows a folder has in its title bar.
static void title_bar(dz_handle_t folder)
{
    uint8_t path[256];
    uint64_t length = 0;
    must("path", dz_path(arena, sizeof arena, table, DZ_TABLE, ANNA, (uint32_t)folder.hold, folder.stamp, path, sizeof path, &length, DZ_LENGTH_WORDS));
    printf("title bar: %.*s\n", (int)length, (const char *)path);
}

int main(int n, char **words)
{
    dz_handle_t root = {0, 0};
    must("format", dz_format(arena, sizeof arena, table, DZ_TABLE, 1700000000, 0, new_file(), DZ_FILE_NAME));
    must("root", dz_root(arena, sizeof arena, table, DZ_TABLE, ANNA, dz_handle_words(&root), DZ_HANDLE_WORDS));

    dz_handle_t folder = create(root, "glyphs", DZ_FOLDER);
    dz_handle_t a = create(folder, "A", DZ_FILE);
    close_node(create(folder, "Ж", DZ_FILE));
    title_bar(root);
    title_bar(folder);

    // an outline is saved, and read back
    const char outline[] = "M0 0 L5 9 L9 0";
    uint8_t bytes[64];
    uint64_t count = 0;
    must("write", dz_write(arena, sizeof arena, table, DZ_TABLE, ANNA, (uint32_t)a.hold, a.stamp, 0, (const uint8_t *)outline, strlen(outline)));
    must("read", dz_read(arena, sizeof arena, table, DZ_TABLE, ANNA, (uint32_t)a.hold, a.stamp, 0, bytes, sizeof bytes, &count, DZ_LENGTH_WORDS));
    printf("A: %.*s\n", (int)count, (const char *)bytes);

    // room for another in front of it, 128 bytes, which read as zeros; then the first is all there is again
    must("insert", dz_fallocate(arena, sizeof arena, table, DZ_TABLE, ANNA, (uint32_t)a.hold, a.stamp, DZ_INSERT_RANGE, 0, 0, DZ_RANGE_UNIT));
    must("read", dz_read(arena, sizeof arena, table, DZ_TABLE, ANNA, (uint32_t)a.hold, a.stamp, DZ_RANGE_UNIT - 2, bytes, sizeof bytes, &count, DZ_LENGTH_WORDS));
    printf("A, 128 bytes further on: %d %d %.*s\n", bytes[0], bytes[1], (int)count - 2, (const char *)bytes + 2);
    must("collapse", dz_fallocate(arena, sizeof arena, table, DZ_TABLE, ANNA, (uint32_t)a.hold, a.stamp, DZ_COLLAPSE_RANGE, 0, 0, DZ_RANGE_UNIT));
    must("read", dz_read(arena, sizeof arena, table, DZ_TABLE, ANNA, (uint32_t)a.hold, a.stamp, 0, bytes, sizeof bytes, &count, DZ_LENGTH_WORDS));
    printf("A again: %.*s\n", (int)count, (const char *)bytes);
    close_node(a);

    uint8_t slots[8 * DZ_SLOT];
    uint64_t next = 2; // no dots are asked for, so the first slot is 2
    must("list", dz_list(arena, sizeof arena, table, DZ_TABLE, ANNA, (uint32_t)folder.hold, folder.stamp, &next, DZ_NEXT_WORDS, 0, slots, sizeof slots));
    for (uint64_t i = 0; i < next - 2; i++)
        printf("%u %s\n", (unsigned)dz_slot_id(slots + i * DZ_SLOT), dz_slot_name(slots + i * DZ_SLOT));

    // a name that is taken: the call says so, and nothing has changed
    dz_handle_t none = {0, 0};
    uint32_t reason = dz_create(arena, sizeof arena, table, DZ_TABLE, ANNA, (uint32_t)folder.hold, folder.stamp, (const uint8_t *)"A", 1, DZ_FILE, 0644,
                                1700000000, 0, new_file(), DZ_FILE_NAME, dz_handle_words(&none), DZ_HANDLE_WORDS);
    printf("a second A: %s\n", dz_reason_name(reason));

    // her handle is of no use to him; he has eight of his own
    printf("Ben with Anna's root: %s\n", dz_reason_name(dz_close(arena, sizeof arena, table, DZ_TABLE, BEN, (uint32_t)root.hold, root.stamp)));

    close_node(folder);
    close_node(root);
    dz_counts_t counts = {0, 0, 0};
    uint32_t rule = dz_check(arena, sizeof arena, table, DZ_TABLE, dz_counts_words(&counts), DZ_COUNTS_WORDS);
    if (rule) return fprintf(stderr, "check: rule %u fails\n", (unsigned)rule), 1;
    printf("checked: %u nodes, %u blocks free\n", (unsigned)counts.nodes, (unsigned)counts.free);

    // with no node open and nothing left to store: what the foundry gets beside the image
    uint8_t text[256];
    uint64_t length = 0;
    must("inventory", dz_inventory(arena, sizeof arena, text, sizeof text, &length, DZ_LENGTH_WORDS));
    printf("%.*s", (int)length, (const char *)text);

    // a host goes down while a glyph is open that was removed. The next one has the arena alone: it opens and mends it
    must("root", dz_root(arena, sizeof arena, table, DZ_TABLE, ANNA, dz_handle_words(&root), DZ_HANDLE_WORDS));
    create(root, "draft", DZ_FILE);
    must("remove", dz_remove_file(arena, sizeof arena, table, DZ_TABLE, ANNA, (uint32_t)root.hold, root.stamp, (const uint8_t *)"draft", 5));
    printf("with open handles: %s\n", dz_reason_name(dz_mend(arena, sizeof arena, table, DZ_TABLE)));
    must("open", dz_open(arena, sizeof arena, table, DZ_TABLE));
    printf("after it: rule %u fails\n", (unsigned)dz_check(arena, sizeof arena, table, DZ_TABLE, dz_counts_words(&counts), DZ_COUNTS_WORDS));
    must("mend", dz_mend(arena, sizeof arena, table, DZ_TABLE));
    rule = dz_check(arena, sizeof arena, table, DZ_TABLE, dz_counts_words(&counts), DZ_COUNTS_WORDS);
    if (rule) return fprintf(stderr, "check: rule %u fails\n", (unsigned)rule), 1;
    printf("mended: %u nodes, %u blocks free\n", (unsigned)counts.nodes, (unsigned)counts.free);

    FILE *file = n > 1 ? fopen(words[1], "wb") : NULL;
    if (!file || fwrite(arena, 1, sizeof arena, file) != sizeof arena || fclose(file)) return perror("glyphs IMAGE"), 1;
    return 0;
}
