// A call script (docs/REPLAY.md) timed on the port, each call by itself: calls FILE ROUNDS [own]. Prints each kind of call with its number and the
// nanoseconds of one, the least of so many rounds; then the check and the inventory of the image that is left, and the soundness test alone. With `own`
// the calls for owners are made; the chains are built after the format, and are not timed.
// calls contents BLOCKS FILES ROUNDS: the same of reads and writes on an image of so many blocks and files, and of plain copies (plain.c).
// calls ranges BLOCKS FILES ROUNDS: 128 bytes put in at the start of a file of 100,000 bytes, and taken out again, on such an image and by plain.c.
// calls deep DEPTH ROUNDS: a folder moved to the end of a way of so many folders, and back.
// calls paths DEPTH FILES ROUNDS: the path of the folder at the end of such a way, in an image of so many files, and the walk by it.
// calls mend BLOCKS FILES ROUNDS: the check of an image of so many blocks and files, and the mender on what hosts leave of it.
#include <stdbool.h>
#include <stdint.h>
#include <stdio.h>
#include <stdlib.h>
#include <string.h>
#include <time.h>

#include "../../include/dzomrelig.h"

// the static library of `bench`: a slice is its pointer and its length
typedef const uint8_t *in;
bool bench_sound(in arena, size_t len);

// plain.c
void plain_read(in blocks, size_t place, uint8_t *out, size_t len);
void plain_write(uint8_t *blocks, size_t place, in data, size_t len);
void plain_seal(uint8_t *block);
void plain_move(uint8_t *blocks, size_t from, size_t to, size_t len);

// a kind is its command's byte less 16
enum { ALL = 22 };
static const char *const KINDS[ALL] = {"format", "open", "root", "find", "create", "link", 0, "move", "metadata", "set", "entry", "list", "sync", "close", "check", 0, "read", "write", "resize", "walk", "remove-file", "remove-folder"};
static uint8_t arena[DZ_BLOCK * DZ_BLOCKS_MOST], table[DZ_TABLE], out[8192], text[1 << 20], *script, *at;
static uint64_t words[DZ_METADATA_WORDS];
static uint16_t chains[DZ_CHAINS];
static size_t len;
static bool own;

enum { ME = 1 }; // who asks, where no script says it

#define ARENA arena, len
#define CHAINS chains, DZ_CHAINS
#define TABLE table, DZ_TABLE
// a call with its table and the rest of its arguments, on either way
#define CALL(name, ...) (own ? dz_own_##name(ARENA, CHAINS, TABLE, __VA_ARGS__) : dz_##name(ARENA, TABLE, __VA_ARGS__))

static double best[ALL];

static double now(void)
{
    struct timespec t;
    clock_gettime(CLOCK_MONOTONIC, &t);
    return 1e9 * (double)t.tv_sec + (double)t.tv_nsec;
}

static uint64_t number(int n)
{
    uint64_t v = 0;
    for (int i = 0; i < n; i++) v |= (uint64_t)at[i] << (8 * i);
    at += n;
    return v;
}

static in bytes(size_t n)
{
    in p = at;
    at += n;
    return p;
}

static void time_of(int64_t *t)
{
    t[0] = (int64_t)number(8);
    t[1] = (int64_t)number(8);
}

static uint32_t call(int kind)
{
    uint8_t who = 0;
    uint32_t hold = 0, to;
    uint64_t stamp = 0, tos, k;
    int64_t t[6];
    size_t l = 0, o;
    in name = 0, new;
    if (kind > 1 && kind != 12) who = (uint8_t)number(1);
    if (kind > 2 && kind != 12) hold = (uint32_t)number(4), stamp = number(8);
    if ((kind >= 3 && kind <= 7) || kind >= 19) l = number(2), name = bytes(l);
    switch (kind) {
    case 0: time_of(t); return dz_format(ARENA, TABLE, t[0], t[1], bytes(16), 16);
    case 1: return dz_open(ARENA, TABLE);
    case 2: return CALL(root, who, words, DZ_HANDLE_WORDS);
    case 3: return CALL(find, who, hold, stamp, name, l, words, DZ_HANDLE_WORDS);
    case 4: to = (uint32_t)number(4), k = number(2), time_of(t), new = bytes(16); return CALL(create, who, hold, stamp, name, l, to, (uint16_t)k, t[0], t[1], new, 16, words, DZ_HANDLE_WORDS);
    case 5: to = (uint32_t)number(4), tos = number(8); return CALL(link, who, hold, stamp, name, l, to, tos);
    case 7: to = (uint32_t)number(4), tos = number(8), o = number(2), new = bytes(o); return CALL(move, who, hold, stamp, name, l, to, tos, new, o);
    case 8: return CALL(metadata, who, hold, stamp, words, DZ_METADATA_WORDS);
    case 9: k = number(2), tos = number(8), o = number(8), time_of(t), time_of(t + 2), time_of(t + 4); return CALL(set_metadata, who, hold, stamp, (uint16_t)k, tos, o, t[0], t[1], t[2], t[3], t[4], t[5]);
    case 10: k = number(8), o = number(2); return CALL(get_entry, who, hold, stamp, k, out, o);
    case 11: words[0] = number(8), k = number(1), o = number(2); return CALL(list, who, hold, stamp, words, DZ_NEXT_WORDS, (uint8_t)k, out, o);
    case 12: return own ? dz_own_sync(ARENA, CHAINS, TABLE) : dz_sync(ARENA, TABLE);
    case 13: return CALL(close, who, hold, stamp);
    case 16: k = number(8), o = number(2); return CALL(read, who, hold, stamp, k, out, o, words, DZ_LENGTH_WORDS);
    case 17: k = number(8), o = number(2), new = bytes(o); return CALL(write, who, hold, stamp, k, new, o);
    case 18: k = number(8); return CALL(resize, who, hold, stamp, k);
    case 19: o = number(2); return CALL(walk, who, hold, stamp, name, l, out, o, words, DZ_HANDLE_WORDS);
    case 20: return CALL(remove_file, who, hold, stamp, name, l);
    case 21: return CALL(remove_folder, who, hold, stamp, name, l);
    default: fprintf(stderr, "calls: byte %d is not timed\n", kind + 16); exit(2);
    }
}

static void play(size_t size, uint64_t *count)
{
    double spent[ALL] = {0};
    memset(count, 0, ALL * sizeof *count);
    for (at = script; at < script + size;) {
        int byte = *at++;
        if (byte == 2) {
            len = number(4);
            memset(arena, 0, len);
            continue;
        }
        int kind = byte - 16;
        double from = now();
        uint32_t r = call(kind);
        spent[kind] += now() - from;
        count[kind]++;
        if (r) fprintf(stderr, "calls: %s answered %u\n", KINDS[kind], r), exit(1);
        if (own && kind == 0 && dz_own_chains(ARENA, CHAINS)) exit(1);
    }
    for (int k = 0; k < ALL; k++)
        if (count[k] && (best[k] == 0 || spent[k] / (double)count[k] < best[k])) best[k] = spent[k] / (double)count[k];
}

// ---- contents

enum { LONGEST = 100000, PLACE = 100, TIMES = 20 };
static uint8_t data[LONGEST], copy[LONGEST], blocks[DZ_BLOCK * (LONGEST / 480 + 2)];
static uint32_t hold;
static uint64_t stamp;

static void must(uint32_t reason)
{
    if (reason) fprintf(stderr, "calls: answered %s\n", dz_reason_name(reason)), exit(1);
}

static void create(const char *name)
{
    static uint64_t files;
    uint8_t file[DZ_FILE_NAME] = {1};
    files++;
    memcpy(file + 8, &files, 8);
    must(dz_create(arena, len, table, DZ_TABLE, ME, 0, 1, (in)name, strlen(name), DZ_FILE, 420, 0, 0, file, DZ_FILE_NAME, words, DZ_HANDLE_WORDS));
    hold = (uint32_t)words[0], stamp = words[1];
}

static void resize(uint64_t size) { must(dz_resize(arena, len, table, DZ_TABLE, ME, hold, stamp, size)); }

enum { READ, WRITE, NEW, PLAIN_READ, PLAIN_WRITE, ACTS };
static const char *const ACT_NAMES[ACTS] = {"read", "write", "new", "plain-read", "plain-write"};

static void act(int what, size_t size)
{
    switch (what) {
    case READ: must(dz_read(arena, len, table, DZ_TABLE, ME, hold, stamp, PLACE, copy, size, words, DZ_LENGTH_WORDS)); break;
    case WRITE:
    case NEW: must(dz_write(arena, len, table, DZ_TABLE, ME, hold, stamp, PLACE, data, size)); break;
    case PLAIN_READ: plain_read(blocks, PLACE, copy, size); break;
    case PLAIN_WRITE: plain_write(blocks, PLACE, data, size); break;
    }
}

// a new write goes into an empty file, each other into one that has its blocks
static double acted(int what, size_t size)
{
    double spent = 0;
    for (int i = 0; i < TIMES; i++) {
        if (what == NEW) resize(0);
        double from = now();
        act(what, size);
        spent += now() - from;
    }
    return spent / TIMES;
}

static const char *glyph(int i)
{
    static char name[32];
    snprintf(name, sizeof name, "glyph%d", i);
    return name;
}

// an image of so many closed files; the root is open
static void filled(size_t n, int files)
{
    len = DZ_BLOCK * n;
    must(dz_format(ARENA, TABLE, 0, 0, (in)"file of the root", DZ_FILE_NAME));
    must(dz_root(ARENA, TABLE, ME, words, DZ_HANDLE_WORDS));
    for (int i = 0; i < files; i++) {
        create(glyph(i));
        must(dz_close(ARENA, TABLE, ME, hold, stamp));
    }
}

static void contents(size_t n, int files, int rounds)
{
    static const size_t sizes[3] = {480, 8192, LONGEST};
    for (size_t i = 0; i < LONGEST; i++) data[i] = (uint8_t)(i * 7 + 1);
    filled(n, files);
    create("outline");
    for (int what = 0; what < ACTS; what++)
        for (int s = 0; s < 3; s++) {
            double least = 1e18;
            if (what < NEW) act(WRITE, LONGEST);
            for (int r = 0; r < rounds; r++) {
                double t = acted(what, sizes[s]);
                if (t < least) least = t;
            }
            if (what == READ && memcmp(copy, data, sizes[s])) fprintf(stderr, "calls: other bytes\n"), exit(1);
            printf("%s%zu %d %.0f\n", ACT_NAMES[what], sizes[s], TIMES, least);
        }
    double sound = 1e18;
    for (int r = 0; r < rounds * TIMES; r++) {
        double from = now();
        if (!bench_sound(arena, len)) exit(1);
        double spent = now() - from;
        if (spent < sound) sound = spent;
    }
    printf("sound 1 %.0f\n", sound);
}

// ---- ranges

enum { LINE = 128 };

static void put_in(void) { must(CALL(fallocate, ME, hold, stamp, DZ_INSERT_RANGE, 0, 0, LINE)); }

static void take_out(void) { must(CALL(fallocate, ME, hold, stamp, DZ_COLLAPSE_RANGE, 0, 0, LINE)); }

static void plain_in(void)
{
    static const uint8_t zeros[LINE];
    plain_move(blocks, 0, LINE, LONGEST);
    plain_write(blocks, 0, zeros, LINE);
}

static void plain_out(void) { plain_move(blocks, LINE, 0, LONGEST); }

// one after the other, so that each has the file as the other leaves it
static void both(const char *name, void (*in_)(void), void (*out_)(void), int rounds)
{
    double in_least = 1e18, out_least = 1e18;
    for (int r = 0; r < rounds * TIMES; r++) {
        double from = now();
        in_();
        double then = now();
        out_();
        double end = now();
        if (then - from < in_least) in_least = then - from;
        if (end - then < out_least) out_least = end - then;
    }
    printf("%s-insert 1 %.0f\n%s-collapse 1 %.0f\n", name, in_least, name, out_least);
}

static void ranges(size_t n, int files, int rounds)
{
    for (size_t i = 0; i < LONGEST; i++) data[i] = (uint8_t)(i * 7 + 1);
    filled(n, files);
    create("outline");
    must(dz_write(ARENA, TABLE, ME, hold, stamp, 0, data, LONGEST));
    both("tested", put_in, take_out, rounds);
    must(dz_own_chains(ARENA, CHAINS));
    own = true;
    both("trusted", put_in, take_out, rounds);
    must(dz_read(ARENA, TABLE, ME, hold, stamp, 0, copy, LONGEST, words, DZ_LENGTH_WORDS));
    if (memcmp(copy, data, LONGEST)) fprintf(stderr, "calls: other bytes\n"), exit(1);
    plain_write(blocks, 0, data, LONGEST);
    both("plain", plain_in, plain_out, rounds);
    plain_read(blocks, 0, copy, LONGEST);
    if (memcmp(copy, data, LONGEST)) fprintf(stderr, "calls: other bytes in C\n"), exit(1);
}

// ---- a folder that goes to the end of a way of so many folders, and back to the root: the climb looks at each of them, or at none

static void folder(const char *name, uint32_t in_hold, uint64_t in_stamp)
{
    static uint64_t files;
    uint8_t file[DZ_FILE_NAME] = {2};
    files++;
    memcpy(file + 8, &files, 8);
    must(dz_own_create(ARENA, CHAINS, TABLE, ME, in_hold, in_stamp, (in)name, strlen(name), DZ_FOLDER, 493, 0, 0, file, DZ_FILE_NAME, words, DZ_HANDLE_WORDS));
    hold = (uint32_t)words[0], stamp = words[1];
}

// a way of so many folders from the root on; the last one is open
static void way_down(int depth)
{
    uint32_t at = 0;
    uint64_t at_stamp = 1;
    for (int i = 0; i < depth; i++) {
        folder("d", at, at_stamp);
        if (i) must(dz_own_close(ARENA, CHAINS, TABLE, ME, at, at_stamp));
        at = hold, at_stamp = stamp;
    }
}

static void moved(uint32_t from_hold, uint64_t from_stamp, uint32_t to_hold, uint64_t to_stamp)
{
    must(CALL(move, ME, from_hold, from_stamp, (in)"x", 1, to_hold, to_stamp, (in)"x", 1));
}

static void deep(int depth, int rounds)
{
    len = DZ_BLOCK * DZ_BLOCKS_MOST;
    must(dz_format(ARENA, TABLE, 0, 0, (in)"file of the root", DZ_FILE_NAME));
    must(dz_own_chains(ARENA, CHAINS));
    must(dz_own_root(ARENA, CHAINS, TABLE, ME, words, DZ_HANDLE_WORDS));
    uint32_t root = (uint32_t)words[0];
    uint64_t root_stamp = words[1];
    folder("x", root, root_stamp);
    way_down(depth);
    uint32_t at = hold;
    uint64_t at_stamp = stamp;
    for (int way = 0; way < 2; way++) {
        double down = 1e18, up = 1e18;
        own = way;
        for (int r = 0; r < rounds * TIMES; r++) {
            double from = now();
            moved(root, root_stamp, at, at_stamp);
            double then = now();
            moved(at, at_stamp, root, root_stamp);
            double end = now();
            if (then - from < down) down = then - from;
            if (end - then < up) up = end - then;
        }
        if (!own) must(dz_own_chains(ARENA, CHAINS));
        printf("%s-down 1 %.0f\n%s-up 1 %.0f\n", own ? "owner" : "tested", down, own ? "owner" : "tested", up);
    }
}

// ---- the path of a folder at the end of such a way, and the walk by it

static void paths(int depth, int files, int rounds)
{
    filled(DZ_BLOCKS_MOST, files);
    must(dz_own_chains(ARENA, CHAINS));
    way_down(depth);
    for (int way = 0; way < 2; way++) {
        double path = 1e18, walk = 1e18;
        uint64_t length = 0;
        own = way;
        for (int r = 0; r < rounds * TIMES; r++) {
            double from = now();
            must(CALL(path, ME, hold, stamp, text, sizeof text, &length, DZ_LENGTH_WORDS));
            double then = now();
            must(CALL(walk, ME, hold, stamp, text, length, out, 0, words, DZ_HANDLE_WORDS));
            double end = now();
            must(CALL(close, ME, (uint32_t)words[0], words[1]));
            if (then - from < path) path = then - from;
            if (end - then < walk) walk = end - then;
        }
        if (length != 2 * (uint64_t)depth) fprintf(stderr, "calls: another path\n"), exit(1);
        printf("%s-path 1 %.0f\n%s-walk 1 %.0f\n", own ? "owner" : "tested", path, own ? "owner" : "tested", walk);
    }
}

// ---- the mender, and what hosts leave

// four editors have eight handles each, on the root and on glyphs of other lengths than stored; these are removed
static void death(void)
{
    for (uint8_t who = 1, i = 0; who <= DZ_OWNERS; who++) {
        must(dz_root(ARENA, TABLE, who, words, DZ_HANDLE_WORDS));
        uint32_t root = (uint32_t)words[0];
        uint64_t root_stamp = words[1];
        for (int k = 1; k < DZ_OWN_HOLDS; k++, i++) {
            in name = (in)glyph(i);
            size_t l = strlen(glyph(i));
            must(dz_find(ARENA, TABLE, who, root, root_stamp, name, l, words, DZ_HANDLE_WORDS));
            must(dz_resize(ARENA, TABLE, who, (uint32_t)words[0], words[1], 1000));
            must(dz_remove_file(ARENA, TABLE, who, root, root_stamp, name, l));
        }
    }
}

static bool is_of(in b, int tag, in file) { return b[0] == tag && b[1] == (file ? 1 : 0) && (!file || !memcmp(b + 4, file, DZ_FILE_NAME)); }

static uint32_t numbered(in b) { return b[20] | (uint32_t)b[21] << 8 | (uint32_t)b[22] << 16 | (uint32_t)b[23] << 24; }

// bytes of the metadata file that stand in one block
static void put_meta(size_t place, in bytes, size_t n)
{
    for (uint8_t *b = arena; b < arena + len; b += DZ_BLOCK)
        if (is_of(b, 2, 0) && numbered(b) == place / 480) plain_write(b, place % 480, bytes, n);
}

// each file is one byte longer by its record than it is
static void sizes(int files)
{
    for (int id = 3; id < 3 + files; id++) put_meta(128 * (size_t)(id + (id > 1024) + (id > 2047) + (id > 3070)), (in)"\1", 1);
}

// the root has no name any more: its file ends behind slot 1
static void lost(void)
{
    in file = (in)"file of the root";
    for (uint8_t *b = arena; b < arena + len; b += DZ_BLOCK)
        if (is_of(b, 1, file))
            memcpy(b + 20, "\20\2\0", 4), plain_seal(b);
        else if (is_of(b, 2, file) && numbered(b) > 1)
            memset(b, 0, DZ_BLOCK);
        else if (is_of(b, 2, file) && numbered(b) == 1)
            memset(b + 24 + 48, 0, 480 - 48), plain_seal(b);
    put_meta(128 * 2 + 16, (in)"\2\0\0", 4);
}

static void mend(size_t n, int files, int rounds)
{
    static const char *const NAMES[] = {"idle", "death", "sizes", "lost"};
    static uint8_t image[sizeof arena], left[sizeof arena];
    filled(n, files);
    must(dz_open(ARENA, TABLE));
    memcpy(image, arena, len);
    double check = 1e18;
    for (int r = 0; r < rounds; r++) {
        double from = now();
        must(dz_check(ARENA, TABLE, words, DZ_COUNTS_WORDS));
        double spent = now() - from;
        if (spent < check) check = spent;
    }
    printf("check 1 %.0f\n", check);
    for (int what = 0; what < 4; what++) {
        double least = 1e18;
        memcpy(arena, image, len);
        if (what == 1) death();
        if (what == 2) sizes(files);
        if (what == 3) lost();
        must(dz_open(ARENA, TABLE));
        memcpy(left, arena, len);
        if (!what != !dz_check(ARENA, TABLE, words, DZ_COUNTS_WORDS)) fprintf(stderr, "calls: no host leaves that\n"), exit(1);
        for (int r = 0; r < rounds; r++) {
            memcpy(arena, left, len);
            double from = now();
            must(dz_mend(ARENA, TABLE));
            double spent = now() - from;
            if (spent < least) least = spent;
            if (dz_check(ARENA, TABLE, words, DZ_COUNTS_WORDS)) fprintf(stderr, "calls: not mended\n"), exit(1);
        }
        printf("%s 1 %.0f\n", NAMES[what], least);
    }
}

int main(int n, char **args)
{
    if (n == 5 && !strcmp(args[1], "mend")) {
        mend((size_t)atoi(args[2]), atoi(args[3]), atoi(args[4]));
        return 0;
    }
    if (n == 4 && !strcmp(args[1], "deep")) {
        deep(atoi(args[2]), atoi(args[3]));
        return 0;
    }
    if (n == 5 && !strcmp(args[1], "paths")) {
        paths(atoi(args[2]), atoi(args[3]), atoi(args[4]));
        return 0;
    }
    if (n == 5 && !strcmp(args[1], "ranges")) {
        ranges((size_t)atoi(args[2]), atoi(args[3]), atoi(args[4]));
        return 0;
    }
    if (n == 5 && !strcmp(args[1], "contents")) {
        contents((size_t)atoi(args[2]), atoi(args[3]), atoi(args[4]));
        return 0;
    }
    FILE *file = n > 2 ? fopen(args[1], "rb") : 0;
    uint64_t count[ALL];
    if (!file) return 2;
    own = n > 3;
    script = malloc(1 << 22);
    size_t size = fread(script, 1, 1 << 22, file);
    double sound = 1e18, check = 1e18, inventory = 1e18;
    for (int r = 0; r < atoi(args[2]); r++) {
        play(size, count);
        double from = now();
        if (!bench_sound(arena, len)) return 1;
        double then = now();
        if (dz_check(arena, len, table, DZ_TABLE, words, DZ_COUNTS_WORDS)) return 1;
        double checked = now();
        must(dz_inventory(arena, len, text, sizeof text, words, DZ_LENGTH_WORDS));
        double end = now();
        if (then - from < sound) sound = then - from;
        if (checked - then < check) check = checked - then;
        if (end - checked < inventory) inventory = end - checked;
    }
    for (int k = 0; k < ALL; k++)
        if (count[k]) printf("%s %lu %.0f\n", KINDS[k], (unsigned long)count[k], best[k]);
    printf("check 1 %.0f\ninventory 1 %.0f\nsound 1 %.0f\n", check, inventory, sound);
    return 0;
}
