/* Dzomrelig at the C edge: the twenty-four calls of documents 01 and 02, proved (crates/edge, crates/edge_contents), and those for owners (crates/owners, crates/owners_contents). Plain C11, usable from C++.
 *
 * How the calls take and give things:
 * - Arena, table, names and output are a pointer and a length. No pointer is null, and a slice that a call may change overlaps no other.
 * - The arena is 16 to 4,096 blocks of DZ_BLOCK bytes. The table of open nodes is DZ_TABLE bytes, which the caller keeps beside the arena
 *   and hands to every call; format and open fill it. Any bytes are safe in both: a call says what is wrong with them.
 * - A handle goes in as its two numbers and comes out as two words (dz_handle_t). Other results come out as words too: dz_metadata_t, dz_counts_t.
 * - Every call that takes or makes a handle says who asks: `owner`, 1 to DZ_OWNERS. A hold belongs to who made it, and works for no other; each owner
 *   has up to DZ_OWN_HOLDS of them, whatever the others have. Holds of several owners share a node.
 * - A call returns 0, or a reason. With a reason it has changed nothing: no byte of arena, table or output, no word. (One exception: dz_walk leaves the
 *   targets that it has read in the link buffer.)
 * - DZ_WRONG_SIZE: the table is not DZ_TABLE bytes, a file's name not DZ_FILE_NAME, or the words not as many as the result has. Nothing was called.
 * - Nothing is kept between calls, and nothing is allocated. Calls on different images may run at the same time.
 *
 * Where more than one reason holds, the first in the order that stands at the call is given. DZ_NO_DEVICE_SPACE and DZ_STUCK, where they
 * stand last, come at the step that can't be done: a lookup or an opening that sticks says so before the reasons that it decides. */
#ifndef DZOMRELIG_H
#define DZOMRELIG_H

#include <stddef.h>
#include <stdint.h>

#ifdef __cplusplus
extern "C" {
#endif

/* ---- sizes */

#define DZ_BLOCK 512          /* a block of the arena */
#define DZ_BLOCKS_LEAST 16
#define DZ_BLOCKS_MOST 4096
#define DZ_TABLE 4402         /* the table's bytes */
#define DZ_OWNERS 4           /* who asks is 1 to 4 */
#define DZ_OWN_HOLDS 8        /* live holds of one owner */
#define DZ_SLOT 264           /* a slot of a folder, as get entry and listing write it */
#define DZ_FILE_NAME 16       /* the name of a node's own file, new for every node */
#define DZ_NAME_LONGEST 255   /* a name in a folder: UTF-8, with no zero byte; a new one with no slash */
#define DZ_LINKS_MOST 8       /* symlinks that one walk follows */
#define DZ_FILE_LONGEST 4294967295 /* the contents of a file, symlink or socket */
#define DZ_PATH_LONGEST 1048576 /* a folder's path: 4,096 names with a slash before each */

/* ---- types */

#define DZ_FILE 1
#define DZ_FOLDER 2
#define DZ_SYMLINK 3
#define DZ_SOCKET 4           /* stored ones are there and every call takes them; none is made any more */

/* ---- modes of dz_fallocate, and the one flag */

#define DZ_ALLOCATE 0
#define DZ_PUNCH_HOLE 1       /* keeps the size */
#define DZ_ZERO_RANGE 2
#define DZ_ZERO_RANGE_KEEP_SIZE 3
#define DZ_COLLAPSE_RANGE 4
#define DZ_INSERT_RANGE 5
#define DZ_KEEP_SIZE 1        /* of DZ_ALLOCATE: the size stays, so nothing is done */
#define DZ_RANGE_UNIT 128     /* start and length of a range to collapse or insert are multiples of it */

/* ---- reasons */

#define DZ_DONE 0
#define DZ_BAD_ARENA 1        /* its length is not 16 to 4,096 whole blocks */
#define DZ_DAMAGED 2          /* the arena is not sound */
#define DZ_BAD_TABLE 3        /* the table is not well formed */
#define DZ_BAD_HANDLE 4       /* not a live hold with that stamp, or another owner's */
#define DZ_BAD_NAME 5         /* a zero byte inside, or not UTF-8; in create, link and move's new name also a slash; a path or target: also an empty part */
#define DZ_INVALID_PARAM 6    /* an owner that is not 1 to 4, a new node that is no file, folder or symlink, a folder into itself or below; dz_fallocate: no mode, or no range of it */
#define DZ_NOT_DIR 7
#define DZ_DIR_REMOVED 8      /* the folder has no links left */
#define DZ_IS_DIR 9
#define DZ_NAME_TOO_LONG 10   /* over 255 bytes */
#define DZ_ENTRY_NOT_FOUND 11
#define DZ_ENTRY_EXIST 12
#define DZ_DIR_NOT_EMPTY 13
#define DZ_FILE_TAKEN 14      /* a node's file has that name already */
#define DZ_TOO_MANY_LINKS 15  /* a link count of 65,535 would rise */
#define DZ_TABLE_FULL 16      /* 8 live holds of this owner, or no stamp is left */
#define DZ_NO_DEVICE_SPACE 17 /* no free id, or no free block */
#define DZ_WRONG_FS 18        /* no image of this file system; in dz_inventory: the checker fails the stored image; in dz_mend: it can't be mended */
#define DZ_STUCK 19           /* the Rust would fail an assertion here; in dz_path: no way leads up to root */
#define DZ_OUT_FULL 20        /* a slot remains, and the output has no room for one; a target does not fit the link buffer, or the inventory or a path the output */
#define DZ_NOT_FILE 21        /* a folder, where contents are asked for; in dz_fallocate: no file */
#define DZ_FILE_TOO_BIG 22    /* a write, a resize or a range would end past DZ_FILE_LONGEST, or a file grow past it */
#define DZ_SYM_LOOP 23        /* a walk meets its ninth symlink */
#define DZ_IN_USE 24          /* to mend, no hold may be live */
#define DZ_WRONG_SIZE 255     /* a slice of a fixed size has another */

static inline const char *dz_reason_name(uint32_t reason)
{
    switch (reason) {
    case DZ_DONE: return "Done";
    case DZ_BAD_ARENA: return "BadArena";
    case DZ_DAMAGED: return "Damaged";
    case DZ_BAD_TABLE: return "BadTable";
    case DZ_BAD_HANDLE: return "BadHandle";
    case DZ_BAD_NAME: return "BadName";
    case DZ_INVALID_PARAM: return "InvalidParam";
    case DZ_NOT_DIR: return "NotDir";
    case DZ_DIR_REMOVED: return "DirRemoved";
    case DZ_IS_DIR: return "IsDir";
    case DZ_NAME_TOO_LONG: return "NameTooLong";
    case DZ_ENTRY_NOT_FOUND: return "EntryNotFound";
    case DZ_ENTRY_EXIST: return "EntryExist";
    case DZ_DIR_NOT_EMPTY: return "DirNotEmpty";
    case DZ_FILE_TAKEN: return "FileTaken";
    case DZ_TOO_MANY_LINKS: return "TooManyLinks";
    case DZ_TABLE_FULL: return "TableFull";
    case DZ_NO_DEVICE_SPACE: return "NoDeviceSpace";
    case DZ_WRONG_FS: return "WrongFs";
    case DZ_STUCK: return "Stuck";
    case DZ_OUT_FULL: return "OutFull";
    case DZ_NOT_FILE: return "NotFile";
    case DZ_FILE_TOO_BIG: return "FileTooBig";
    case DZ_SYM_LOOP: return "SymLoop";
    case DZ_IN_USE: return "InUse";
    case DZ_WRONG_SIZE: return "WrongSize";
    default: return "unknown";
    }
}

/* ---- results, whose fields are the words in order */

typedef struct dz_handle_t {
    uint64_t hold; /* below 2^32 */
    uint64_t stamp;
} dz_handle_t;

typedef struct dz_metadata_t {
    uint64_t inode, size, mode, type, blocks;
    int64_t atime_sec, atime_nsec, mtime_sec, mtime_nsec, ctime_sec, ctime_nsec;
    uint64_t links, uid, gid;
} dz_metadata_t;

typedef struct dz_counts_t {
    uint64_t nodes, unused, free;
} dz_counts_t;

#define DZ_HANDLE_WORDS 2
#define DZ_METADATA_WORDS 14
#define DZ_COUNTS_WORDS 3
#define DZ_NEXT_WORDS 1
#define DZ_LENGTH_WORDS 1

static inline uint64_t *dz_handle_words(dz_handle_t *handle) { return (uint64_t *)(void *)handle; }
static inline uint64_t *dz_metadata_words(dz_metadata_t *metadata) { return (uint64_t *)(void *)metadata; }
static inline uint64_t *dz_counts_words(dz_counts_t *counts) { return (uint64_t *)(void *)counts; }

/* A slot's parts: the node's number, the name (ended by a zero), the type. */
static inline uint32_t dz_slot_id(const uint8_t *slot) { return slot[0] | (uint32_t)slot[1] << 8 | (uint32_t)slot[2] << 16 | (uint32_t)slot[3] << 24; }
static inline const char *dz_slot_name(const uint8_t *slot) { return (const char *)slot + 4; }
static inline uint32_t dz_slot_type(const uint8_t *slot) { return dz_slot_id(slot + 260); }

/* ---- the whole image */

/* Clears the arena and makes a fresh image with an empty root folder; the table becomes the empty one. `file` is the root's file name.
 * Changes: arena, table. Reasons: BadArena. */
uint32_t dz_format(uint8_t *arena, size_t arena_len, uint8_t *table, size_t table_len,
                   int64_t sec, int64_t nsec, const uint8_t *file, size_t file_len);

/* Sees that the arena is an image; the table becomes the empty one, and handles from before are gone.
 * Changes: table. Reasons: BadArena, Damaged, WrongFs; Stuck. */
uint32_t dz_open(const uint8_t *arena, size_t arena_len, uint8_t *table, size_t table_len);

/* Stores the records that were changed in the table only, as set metadata does. (Superblock and maps are stored by the calls that change them.)
 * Changes: arena, table. Reasons: BadArena, Damaged, BadTable; NoDeviceSpace, Stuck. */
uint32_t dz_sync(uint8_t *arena, size_t arena_len, uint8_t *table, size_t table_len);

/* The checker. Returns 0 where arena and table pass, and then `counts` are nodes, unused ids and free blocks; else the number of the lowest
 * rule that fails, 1 to 8 (not a reason), or DZ_WRONG_SIZE. Changes: counts. */
uint32_t dz_check(const uint8_t *arena, size_t arena_len, const uint8_t *table, size_t table_len,
                  uint64_t *counts, size_t words);

/* The foundry's inventory: a line for each name, from root on in the order of the slots, a folder's contents right after its own line. A line is the
 * node's number, its type and its links, each in decimal with a space behind it, the path with a slash before each name, and a newline. In paths the bytes
 * 0 to 32, 127 and the backslash are a backslash and two lowercase hex digits; all others, a slash in an old name too, are as stored. *length, one
 * word, is the text's; the output's bytes after it stay. The root has no line, so of a fresh image it is 0.
 * No table goes in: what is listed is what is stored. A removed node that is still open, or a size that only the table has, is WrongFs: close and sync first.
 * Changes: out, *length. Reasons: BadArena, Damaged, WrongFs (rules 3 to 8 fail with no node open), OutFull (the text does not fit). */
uint32_t dz_inventory(const uint8_t *arena, size_t arena_len, uint8_t *out, size_t out_len, uint64_t *length, size_t words);

/* The mender, for what a host that went down has left: holds are gone, and with them what stood in the table alone. Call it with a table that has no hold, as dz_open
 * leaves it. Each node but root that no name leads to goes, with its file; link counts are set from the names, and the sizes of what is no folder from
 * the files. Afterwards the checker passes, every name leads to the node that it led to, no byte of its file has changed, and a second time
 * changes nothing (theorems RunMends and RunMendsAgain, crates/linked). Modes, owners and times that were not stored are lost. An arena that passes with no node open is left as it is. The table stays.
 * WrongFs: rules 3 to 5, or rule 6 but for sizes, fail with no node open; or a folder's place: no name leads to root, whose `..` is root; to each
 * other folder one, its `..` is the folder of that name, and that way leads up to root; or none, and it is empty.
 * Changes: arena. Reasons: BadArena, Damaged, BadTable, InUse, WrongFs, NoDeviceSpace (an image from elsewhere lacks more blocks for its records than are free). */
uint32_t dz_mend(uint8_t *arena, size_t arena_len, const uint8_t *table, size_t table_len);

/* ---- holds */

/* A hold on the root folder. Changes: table, handle. Reasons: BadArena, Damaged, BadTable, InvalidParam (owner), TableFull; Stuck. */
uint32_t dz_root(const uint8_t *arena, size_t arena_len, uint8_t *table, size_t table_len, uint8_t owner, uint64_t *handle, size_t words);

/* A hold on the node that `name` names in the folder; the empty name and `.` are the folder itself.
 * Changes: table, handle. Reasons: BadArena, Damaged, BadTable, InvalidParam (owner), BadHandle, BadName, NotDir, NameTooLong, DirRemoved (only
 * `..`), EntryNotFound, TableFull; Stuck. */
uint32_t dz_find(const uint8_t *arena, size_t arena_len, uint8_t *table, size_t table_len,
                 uint8_t owner, uint32_t hold, uint64_t stamp, const uint8_t *name, size_t name_len, uint64_t *handle, size_t words);

/* A hold on the node that a path leads to, from the folder: parts split by single slashes, each looked up as dz_find does; a leading slash starts at
 * root, and a lone one is root. Symlinks are followed, the last part's too, up to DZ_LINKS_MOST in all: what is written in one is its target, a path
 * from its own folder or from root, and the rest of the text in which it was met goes on after it. `links` takes the targets, one after another as
 * they are met; its other bytes stay. With a reason, too, the targets that were read stand there.
 * Changes: table, handle, links. Reasons: BadArena, Damaged, BadTable, InvalidParam (owner), BadHandle; BadName (the path, or a target: bad UTF-8, a
 * zero byte, empty, or an empty part) before its first part; at a part NotDir, NameTooLong, DirRemoved (only `..`), EntryNotFound; at a symlink
 * SymLoop, OutFull; at the end TableFull; Stuck. */
uint32_t dz_walk(const uint8_t *arena, size_t arena_len, uint8_t *table, size_t table_len,
                 uint8_t owner, uint32_t hold, uint64_t stamp, const uint8_t *path, size_t path_len, uint8_t *links, size_t links_len,
                 uint64_t *handle, size_t words);

/* Gives a hold up. The last one of a node stores its record if that changed, and frees a node that no folder names any more.
 * Changes: arena, table. Reasons: BadArena, Damaged, BadTable, InvalidParam (owner), BadHandle; NoDeviceSpace, Stuck. */
uint32_t dz_close(uint8_t *arena, size_t arena_len, uint8_t *table, size_t table_len, uint8_t owner, uint32_t hold, uint64_t stamp);

/* ---- names */

/* A new node in the folder: a file, folder or symlink, and a hold on it. `file` is its own file's name, which no other node has.
 * Changes: arena, table, handle. Reasons: BadArena, Damaged, BadTable, InvalidParam (owner), BadHandle, BadName (a slash too), InvalidParam
 * (the type is not DZ_FILE, DZ_FOLDER or DZ_SYMLINK), NotDir, DirRemoved, NameTooLong, EntryExist, FileTaken, TooManyLinks, TableFull; NoDeviceSpace, Stuck. */
uint32_t dz_create(uint8_t *arena, size_t arena_len, uint8_t *table, size_t table_len,
                   uint8_t owner, uint32_t hold, uint64_t stamp, const uint8_t *name, size_t name_len, uint32_t type, uint16_t mode, int64_t sec,
                   int64_t nsec, const uint8_t *file, size_t file_len, uint64_t *handle, size_t words);

/* Another name for the node `child`, which is no folder.
 * Changes: arena, table. Reasons: BadArena, Damaged, BadTable, InvalidParam (owner), BadHandle (folder, then child), BadName (a slash too), NotDir,
 * DirRemoved, NameTooLong, EntryExist, IsDir, TooManyLinks; NoDeviceSpace, Stuck. */
uint32_t dz_link(uint8_t *arena, size_t arena_len, uint8_t *table, size_t table_len,
                 uint8_t owner, uint32_t hold, uint64_t stamp, const uint8_t *name, size_t name_len, uint32_t child_hold, uint64_t child_stamp);

/* Takes the name of a file, symlink or socket away. The folder's last slot moves to its place. A node that is open stays until its last hold is closed.
 * Changes: arena, table. Reasons: BadArena, Damaged, BadTable, InvalidParam (owner), BadHandle, BadName, NotDir, DirRemoved, IsDir (`.`, `..`,
 * empty), NameTooLong, EntryNotFound, IsDir (a folder); NoDeviceSpace, Stuck. */
uint32_t dz_remove_file(uint8_t *arena, size_t arena_len, uint8_t *table, size_t table_len,
                        uint8_t owner, uint32_t hold, uint64_t stamp, const uint8_t *name, size_t name_len);

/* The same of an empty folder.
 * Changes: arena, table. Reasons: BadArena, Damaged, BadTable, InvalidParam (owner), BadHandle, BadName, NotDir, DirRemoved, IsDir (`.`, `..`,
 * empty), NameTooLong, EntryNotFound, NotDir (no folder), DirNotEmpty; NoDeviceSpace, Stuck. */
uint32_t dz_remove_folder(uint8_t *arena, size_t arena_len, uint8_t *table, size_t table_len,
                          uint8_t owner, uint32_t hold, uint64_t stamp, const uint8_t *name, size_t name_len);

/* The node `old_name` of a folder becomes `new_name` of the folder `to`. A node that has that name is replaced; the same node: nothing changes. The
 * `..` of a folder that goes to another folder names that one. It can't go into itself or below.
 * Changes: arena, table. Reasons: BadArena, Damaged, BadTable, InvalidParam (owner), BadHandle (source, then target), BadName (old, then new; a
 * slash in the new one too), NotDir and DirRemoved (source), IsDir (either name `.`, `..`, empty), NameTooLong, NotDir and DirRemoved (target),
 * EntryNotFound; where the new name exists, NotDir (a folder onto another type), IsDir (another type onto a folder), DirNotEmpty; InvalidParam (a
 * folder into itself or below); then TooManyLinks; NoDeviceSpace, Stuck. */
uint32_t dz_move(uint8_t *arena, size_t arena_len, uint8_t *table, size_t table_len,
                 uint8_t owner, uint32_t hold, uint64_t stamp, const uint8_t *old_name, size_t old_len, uint32_t to_hold, uint64_t to_stamp,
                 const uint8_t *new_name, size_t new_len);

/* ---- metadata */

/* What is known of a node. Changes: metadata. Reasons: BadArena, Damaged, BadTable, InvalidParam (owner), BadHandle; Stuck. */
uint32_t dz_metadata(const uint8_t *arena, size_t arena_len, const uint8_t *table, size_t table_len,
                     uint8_t owner, uint32_t hold, uint64_t stamp, uint64_t *metadata, size_t words);

/* Sets mode, uid and gid (modulo 2^32) and the three times of a node, in the table: close and sync store them.
 * Changes: table. Reasons: BadArena, Damaged, BadTable, InvalidParam (owner), BadHandle. */
uint32_t dz_set_metadata(const uint8_t *arena, size_t arena_len, uint8_t *table, size_t table_len,
                         uint8_t owner, uint32_t hold, uint64_t stamp, uint16_t mode, uint64_t uid, uint64_t gid, int64_t atime_sec,
                         int64_t atime_nsec, int64_t mtime_sec, int64_t mtime_nsec, int64_t ctime_sec, int64_t ctime_nsec);

/* ---- contents of files, symlinks and sockets */

/* The bytes from `place` on that lie below the node's size, as many as the output has room for; *count is how many, one word. The output's bytes
 * after them stay. Changes: out, *count. Reasons: BadArena, Damaged, BadTable, InvalidParam (owner), BadHandle, NotFile; Stuck. */
uint32_t dz_read(const uint8_t *arena, size_t arena_len, const uint8_t *table, size_t table_len,
                 uint8_t owner, uint32_t hold, uint64_t stamp, uint64_t place, uint8_t *out, size_t out_len, uint64_t *count, size_t words);

/* Writes all these bytes from `place` on. Past the size, file and size grow, also by no bytes; what lies between reads as zeros. The size stands in
 * the table: close and sync store it. Changes: arena, table. Reasons: BadArena, Damaged, BadTable, InvalidParam (owner), BadHandle, NotFile,
 * FileTooBig; NoDeviceSpace, Stuck. */
uint32_t dz_write(uint8_t *arena, size_t arena_len, uint8_t *table, size_t table_len,
                  uint8_t owner, uint32_t hold, uint64_t stamp, uint64_t place, const uint8_t *data, size_t data_len);

/* Makes the node's file and size exactly so long. What is cut off is gone; a longer file takes no block. Stored as by dz_write.
 * Changes: arena, table. Reasons: BadArena, Damaged, BadTable, InvalidParam (owner), BadHandle, NotFile, FileTooBig; Stuck. */
uint32_t dz_resize(uint8_t *arena, size_t arena_len, uint8_t *table, size_t table_len,
                   uint8_t owner, uint32_t hold, uint64_t stamp, uint64_t length);

/* A range of a file, `length` bytes from `from` on. By `mode`:
 * - DZ_INSERT_RANGE: the bytes from `from` on move up by `length`, and the range reads as zeros. The file grows by `length`.
 * - DZ_COLLAPSE_RANGE: the range goes, and the bytes after it move down to `from`. The file shrinks by `length`.
 * - DZ_ZERO_RANGE: zeros over the range; where it ends past the size the file grows to its end. DZ_PUNCH_HOLE and DZ_ZERO_RANGE_KEEP_SIZE: zeros over what of
 *   it lies below the size, which stays. Zeros are written: they take blocks where there were none.
 * - DZ_ALLOCATE: where the range ends past the size the file grows to its end; no block is taken. With DZ_KEEP_SIZE in `flags` nothing is done. Other bits, and
 *   flags of other modes, do nothing.
 * The size is stored as by dz_write. An empty range is allowed. A hold on a removed file works.
 * Changes: arena, table. Reasons: BadArena, Damaged, BadTable, InvalidParam (owner), BadHandle, NotFile (symlinks and sockets, too), FileTooBig (the range's end),
 * InvalidParam (`mode` is none of these; insert: `from` at or past the size; collapse: the range's end at or past the size; both: `from` or `length` no
 * multiple of DZ_RANGE_UNIT), FileTooBig (insert: the grown size); NoDeviceSpace, Stuck. */
uint32_t dz_fallocate(uint8_t *arena, size_t arena_len, uint8_t *table, size_t table_len,
                      uint8_t owner, uint32_t hold, uint64_t stamp, uint8_t mode, uint8_t flags, uint64_t from, uint64_t length);

/* ---- slots */

/* One slot of a folder, as stored, at the output's start: DZ_SLOT bytes.
 * Changes: out. Reasons: BadArena, Damaged, BadTable, InvalidParam (owner), BadHandle, NotDir, EntryNotFound (no such slot), OutFull; Stuck. */
uint32_t dz_get_entry(const uint8_t *arena, size_t arena_len, const uint8_t *table, size_t table_len,
                      uint8_t owner, uint32_t hold, uint64_t stamp, uint64_t slot, uint8_t *out, size_t out_len);

/* A folder's slots from *next on, as many as are left and the output has room for; *next, one word, becomes the slot to go on with. `dots` asks for
 * slots 0 and 1, `.` and `..`, by any value but 0. Without it a listing begins at slot 2: a *next below is read as 2, and becomes 2 plus the slots
 * written. A removal between two listings moves slots: begin again after one.
 * Changes: *next, out. Reasons: BadArena, Damaged, BadTable, InvalidParam (owner), BadHandle, NotDir, OutFull; Stuck. */
uint32_t dz_list(const uint8_t *arena, size_t arena_len, const uint8_t *table, size_t table_len,
                 uint8_t owner, uint32_t hold, uint64_t stamp, uint64_t *next, size_t words, uint8_t dots, uint8_t *out, size_t out_len);

/* ---- a folder's path */

/* A folder's path from root, at the output's start: a slash before each name, the name of each folder before those in it; of root one slash. *count is its
 * length, one word. The output's bytes after the path stay. Names are written as they are stored.
 * No path is longer than DZ_PATH_LONGEST; of an arena and table that pass the check none is longer than 256 x (blocks / 3) bytes (theorems Longest, crates/paths, and
 * LongestThere, crates/titles). dz_walk by it opens the same folder, where they pass, no name on it has a slash, and this owner has a hold and a stamp
 * free (WalksBack, crates/titles).
 * Changes: out, *count. Reasons: BadArena, Damaged, BadTable, InvalidParam (owner), BadHandle, Stuck (a type that there is not), NotDir, DirRemoved, Stuck (on
 * the way up: over 4,096 folders, one that is none, or no name for the one below), OutFull (the path does not fit; an output of its own length does). */
uint32_t dz_path(const uint8_t *arena, size_t arena_len, const uint8_t *table, size_t table_len,
                 uint8_t owner, uint32_t hold, uint64_t stamp, uint8_t *out, size_t out_len, uint64_t *count, size_t words);

/* ---- for owners of an image
 *
 * Each call above tests the whole arena and the table first, which is nearly all of its time. The owner of an image (not of a hold: who alone writes
 * arena and table) has both tested once, and then makes the calls below. They take, give and answer the same as those above, but for BadArena,
 * Damaged and BadTable, which can't come; and they take the chains beside the arena: DZ_CHAINS words of 16 bits that lead to its blocks, which the
 * calls keep. dz_own_chains fills them first.
 *
 * What the owner of an image promises, at each of these calls:
 * - Nobody else writes arena, chains and table: since the check passed (dz_check gave 0), or since dz_format or dz_mend was done, only calls of this
 *   section did.
 * - No dz_format, dz_open and dz_mend came in between. (After dz_open, dz_check and dz_own_chains make one again; after a dz_format or dz_mend that is
 *   done dz_own_chains alone does.)
 * Who keeps that may always make the next call (theorems FormatFresh, CheckTrusts, MendTrusts, ChainsOwn and OwnKeeps, crates/linked). A call whose promise
 * is broken may do anything: use the calls above for an arena from elsewhere. The chains are no result: a call that is refused may make them anew. */

#define DZ_CHAINS 8192

/* The chains of the arena. Changes: chains. Reasons: WrongSize (not DZ_CHAINS words), BadArena. It promises nothing and asks nothing. */
uint32_t dz_own_chains(const uint8_t *arena, size_t arena_len, uint16_t *chains, size_t chains_len);

uint32_t dz_own_sync(uint8_t *arena, size_t arena_len, uint16_t *chains, size_t chains_len, uint8_t *table, size_t table_len);
uint32_t dz_own_root(const uint8_t *arena, size_t arena_len, const uint16_t *chains, size_t chains_len, uint8_t *table, size_t table_len,
                     uint8_t owner, uint64_t *handle, size_t words);
uint32_t dz_own_find(const uint8_t *arena, size_t arena_len, const uint16_t *chains, size_t chains_len, uint8_t *table, size_t table_len,
                     uint8_t owner, uint32_t hold, uint64_t stamp, const uint8_t *name, size_t name_len, uint64_t *handle, size_t words);
uint32_t dz_own_walk(const uint8_t *arena, size_t arena_len, const uint16_t *chains, size_t chains_len, uint8_t *table, size_t table_len,
                     uint8_t owner, uint32_t hold, uint64_t stamp, const uint8_t *path, size_t path_len, uint8_t *links, size_t links_len,
                     uint64_t *handle, size_t words);
uint32_t dz_own_close(uint8_t *arena, size_t arena_len, uint16_t *chains, size_t chains_len, uint8_t *table, size_t table_len, uint8_t owner,
                      uint32_t hold, uint64_t stamp);
uint32_t dz_own_create(uint8_t *arena, size_t arena_len, uint16_t *chains, size_t chains_len, uint8_t *table, size_t table_len, uint8_t owner,
                       uint32_t hold, uint64_t stamp, const uint8_t *name, size_t name_len, uint32_t type, uint16_t mode, int64_t sec, int64_t nsec,
                       const uint8_t *file, size_t file_len, uint64_t *handle, size_t words);
uint32_t dz_own_link(uint8_t *arena, size_t arena_len, uint16_t *chains, size_t chains_len, uint8_t *table, size_t table_len, uint8_t owner,
                     uint32_t hold, uint64_t stamp, const uint8_t *name, size_t name_len, uint32_t child_hold, uint64_t child_stamp);
uint32_t dz_own_remove_file(uint8_t *arena, size_t arena_len, uint16_t *chains, size_t chains_len, uint8_t *table, size_t table_len, uint8_t owner,
                            uint32_t hold, uint64_t stamp, const uint8_t *name, size_t name_len);
uint32_t dz_own_remove_folder(uint8_t *arena, size_t arena_len, uint16_t *chains, size_t chains_len, uint8_t *table, size_t table_len, uint8_t owner,
                              uint32_t hold, uint64_t stamp, const uint8_t *name, size_t name_len);
uint32_t dz_own_move(uint8_t *arena, size_t arena_len, uint16_t *chains, size_t chains_len, uint8_t *table, size_t table_len, uint8_t owner,
                     uint32_t hold, uint64_t stamp, const uint8_t *old_name, size_t old_len, uint32_t to_hold, uint64_t to_stamp,
                     const uint8_t *new_name, size_t new_len);
uint32_t dz_own_metadata(const uint8_t *arena, size_t arena_len, const uint16_t *chains, size_t chains_len, const uint8_t *table, size_t table_len,
                         uint8_t owner, uint32_t hold, uint64_t stamp, uint64_t *metadata, size_t words);
uint32_t dz_own_set_metadata(const uint8_t *arena, size_t arena_len, const uint16_t *chains, size_t chains_len, uint8_t *table, size_t table_len,
                             uint8_t owner, uint32_t hold, uint64_t stamp, uint16_t mode, uint64_t uid, uint64_t gid, int64_t atime_sec,
                             int64_t atime_nsec, int64_t mtime_sec, int64_t mtime_nsec, int64_t ctime_sec, int64_t ctime_nsec);
uint32_t dz_own_get_entry(const uint8_t *arena, size_t arena_len, const uint16_t *chains, size_t chains_len, const uint8_t *table, size_t table_len,
                          uint8_t owner, uint32_t hold, uint64_t stamp, uint64_t slot, uint8_t *out, size_t out_len);
uint32_t dz_own_list(const uint8_t *arena, size_t arena_len, const uint16_t *chains, size_t chains_len, const uint8_t *table, size_t table_len,
                     uint8_t owner, uint32_t hold, uint64_t stamp, uint64_t *next, size_t words, uint8_t dots, uint8_t *out, size_t out_len);
uint32_t dz_own_read(const uint8_t *arena, size_t arena_len, const uint16_t *chains, size_t chains_len, const uint8_t *table, size_t table_len,
                     uint8_t owner, uint32_t hold, uint64_t stamp, uint64_t place, uint8_t *out, size_t out_len, uint64_t *count, size_t words);
uint32_t dz_own_write(uint8_t *arena, size_t arena_len, uint16_t *chains, size_t chains_len, uint8_t *table, size_t table_len, uint8_t owner,
                      uint32_t hold, uint64_t stamp, uint64_t place, const uint8_t *data, size_t data_len);
uint32_t dz_own_resize(uint8_t *arena, size_t arena_len, uint16_t *chains, size_t chains_len, uint8_t *table, size_t table_len, uint8_t owner,
                       uint32_t hold, uint64_t stamp, uint64_t length);
uint32_t dz_own_fallocate(uint8_t *arena, size_t arena_len, uint16_t *chains, size_t chains_len, uint8_t *table, size_t table_len, uint8_t owner,
                          uint32_t hold, uint64_t stamp, uint8_t mode, uint8_t flags, uint64_t from, uint64_t length);
uint32_t dz_own_path(const uint8_t *arena, size_t arena_len, const uint16_t *chains, size_t chains_len, const uint8_t *table, size_t table_len,
                     uint8_t owner, uint32_t hold, uint64_t stamp, uint8_t *out, size_t out_len, uint64_t *count, size_t words);

#ifdef __cplusplus
}
#endif

#endif
