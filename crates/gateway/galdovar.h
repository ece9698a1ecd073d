/*
 * Galdovar for a host in C or Rust: every call of the static library that `tools/static_lib` writes.
 *
 * R1 to R183 are the rules of docs/RULES.md. `tools/check_header` holds this file to the source in crates/gateway_c/src.
 * The library is for x86-64 with the C calling convention of Linux. It calls memcpy, memmove and memset, and nothing else.
 * A call needs stack; how deep is not proved.
 *
 * Slices. A slice is two arguments: a pointer to its first byte, then its length in bytes. A pointer to const is only read.
 * - Slices of one call must not overlap: no byte that a call may write stands in another of its slices.
 * - A pointer points at `length` bytes that are there. It may be null only where the length is 0; nothing is then read or
 *   written through it.
 * - During a call nothing else may change the bytes of its slices, and nothing else may read those that it may write. So
 *   calls that only read (every slice const) may run side by side on one storage.
 *
 * Storage. An instance lives in bytes that the host lends to every call, GALDOVAR_STORAGE_SIZE(N) of them for N nodes, the
 * root counted, N from 1 to 1024 (R9, R20). They need no alignment and hold no address: they may be copied, kept, and lent
 * again from another place. Bytes behind that size are never read and never written (R23).
 *
 * Answers. Every answer that is a struct has `code`, a number of the table below. Where it is not 0 the call is refused: every other field is
 * 0 but `count`, and lent output is as it was (R16, R17). "None" is told from 0 by a field of its own, named has_.. or
 * to_backend, which is 1 or 0. No call needs anything of the numbers or bytes that it is given: each gets an answer (R4).
 */
#ifndef GALDOVAR_H
#define GALDOVAR_H

#include <stddef.h>
#include <stdint.h>

#ifdef __cplusplus
extern "C" {
#endif

/* The numbers of the answers (R15). */
#define GALDOVAR_DONE 0u      /* the call did its work */
#define GALDOVAR_NOENT 1u     /* errno 2: a node or a name is unknown; routing meets an empty slot */
#define GALDOVAR_INVAL 2u     /* errno 22: a path not UTF-8 or without leading slash; a bad name */
#define GALDOVAR_TOOLONG 3u   /* a mount path over 4096 bytes, or a part of it over 255 */
#define GALDOVAR_INODE 4u     /* a number above 2^56 - 1: the largest, the root's, or that of a conversion */
#define GALDOVAR_FULL 5u      /* the indexes 1 to 255 are all held */
#define GALDOVAR_NOROOM 6u    /* more nodes than N, or no more numbers for them */
#define GALDOVAR_NOTFOUND 7u  /* unmount of an unknown path or of no mount; root query of a mount whose slot is empty */
#define GALDOVAR_BADINDEX 8u  /* a restored mount at index 0 */
#define GALDOVAR_BADMAP 9u    /* a start plus the range is above 2^32 - 1 */
#define GALDOVAR_BADSAVE 10u  /* saved bytes break the layout */
#define GALDOVAR_NOTFRESH 11u /* a restore where a node stands besides the root, or anything is mounted */
#define GALDOVAR_SMALL 12u    /* N outside its limits; storage too short or against the layout rule; output too short for a save */
#define GALDOVAR_BADOPT 13u   /* option bits outside the mask or, at creation, flags above bit 5 */

/* The bytes that an instance of n nodes needs, n from 1 to 1024 (R9, R20). */
#define GALDOVAR_STORAGE_SIZE(n) ((size_t)512 * (size_t)(n) + (size_t)8192)

/* No save writes more bytes than this (R124). */
#define GALDOVAR_MAX_SAVED ((size_t)279335)

/* The largest number of a node or of a backend; above its 56 bits a full inode number has the index (R5, R6). */
#define GALDOVAR_MAX_INO UINT64_C(72057594037927935)

/* ---- answers */

/* A call that has no values. */
typedef struct GaldovarCodeAnswer {
    uint32_t code;
} GaldovarCodeAnswer;

/* Whether the instance is initialized (R33). */
typedef struct GaldovarInitializedAnswer {
    uint32_t code;
    uint32_t initialized; /* 1, or 0 */
} GaldovarInitializedAnswer;

/* The options of the instance (R27, R33, R34). */
typedef struct GaldovarOptionsAnswer {
    uint32_t code;
    uint32_t flags; /* bits 0 to 5: no_readdir, seal_size, no_open, no_opendir, no_writeback, killpriv_v2 (R122) */
    uint64_t in_opts;
    uint64_t out_opts;
    uint32_t internal; /* the options' own mapping, which a restore replaces */
    uint32_t external;
    uint32_t range;
} GaldovarOptionsAnswer;

/* A mount (R68 to R79). */
typedef struct GaldovarMountAnswer {
    uint32_t code;
    uint32_t fs_idx;       /* the index handed out, 1 to 255 */
    uint32_t count;        /* how many indexes were visited; a refusal keeps it, FULL has 257 */
    uint32_t has_replaced; /* 1 where the node had a mount whose slot held a tag */
    uint32_t replaced;     /* that tag */
} GaldovarMountAnswer;

/* A restored mount (R91 to R95). */
typedef struct GaldovarRestoreMountAnswer {
    uint32_t code;
    uint32_t has_replaced; /* 1 where the node had a mount whose slot held a tag */
    uint32_t replaced;     /* that tag */
    uint32_t has_displaced; /* 1 where the slot of the index given then still held a tag */
    uint32_t displaced;     /* that tag */
} GaldovarRestoreMountAnswer;

/* An unmount (R96 to R100). */
typedef struct GaldovarUmountAnswer {
    uint32_t code;
    uint32_t has_released; /* 1 where the slot of the mount held a tag */
    uint64_t node;         /* the node's number */
    uint64_t parent;       /* its parent's; of the root 1 */
    uint32_t released;     /* the tag released */
} GaldovarUmountAnswer;

/* A root query (R103, R104). */
typedef struct GaldovarRootfsAnswer {
    uint32_t code;
    uint32_t has_backend; /* 0 for no such path or no mount there */
    uint32_t tag;
    uint32_t fs_idx;
} GaldovarRootfsAnswer;

/* A walk (R46, R47). */
typedef struct GaldovarWalkAnswer {
    uint32_t code;
    uint32_t has_node; /* 0 where a name is missing */
    uint64_t node;     /* the node's number */
} GaldovarWalkAnswer;

/* Where a full inode number goes (R105 to R107). */
typedef struct GaldovarRouteAnswer {
    uint32_t code;
    uint32_t to_backend; /* 0: to the tree; 1: to a backend */
    uint32_t tag;        /* the backend's */
    uint32_t fs_idx;     /* the backend's */
    uint64_t number;     /* the node's number in the tree, or the backend's own number; neither is a full number */
} GaldovarRouteAnswer;

/* A lookup: the entry found (R13, R108 to R110). */
typedef struct GaldovarLookupAnswer {
    uint32_t code;
    uint32_t mode;
    uint64_t inode; /* the full inode number */
    uint32_t uid;   /* mapped outwards */
    uint32_t gid;   /* mapped outwards */
    uint32_t blksize; /* 4096 of a node of the tree, 0 of a mounted root */
} GaldovarLookupAnswer;

/* A listing or a save (R66, R125). */
typedef struct GaldovarWroteAnswer {
    uint32_t code;
    uint64_t written; /* how many bytes were written at the start of the output; later ones keep what they held */
} GaldovarWroteAnswer;

/* Ids after mapping (R118). */
typedef struct GaldovarIdsAnswer {
    uint32_t code;
    uint32_t uid;
    uint32_t gid;
} GaldovarIdsAnswer;

/* A conversion (R7). */
typedef struct GaldovarInodeAnswer {
    uint32_t code;
    uint64_t inode; /* the full inode number */
} GaldovarInodeAnswer;

/* An allocator of the host's own: slots and counter (R90). A new one has 0 in every slot and counter 1. */
typedef struct GaldovarFsIndexes {
    uint8_t used[256];  /* not 0: the slot is held */
    uint32_t tags[256]; /* the tag of each slot that is held */
    uint8_t next_super; /* the counter: where the next search begins */
} GaldovarFsIndexes;

/* A step of the allocator (R80 to R84). */
typedef struct GaldovarAllocateAnswer {
    uint32_t code;   /* 0, or FULL */
    uint32_t fs_idx; /* the index handed out, 1 to 255 */
    uint32_t count;  /* how many indexes were visited; FULL has 257 */
} GaldovarAllocateAnswer;

/* ---- an instance */

/* A new instance of n nodes, whatever the storage held: SMALL, then BADOPT, then BADMAP, or done (R26 to R34).
 * known: the mask of known option bits; internal, external, range: the mapping in force, range 0 for none. */
GaldovarCodeAnswer galdovar_create(uint8_t *storage, size_t storage_len, size_t n, uint64_t known, uint64_t in_opts, uint64_t out_opts, uint8_t flags, uint32_t internal, uint32_t external, uint32_t range);

/* From now on a done unmount also removes its node; the root always stays. Nothing unsets this (R32, R100). */
GaldovarCodeAnswer galdovar_set_remove_pseudo_root(uint8_t *storage, size_t storage_len);

/* Whether the instance is initialized: not before a restore, and then if its in_opts is not 0 (R33, R134). */
GaldovarInitializedAnswer galdovar_initialized(const uint8_t *storage, size_t storage_len);

/* The options of creation, or of the last restore (R27, R33, R34). */
GaldovarOptionsAnswer galdovar_options(const uint8_t *storage, size_t storage_len);

/* uid and gid by the mapping in force: outwards where outward is not 0, back where it is 0 (R113, R114, R118). */
GaldovarIdsAnswer galdovar_remap_attr_id(const uint8_t *storage, size_t storage_len, uint32_t uid, uint32_t gid, uint32_t outward);

/* ---- the mount tables */

/* Mounts a backend on a path: tag, root number, largest number, and uid, gid and mode of its root (R3, R68 to R79). */
GaldovarMountAnswer galdovar_mount(uint8_t *storage, size_t storage_len, const uint8_t *path, size_t path_len, uint32_t tag, uint64_t root, uint64_t largest, uint32_t uid, uint32_t gid, uint32_t mode);

/* The same at an index that is given; the counter stays (R91 to R95). */
GaldovarRestoreMountAnswer galdovar_restore_mount(uint8_t *storage, size_t storage_len, uint8_t fs_idx, const uint8_t *path, size_t path_len, uint32_t tag, uint64_t root, uint64_t largest, uint32_t uid, uint32_t gid, uint32_t mode);

/* Takes the mount off the node that the path leads to, and frees its index: INVAL, NOTFOUND or done (R96 to R100). */
GaldovarUmountAnswer galdovar_umount(uint8_t *storage, size_t storage_len, const uint8_t *path, size_t path_len);

/* The backend mounted where the path leads, or none: INVAL, NOTFOUND where its slot is empty, or done (R103, R104). */
GaldovarRootfsAnswer galdovar_get_rootfs(const uint8_t *storage, size_t storage_len, const uint8_t *path, size_t path_len);

/* Where a full inode number goes: to the tree, to a backend, or NOENT (R105 to R107). */
GaldovarRouteAnswer galdovar_route(const uint8_t *storage, size_t storage_len, uint64_t inode);

/* ---- the tree */

/* The node that the path leads to, from the root, or none; INVAL for a bad path (R36, R46, R47). */
GaldovarWalkAnswer galdovar_path_walk(const uint8_t *storage, size_t storage_len, const uint8_t *path, size_t path_len);

/* By a name in a directory, across mounts: NOENT, INVAL, or the entry (R57 to R60, R108 to R111). parent: a node's number, not a
 * full number. */
GaldovarLookupAnswer galdovar_lookup(const uint8_t *storage, size_t storage_len, uint64_t parent, const uint8_t *name, size_t name_len);

/* Directory entries of fuse.h, whole ones within size and within the output (R63 to R66). node: a node's number. */
GaldovarWroteAnswer galdovar_readdir(const uint8_t *storage, size_t storage_len, uint64_t node, uint32_t size, uint64_t offset, uint8_t *out, size_t out_len);

/* ---- saved state */

/* SMALL where the output is too short; GALDOVAR_MAX_SAVED bytes are always enough (R119 to R127). */
GaldovarWroteAnswer galdovar_save_to_bytes(const uint8_t *storage, size_t storage_len, uint8_t *out, size_t out_len);

/* NOTFRESH, BADSAVE, BADOPT, NOROOM or done (R128 to R134). The cost grows with the square of the records: a host tests the
 * length of bytes that it does not trust against GALDOVAR_MAX_SAVED first. */
GaldovarCodeAnswer galdovar_restore_from_bytes(uint8_t *storage, size_t storage_len, const uint8_t *bytes, size_t bytes_len);

/* ---- without an instance */

/* The full inode number of a backend's number under its index, or INODE (R7). */
GaldovarInodeAnswer galdovar_convert_inode(uint8_t fs_idx, uint64_t number);

/* An id out by a given mapping; never refused (R112, R113, R115 to R117). */
uint32_t galdovar_map_out(uint32_t internal, uint32_t external, uint32_t range, uint32_t id);

/* An id back by a given mapping; never refused (R112, R114 to R117). */
uint32_t galdovar_map_back(uint32_t internal, uint32_t external, uint32_t range, uint32_t id);

/* `.`, `..`, a slash or a byte 0 is INVAL; the empty name is done (R61, R62). */
GaldovarCodeAnswer galdovar_validate_path_component(const uint8_t *name, size_t name_len);

/* Takes the next free index for a tag, in the host's own allocator: slots and counter are changed in place; FULL moves the
 * counter alone (R80 to R84, R90). t is never null, and is aligned as a struct is. */
GaldovarAllocateAnswer galdovar_allocate_in(GaldovarFsIndexes *t, uint32_t tag);

#ifdef __cplusplus
}
#endif

#endif
