/*
 * Noonhaggle: the key directory of a crew messenger, proved. What the handset and server teams link.
 *
 * Every function takes any bytes, ends, and answers or refuses by a number of NOONHAGGLE_*. A refusal writes to no memory that was lent
 * and hands back the state it was given. That, and every byte of every answer, is proved of the functions behind these declarations.
 *
 * What no proof covers, and the caller has to see to:
 *  - Pointers: each points at as many bytes as the length behind it says, readable, and writable where it is not const. With length 0 it
 *    may be NULL, or any other address: nothing is read or written there. That is an empty argument, which is answered as such.
 *  - No overlap: memory that a call may write to overlaps no other memory that is lent to that call, and nobody else reads or writes it
 *    during the call. Memory that is only read may overlap.
 *  - Stack: docs/SIZES.md says how much each function takes. A checker takes little; publish and the writers take megabytes.
 *  - The compiler's back end, and this header: at its end the compiler is asked whether each field lies where the archive has it, which
 *    wants 64-bit addresses.
 *
 * Functions keep nothing between calls, so they may be called from several threads at once over different memory.
 */
#ifndef NOONHAGGLE_H
#define NOONHAGGLE_H

#include <stddef.h>
#include <stdint.h>

#ifdef __cplusplus
extern "C" {
#endif

/* The numbers that say no; 0 says that nothing was refused. */
enum {
    NOONHAGGLE_INPUT = 1,  /* an argument breaks the bounds or an update's layout, or an audit writer's new epoch is 0 */
    NOONHAGGLE_FORM = 2,   /* proof bytes break the layout */
    NOONHAGGLE_HEAD = 3,   /* an opening does not hash to its head */
    NOONHAGGLE_ROOT = 4,   /* a path or list gives another root */
    NOONHAGGLE_RULE = 5,   /* another rule is broken */
    NOONHAGGLE_FULL = 6,   /* too few free records, no head slot, or a name at 1,023 versions */
    NOONHAGGLE_CLASH = 7,  /* two leaves share a label, or a label to be shown absent is there */
    NOONHAGGLE_ROOM = 8,   /* the proof is longer than the lent output */
    NOONHAGGLE_TWICE = 9,  /* a name twice in a batch */
    NOONHAGGLE_EPOCH = 10, /* an epoch after the current one */
    NOONHAGGLE_TABLE = 11  /* tables out of shape */
};

/*
 * The handset. A head has 32 bytes, a name 1 to 64 bytes of 0x21 to 0x7E, a proof any number. Nothing is written.
 */

/* A lookup. Version 0 with number 0 is "not registered". The accepted key is key_length bytes of the lent proof from key_start on; a
 * refusal and version 0 have the empty part at its start. On a refusal all else is 0. */
struct noonhaggle_lookup {
    uint32_t number;
    uint32_t version;
    uint32_t epoch;
    uint32_t digests;
    size_t key_start;
    size_t key_length;
};

struct noonhaggle_lookup noonhaggle_check_lookup(
    const uint8_t *head, size_t head_length,
    const uint8_t *name, size_t name_length,
    const uint8_t *proof, size_t proof_length);

/* A history: how many versions the name has by the head's epoch. On a refusal all else is 0. Their keys, openings and epochs are read from the
 * accepted proof, by document 01's layout. */
struct noonhaggle_history {
    uint32_t number;
    uint32_t versions;
    uint32_t epoch;
    uint32_t digests;
};

struct noonhaggle_history noonhaggle_check_history(
    const uint8_t *head, size_t head_length,
    const uint8_t *name, size_t name_length,
    const uint8_t *proof, size_t proof_length);

/* An audit step from one head to the next. On a refusal all else is 0. */
struct noonhaggle_audit {
    uint32_t number;
    uint32_t old_epoch;
    uint32_t new_epoch;
    uint32_t digests;
};

struct noonhaggle_audit noonhaggle_check_audit(
    const uint8_t *old_head, size_t old_head_length,
    const uint8_t *new_head, size_t new_head_length,
    const uint8_t *proof, size_t proof_length);

/* SHA-256 of any bytes. */
struct noonhaggle_digest {
    uint8_t bytes[32];
};

struct noonhaggle_digest noonhaggle_sha256(const uint8_t *data, size_t data_length);

/*
 * The server. A record table has 168 bytes for each record, up to 4,096 of them; a head table 32 bytes for each epoch, 1 to 65,536 of
 * them. The state is two numbers: how many records are counted, and the current epoch.
 */

/* The state after a success; after a refusal the state as it was given (0 and 0 where none was). */
struct noonhaggle_published {
    uint32_t number;
    uint32_t count;
    uint32_t epoch;
};

/* Starts a directory: writes head 0 to the first 32 bytes of heads. Refuses with 1. */
struct noonhaggle_published noonhaggle_start(uint8_t *heads, size_t heads_length);

/* Publishes a batch of up to 256 updates of 162 bytes and closes the next epoch: writes the new records behind the counted ones and the
 * new head to its slot, and nothing else. Refuses with 1, 11, 9, 6, 7. */
struct noonhaggle_published noonhaggle_publish(
    uint8_t *records, size_t records_length,
    uint8_t *heads, size_t heads_length,
    uint32_t count, uint32_t epoch,
    const uint8_t *batch, size_t batch_length);

/* The proof's length, 0 on a refusal, and in either case the state as it was given. */
struct noonhaggle_written {
    uint32_t number;
    uint32_t count;
    uint32_t epoch;
    size_t length;
};

/* Writers: a name's lookup or history at epoch `at`, and the audit of the step into epoch `at`. The proof is written to the start of out,
 * and nothing else. They refuse with 1, 11, 10, 7, 8. */
struct noonhaggle_written noonhaggle_write_lookup(
    const uint8_t *records, size_t records_length,
    const uint8_t *heads, size_t heads_length,
    uint32_t count, uint32_t epoch,
    const uint8_t *name, size_t name_length,
    uint32_t at,
    uint8_t *out, size_t out_length);

struct noonhaggle_written noonhaggle_write_history(
    const uint8_t *records, size_t records_length,
    const uint8_t *heads, size_t heads_length,
    uint32_t count, uint32_t epoch,
    const uint8_t *name, size_t name_length,
    uint32_t at,
    uint8_t *out, size_t out_length);

struct noonhaggle_written noonhaggle_write_audit(
    const uint8_t *records, size_t records_length,
    const uint8_t *heads, size_t heads_length,
    uint32_t count, uint32_t epoch,
    uint32_t at,
    uint8_t *out, size_t out_length);

/*
 * Where each field of an answer lies. No proof speaks of this, so the compiler is asked, by the languages that can be (C11, C++11).
 */
#if defined(__cplusplus) && __cplusplus >= 201103L
#define NOONHAGGLE_HOLDS(fact) static_assert(fact, #fact)
#elif defined(__STDC_VERSION__) && __STDC_VERSION__ >= 201112L
#define NOONHAGGLE_HOLDS(fact) _Static_assert(fact, #fact)
#endif

#ifdef NOONHAGGLE_HOLDS
#define NOONHAGGLE_AT(type, field, place, size) \
    NOONHAGGLE_HOLDS(offsetof(struct type, field) == place && sizeof(((struct type *)0)->field) == size)

NOONHAGGLE_AT(noonhaggle_lookup, number, 0, 4);
NOONHAGGLE_AT(noonhaggle_lookup, version, 4, 4);
NOONHAGGLE_AT(noonhaggle_lookup, epoch, 8, 4);
NOONHAGGLE_AT(noonhaggle_lookup, digests, 12, 4);
NOONHAGGLE_AT(noonhaggle_lookup, key_start, 16, 8);
NOONHAGGLE_AT(noonhaggle_lookup, key_length, 24, 8);
NOONHAGGLE_HOLDS(sizeof(struct noonhaggle_lookup) == 32);

NOONHAGGLE_AT(noonhaggle_history, number, 0, 4);
NOONHAGGLE_AT(noonhaggle_history, versions, 4, 4);
NOONHAGGLE_AT(noonhaggle_history, epoch, 8, 4);
NOONHAGGLE_AT(noonhaggle_history, digests, 12, 4);
NOONHAGGLE_HOLDS(sizeof(struct noonhaggle_history) == 16);

NOONHAGGLE_AT(noonhaggle_audit, number, 0, 4);
NOONHAGGLE_AT(noonhaggle_audit, old_epoch, 4, 4);
NOONHAGGLE_AT(noonhaggle_audit, new_epoch, 8, 4);
NOONHAGGLE_AT(noonhaggle_audit, digests, 12, 4);
NOONHAGGLE_HOLDS(sizeof(struct noonhaggle_audit) == 16);

NOONHAGGLE_AT(noonhaggle_digest, bytes, 0, 32);
NOONHAGGLE_HOLDS(sizeof(struct noonhaggle_digest) == 32);

NOONHAGGLE_AT(noonhaggle_published, number, 0, 4);
NOONHAGGLE_AT(noonhaggle_published, count, 4, 4);
NOONHAGGLE_AT(noonhaggle_published, epoch, 8, 4);
NOONHAGGLE_HOLDS(sizeof(struct noonhaggle_published) == 12);

NOONHAGGLE_AT(noonhaggle_written, number, 0, 4);
NOONHAGGLE_AT(noonhaggle_written, count, 4, 4);
NOONHAGGLE_AT(noonhaggle_written, epoch, 8, 4);
NOONHAGGLE_AT(noonhaggle_written, length, 16, 8);
NOONHAGGLE_HOLDS(sizeof(struct noonhaggle_written) == 24);

#undef NOONHAGGLE_AT
#undef NOONHAGGLE_HOLDS
#endif

#ifdef __cplusplus
}
#endif

#endif
