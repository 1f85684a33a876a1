/*
 * The driver's requests (docs/DRIVER.md) put through the archive, from C: calls 1, 4 to 6 and 10 to 14, whose functions the archive has.
 * Any other request, and one that is not readable, is answered `bad`. Memory that a refusal has to leave alone is compared afterwards. No
 * bytes are lent as NULL.
 */
#include "noonhaggle.h"

/* the C library's, declared here so that the program builds without its headers */
int printf(const char *format, ...);
long read(int file, void *to, size_t most);
void *memcpy(void *to, const void *from, size_t n);
int memcmp(const void *a, const void *b, size_t n);

enum { MOST = 4 << 20, FIELDS = 7 };

static uint8_t request[MOST], before[MOST], out[1 << 20];
static uint8_t *field[FIELDS];
static size_t length[FIELDS];

static size_t read_full(uint8_t *to, size_t n) {
    size_t got = 0;
    while (got < n) {
        long more = read(0, to + got, n - got);
        if (more <= 0) break;
        got += (size_t)more;
    }
    return got;
}

static uint32_t number(const uint8_t *p) {
    return (uint32_t)p[0] << 24 | (uint32_t)p[1] << 16 | (uint32_t)p[2] << 8 | p[3];
}

/* how many fields the request has, or -1 */
static int split(size_t n) {
    size_t at = 1;
    int k = 0;
    while (at < n && k < FIELDS) {
        if (n - at < 4 || n - at - 4 < number(request + at)) return -1;
        length[k] = number(request + at);
        field[k] = length[k] == 0 ? NULL : request + at + 4;
        at += 4 + length[k++];
    }
    return at == n ? k : -1;
}

/* whether the fields from one to before another are numbers of 4 bytes */
static int numbers(int from, int to) {
    for (int k = from; k < to; k++)
        if (length[k] != 4) return 0;
    return 1;
}

static void print_bytes(const uint8_t *p, size_t n) {
    if (n == 0) printf("-");
    for (size_t i = 0; i < n; i++) printf("%02x", p[i]);
}

/* the line of a refusal; it names memory that did not stay as it was */
static void refused(uint32_t n, int kept) {
    printf(kept ? "refused %u\n" : "refused %u and wrote\n", n);
}

static void lookup(void) {
    struct noonhaggle_lookup r = noonhaggle_check_lookup(field[0], length[0], field[1], length[1], field[2], length[2]);
    if (r.number != 0) refused(r.number, 1);
    else printf("%u %u %u %zu %zu\n", r.version, r.epoch, r.digests, r.key_start, r.key_start + r.key_length);
}

static void history(void) {
    struct noonhaggle_history r = noonhaggle_check_history(field[0], length[0], field[1], length[1], field[2], length[2]);
    if (r.number != 0) refused(r.number, 1);
    else printf("%u %u %u\n", r.versions, r.epoch, r.digests);
}

static void audit(void) {
    struct noonhaggle_audit r = noonhaggle_check_audit(field[0], length[0], field[1], length[1], field[2], length[2]);
    if (r.number != 0) refused(r.number, 1);
    else printf("%u %u %u\n", r.old_epoch, r.new_epoch, r.digests);
}

static void start(size_t n) {
    struct noonhaggle_published r = noonhaggle_start(field[0], length[0]);
    if (r.number != 0) {
        refused(r.number, memcmp(request, before, n) == 0 && r.count == 0 && r.epoch == 0);
        return;
    }
    printf("%u %u ", r.count, r.epoch);
    print_bytes(field[0], length[0]);
    printf("\n");
}

static void publish(size_t n) {
    uint32_t count = number(field[2]), epoch = number(field[3]);
    struct noonhaggle_published r = noonhaggle_publish(field[0], length[0], field[1], length[1], count, epoch, field[4], length[4]);
    if (r.number != 0) {
        refused(r.number, memcmp(request, before, n) == 0 && r.count == count && r.epoch == epoch);
        return;
    }
    printf("%u %u ", r.count, r.epoch);
    print_bytes(field[0], length[0]);
    printf(" ");
    print_bytes(field[1], length[1]);
    printf("\n");
}

static struct noonhaggle_written write_proof(int call, uint32_t count, uint32_t epoch, size_t room) {
    uint8_t *to = room == 0 ? NULL : out;
    if (call == 14) return noonhaggle_write_audit(field[0], length[0], field[1], length[1], count, epoch, number(field[4]), to, room);
    uint32_t at = number(field[5]);
    if (call == 12) return noonhaggle_write_lookup(field[0], length[0], field[1], length[1], count, epoch, field[4], length[4], at, to, room);
    return noonhaggle_write_history(field[0], length[0], field[1], length[1], count, epoch, field[4], length[4], at, to, room);
}

/* the output holds a pattern before, of which nothing may change on a refusal, and on success only the proof's bytes */
static int patterned(size_t from) {
    for (size_t i = from; i < sizeof out; i++)
        if (out[i] != (uint8_t)(i * 7 + 1)) return 0;
    return 1;
}

static void writer(int call, int fields, size_t n) {
    uint32_t count = number(field[2]), epoch = number(field[3]);
    size_t room = number(field[fields - 1]);
    if (room > sizeof out) {
        printf("bad\n");
        return;
    }
    for (size_t i = 0; i < sizeof out; i++) out[i] = (uint8_t)(i * 7 + 1);
    struct noonhaggle_written r = write_proof(call, count, epoch, room);
    int kept = memcmp(request, before, n) == 0 && r.count == count && r.epoch == epoch && patterned(r.length);
    if (r.number != 0) {
        refused(r.number, kept && r.length == 0);
        return;
    }
    print_bytes(out, r.length);
    printf(kept ? "\n" : " and wrote more\n");
}

static void answer(int call, int fields, size_t n) {
    if (call == 1 && fields == 1) {
        struct noonhaggle_digest d = noonhaggle_sha256(field[0], length[0]);
        print_bytes(d.bytes, 32);
        printf("\n");
    } else if (call == 4 && fields == 3) lookup();
    else if (call == 5 && fields == 3) history();
    else if (call == 6 && fields == 3) audit();
    else if (call == 10 && fields == 1) start(n);
    else if (call == 11 && fields == 5 && numbers(2, 4)) publish(n);
    else if ((call == 12 || call == 13) && fields == 7 && numbers(2, 4) && numbers(5, 7)) writer(call, fields, n);
    else if (call == 14 && fields == 6 && numbers(2, 6)) writer(call, fields, n);
    else printf("bad\n");
}

int main(void) {
    uint8_t size[4];
    while (read_full(size, 4) == 4) {
        size_t n = number(size);
        if (n == 0 || n > MOST || read_full(request, n) != n) return 1;
        memcpy(before, request, n);
        int fields = split(n);
        if (fields < 0) printf("bad\n");
        else answer(request[0], fields, n);
    }
    return 0;
}
