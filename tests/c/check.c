/*
 * The checking program, in C over the archive: head 32, name length 1, name, lookup proof on standard input; the line that document 01
 * asks for, and behind an accepted one the key in hexadecimal digits.
 */
#include "noonhaggle.h"

/* the C library's, declared here so that the program builds without its headers */
int printf(const char *format, ...);
long read(int file, void *to, size_t most);

enum { MOST = 65536 };

static uint8_t input[MOST + 1];

static size_t read_all(void) {
    size_t n = 0;
    while (n < sizeof input) {
        long got = read(0, input + n, sizeof input - n);
        if (got <= 0) break;
        n += (size_t)got;
    }
    return n;
}

static int refused(unsigned number) {
    printf("refused %u\n", number);
    return 0;
}

int main(void) {
    size_t n = read_all();
    if (n > MOST || n < 33 || n < 33 + (size_t)input[32]) return refused(NOONHAGGLE_INPUT);
    size_t name_length = input[32];
    const uint8_t *proof = input + 33 + name_length;
    struct noonhaggle_lookup r = noonhaggle_check_lookup(input, 32, input + 33, name_length, proof, n - 33 - name_length);
    if (r.number != 0) return refused(r.number);
    printf("version %u epoch %u digests %u\n", r.version, r.epoch, r.digests);
    for (size_t i = 0; i < r.key_length; i++) printf("%02x", proof[r.key_start + i]);
    printf("\n");
    return 0;
}
