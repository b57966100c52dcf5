/* Checks a script file against a firmware text file, for a region of 262,144 bytes and a password of 256 bytes 0xFF,
   and prints the answer. From the repository's root:
   cc -std=c99 -Ibindings/c -o target/example bindings/c/example.c target/staticlib/libzlatopysk.a
   target/example SCRIPT TEXT */
#include <stdio.h>
#include <stdlib.h>
#include <string.h>

#include "zlatopysk.h"

enum { SIZE = 262144, SECRET = 256, LONGEST = 2097153 };

static uint8_t script[LONGEST], text[LONGEST], password[SECRET], region[SIZE], known[SIZE / 8];

/* the bytes of a file, and one more than the library takes at most where it has more */
static size_t read_file(const char *path, uint8_t *bytes) {
    FILE *file = fopen(path, "rb");
    if (!file) {
        perror(path);
        exit(1);
    }
    size_t n = fread(bytes, 1, LONGEST, file);
    fclose(file);
    return n;
}

static void print_refusal(uint64_t refusal, uint64_t place) {
    printf("refusal %llu at %llu", (unsigned long long)refusal, (unsigned long long)place);
}

static int print_answer(const struct zlatopysk_checked *checked) {
    if (checked->refusal)
        print_refusal(checked->refusal, checked->place);
    else
        printf("passed");
    printf(", %llu packets", (unsigned long long)checked->packets);
    if (checked->unknown) printf(", %llu bytes still unknown", (unsigned long long)checked->unknown);
    printf("\n");
    return checked->refusal != 0;
}

int main(int count, char **words) {
    struct zlatopysk_answer answer;
    struct zlatopysk_checked checked;
    if (count != 3) {
        fprintf(stderr, "usage: example SCRIPT TEXT\n");
        return 2;
    }
    size_t script_n = read_file(words[1], script), text_n = read_file(words[2], text);
    memset(password, 0xFF, SECRET);

    /* the checksum that the card must expect is that of the text's picture */
    zlatopysk_read(text, text_n, SIZE, region, SIZE, &answer);
    if (answer.refusal) {
        print_refusal(answer.refusal, answer.place);
        printf("\n");
        return 1;
    }
    uint16_t expected = zlatopysk_checksum(ZLATOPYSK_CHECKSUM_START, region, SIZE);

    zlatopysk_check(script, script_n, text, text_n, password, SECRET, expected, SIZE, region, SIZE, known, sizeof known,
                    &checked);
    return print_answer(&checked);
}
