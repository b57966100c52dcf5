/* Calls each function of bindings/c/zlatopysk.h once or twice and prints what it answers, so that the header is
   tried and not only read. tests/library compares it with tests/header.expected. */
#include <stdio.h>
#include <string.h>

#include "zlatopysk.h"

enum { SIZE = 4096 };

static const uint8_t text[] = "@10\n01 02\nq\n";
static uint8_t password[256], region[SIZE], trial[SIZE], known[SIZE / 8], script[400], reply[64];
static uint8_t record[ZLATOPYSK_RECORD], bytes[64];
static const uint8_t version[3] = {6, 2, 11};

static void show(const char *name, struct zlatopysk_answer a) {
    printf("%s: refusal %u place %u count %u\n", name, (unsigned)a.refusal, (unsigned)a.place, (unsigned)a.count);
}

static void show_check(const char *name, struct zlatopysk_checked c) {
    printf("%s: refusal %u place %u packets %u unknown %u\n", name, (unsigned)c.refusal, (unsigned)c.place,
           (unsigned)c.packets, (unsigned)c.unknown);
}

static void show_bytes(const uint8_t *from, size_t n) {
    for (size_t i = 0; i < n; i++) printf(" %02x", from[i]);
    printf("\n");
}

/* One message to a card, and the mode behind it. */
static uint8_t send(const char *name, uint8_t mode, const uint8_t *message, size_t n) {
    struct zlatopysk_called c;
    zlatopysk_call(mode, 0, version, record, SIZE, region, SIZE, password, sizeof password, message, n, reply,
                   sizeof reply, &c);
    printf("%s: refusal %u success %u mode %u reply", name, (unsigned)c.refusal, (unsigned)c.success,
           (unsigned)c.mode);
    show_bytes(reply, c.count);
    return (uint8_t)c.mode;
}

static void try_record(void) {
    struct zlatopysk_answer a;
    memset(record, 0, sizeof record);
    record[ZLATOPYSK_SENSORS_INLET] = 0xFE;
    record[ZLATOPYSK_SENSORS_INPUT_12V + ZLATOPYSK_INPUT_CURRENT] = 0x10;
    record[ZLATOPYSK_SENSORS_INPUT_12V + ZLATOPYSK_INPUT_CURRENT + 1] = 0x27;
    record[ZLATOPYSK_DEVICE2 + ZLATOPYSK_DEVICE_FPGA_TEMPERATURE] = 35;
    zlatopysk_write_record(record, bytes, sizeof bytes, &a);
    show("write_record", a);
    show_bytes(bytes, sizeof bytes);
    memset(record, 0xEE, sizeof record);
    zlatopysk_read_record(bytes, sizeof bytes, record, &a);
    show("read_record", a);
    printf("inlet %d, current %u, FPGA of device 2 %u\n", (int8_t)record[ZLATOPYSK_SENSORS_INLET],
           record[ZLATOPYSK_SENSORS_INPUT_12V] + 256u * record[ZLATOPYSK_SENSORS_INPUT_12V + 1],
           record[ZLATOPYSK_DEVICE2 + ZLATOPYSK_DEVICE_FPGA_TEMPERATURE]);
    zlatopysk_read_record(bytes, 63, record, &a);
    show("read_record of 63 bytes", a);
}

/* The checksum of the whole region. */
static uint16_t region_checksum(void) { return zlatopysk_checksum(ZLATOPYSK_CHECKSUM_START, region, SIZE); }

/* The nine digits at once, from another start, in two parts with one empty, and joined from the checksums of two. */
static void try_checksum(void) {
    const uint8_t *digits = (const uint8_t *)"123456789";
    uint16_t first = zlatopysk_checksum(ZLATOPYSK_CHECKSUM_START, digits, 4);
    uint16_t second = zlatopysk_checksum(ZLATOPYSK_CHECKSUM_START, digits + 4, 5);
    printf("checksum: %04x\n", zlatopysk_checksum(ZLATOPYSK_CHECKSUM_START, digits, 9));
    printf("checksum from 0: %04x\n", zlatopysk_checksum(0, digits, 9));
    printf("checksum from 1234 over nothing: %04x\n", zlatopysk_checksum(0x1234, digits, 0));
    printf("checksum continued: %04x\n", zlatopysk_checksum(first, digits + 4, 5));
    printf("joined: %04x\n", zlatopysk_joined(first, second, 5));
    printf("joined with nothing behind: %04x, before: %04x\n", zlatopysk_joined(first, ZLATOPYSK_CHECKSUM_START, 0),
           zlatopysk_joined(ZLATOPYSK_CHECKSUM_START, second, 5));
}

/* A check of the script's first bytes, and the trial region's bytes at an address and their known bits then. */
static void check(const char *name, size_t n, size_t known_n) {
    struct zlatopysk_checked c;
    zlatopysk_check(script, n, text, sizeof text - 1, password, sizeof password, region_checksum(), SIZE, trial, SIZE,
                    known, known_n, &c);
    show_check(name, c);
    printf("at 0x10:");
    show_bytes(trial + 16, 4);
    printf("known from 0x10 on:");
    show_bytes(known + 2, 1);
}

/* Checks of a script of so many bytes: whole, without the start, its head alone, and with too few known bits. */
static void try_check(size_t n) {
    check("check", n, sizeof known);
    check("check of all but the start", n - 10, sizeof known);
    check("check of the head", 5, sizeof known);
    check("check with fewer known bits", n, sizeof known - 1);
}

/* A message cut at a place, and the region's bytes at an address then. */
static void cut(const char *name, size_t secret, const uint8_t *message, size_t n, size_t place, size_t address) {
    struct zlatopysk_answer a;
    zlatopysk_cut(ZLATOPYSK_UNLOCKED, 0, version, record, SIZE, region, SIZE, password, secret, message, n, place, &a);
    show(name, a);
    printf("at 0x%02x:", (unsigned)address);
    show_bytes(region + address, 4);
}

/* A restart of an unlocked card that expects a checksum. */
static void restart(const char *name, uint16_t expected, size_t size) {
    struct zlatopysk_restarted r;
    zlatopysk_restart(ZLATOPYSK_UNLOCKED, expected, version, record, size, region, SIZE, &r);
    printf("%s: refusal %u mode %u\n", name, (unsigned)r.refusal, (unsigned)r.mode);
}

/* The script's erase stands at 267 and its write of two bytes to address 16, a message of 12 bytes, behind it. */
static void try_mains(void) {
    struct zlatopysk_answer a;
    const uint8_t *erase = script + 267, *write = script + 273;
    memset(region, 0x12, SIZE);
    cut("erase cut before it", sizeof password, erase, 6, 0, 0x0f);
    cut("erase cut beyond its work", sizeof password, erase, 6, 2, 0x0f);
    cut("erase cut behind its block", sizeof password, erase, 6, 1, 0x0f);
    cut("write cut before it", sizeof password, write, 12, 0, 0x0f);
    cut("write cut inside", sizeof password, write, 12, 1, 0x0f);
    cut("write cut behind it", sizeof password, write, 12, 2, 0x0f);
    cut("write cut beyond its work", sizeof password, write, 12, 3, 0x0f);
    cut("password of 255 bytes", 255, write, 12, 3, 0x0f);
    zlatopysk_cut(ZLATOPYSK_LOCKED, 0, version, record, SIZE + 1, region, SIZE, password, 255, write, 12, 3, &a);
    show("cut with a bad size", a);
    restart("restart over the expected checksum", region_checksum(), SIZE);
    restart("restart over another", (uint16_t)~region_checksum(), SIZE);
    restart("restart with a bad size", region_checksum(), SIZE + 1);
}

int main(void) {
    struct zlatopysk_answer a;
    memset(password, 0xFF, sizeof password);
    try_checksum();
    printf("total_power: %u\n", zlatopysk_total_power(9584, 10000));
    zlatopysk_read(text, sizeof text - 1, SIZE, region, SIZE, &a);
    show("read", a);
    printf("at 0x0f:");
    show_bytes(region + 15, 4);
    zlatopysk_plan(text, sizeof text - 1, password, sizeof password, 0x201, SIZE, script, sizeof script, &a);
    show("plan", a);
    try_check(a.count);
    try_record();
    uint8_t mode = send("version", ZLATOPYSK_APPLICATION, (const uint8_t *)"\x04", 1);
    mode = send("temperature", mode, (const uint8_t *)"\x05", 1);
    mode = send("loader", mode, (const uint8_t *)"\x32", 1);
    mode = send("erase", mode, (const uint8_t *)"\x80\x01\x00\x15\x64\xA3", 6);
    mode = send("password", mode, script + 5, 262);
    mode = send("erase", mode, script + 267, 6);
    try_mains();
    return 0;
}
