/* The public functions of documents 01 and 02, and one to join checksums, in target/staticlib/libzlatopysk.a, which
   bindings/build makes for Linux on x86-64. Each is proved: it answers and leaves what crates/zlatopysk
   says, for every input, reads and writes nothing but what it is lent, and returns.

   Bytes are lent as a pointer and then their number. A pointer is never null, not even with the number 0. Memory that
   a function writes to (a pointer that is not const) overlaps nothing else that is lent to the same call. Bytes need no
   alignment, a struct the one that C gives it.

   No function keeps any state: calls from several threads may run at the same time, if none writes to memory that
   another uses. A call that refuses changes no byte but the answer's, except the checker's region and known bits,
   which refusals 7 to 12 fill and leave as the run ended. */
#ifndef ZLATOPYSK_H
#define ZLATOPYSK_H

#include <stddef.h>
#include <stdint.h>

#ifdef __cplusplus
extern "C" {
#endif

/* An answer: the refusal's number in documents 01 and 02, or 0 for none, which is no refusal's number (nor is 9, which
   is unused); the refusal's place, 0 where they name none; and a count. 24 bytes. */
struct zlatopysk_answer {
    uint64_t refusal, place, count;
};

/* A check's answer: the refusal's number, or 0 for none; its place; how many packets succeeded; and how many bytes of
   the region are still unknown at the end of the run, 0 on pass and for a refusal other than 7 to 12. 32 bytes. */
struct zlatopysk_checked {
    uint64_t refusal, place, packets, unknown;
};

/* A call's answer: the refusal's number, or 0 for none; how many bytes the reply has; 1 if it is document 01's
   success, else 0; and the card's mode behind the call. 32 bytes. */
struct zlatopysk_called {
    uint64_t refusal, count, success, mode;
};

/* A restart's answer: the refusal's number, or 0 for none; and the card's mode then. 16 bytes. */
struct zlatopysk_restarted {
    uint64_t refusal, mode;
};

/* The modes of a card. Any other number counts as locked. */
enum { ZLATOPYSK_APPLICATION = 0, ZLATOPYSK_LOCKED = 1, ZLATOPYSK_UNLOCKED = 2 };

/* The values of a sensor record (source document 004), each in its own number of bytes, low byte first, temperatures
   as their two's complement byte. Below is where each begins. A value may be too big for its bits in the card's own
   record of 64 bytes; it breaks the record's rule then. */
enum {
    /* board status information, a byte each: four counts of events, 0 to 15, three bits, and flash writes */
    ZLATOPYSK_STATUS_TCRIT = 0,
    ZLATOPYSK_STATUS_POWER_GOOD = 1,
    ZLATOPYSK_STATUS_TWARN = 2,
    ZLATOPYSK_STATUS_HBM_CATTRIP = 3,
    ZLATOPYSK_STATUS_MODULE0_PRESENT = 4,
    ZLATOPYSK_STATUS_MODULE1_PRESENT = 5,
    ZLATOPYSK_STATUS_AUX_CABLE = 6,
    ZLATOPYSK_STATUS_FLASH_WRITES = 7,

    /* board security status information, a byte each */
    ZLATOPYSK_SECURITY_SPI_DEVICE = 8,
    ZLATOPYSK_SECURITY_FLASH1 = 9,
    ZLATOPYSK_SECURITY_FLASH2 = 12,
    ZLATOPYSK_SECURITY_AUTHENTICATION = 15,
    ZLATOPYSK_SECURITY_JTAG = 16,
    /* behind the first byte of a flash's control */
    ZLATOPYSK_FLASH_RECOVERY = 0,
    ZLATOPYSK_FLASH_MODE = 1,
    ZLATOPYSK_FLASH_WRITE_ENABLE = 2,

    /* the board's sensors: two temperatures of a byte, three inputs, and total power of two bytes */
    ZLATOPYSK_SENSORS_INLET = 17,
    ZLATOPYSK_SENSORS_OUTLET = 18,
    ZLATOPYSK_SENSORS_INPUT_3V3 = 19,
    ZLATOPYSK_SENSORS_INPUT_12V = 23,
    ZLATOPYSK_SENSORS_INPUT_AUX = 27,
    ZLATOPYSK_SENSORS_TOTAL_POWER = 31,
    /* behind the first byte of an input, two bytes each */
    ZLATOPYSK_INPUT_CURRENT = 0,
    ZLATOPYSK_INPUT_VOLTAGE = 2,

    ZLATOPYSK_DEVICE1 = 33,
    ZLATOPYSK_DEVICE2 = 50,
    /* behind the first byte of a device: its status and two temperatures of a byte each, three counters of two bytes,
       and one of four */
    ZLATOPYSK_DEVICE_DONE = 0,
    ZLATOPYSK_DEVICE_INIT_B = 1,
    ZLATOPYSK_DEVICE_ERROR_OUT = 2,
    ZLATOPYSK_DEVICE_ERROR_STATUS = 3,
    ZLATOPYSK_DEVICE_KEEP_ALIVE = 4,
    ZLATOPYSK_DEVICE_FPGA_TEMPERATURE = 5,
    ZLATOPYSK_DEVICE_HBM_TEMPERATURE = 6,
    ZLATOPYSK_DEVICE_DDR_UNCORRECTABLE = 7,
    ZLATOPYSK_DEVICE_DDR_CORRECTABLE = 9,
    ZLATOPYSK_DEVICE_PCIE_UNCORRECTABLE = 11,
    ZLATOPYSK_DEVICE_PCIE_CORRECTABLE = 13,

    ZLATOPYSK_MODULE0 = 67,
    ZLATOPYSK_MODULE1 = 77,
    /* behind the first byte of a network module, a byte each */
    ZLATOPYSK_MODULE_TEMPERATURE = 0,
    ZLATOPYSK_MODULE_PRESENT = 1,
    ZLATOPYSK_MODULE_INTERRUPT = 2,
    ZLATOPYSK_MODULE_LOW_POWER = 3,
    ZLATOPYSK_MODULE_RATE_SELECT = 4,
    ZLATOPYSK_MODULE_RX_LOSS = 5,
    ZLATOPYSK_MODULE_TX_DISABLE = 6,
    ZLATOPYSK_MODULE_TX_FAULT = 7,
    ZLATOPYSK_MODULE_POWER_ENABLE = 8,
    ZLATOPYSK_MODULE_OVER_CURRENT = 9,

    /* how many bytes there are */
    ZLATOPYSK_RECORD = 87
};

/* The register that every checksum of the papers starts from. */
enum { ZLATOPYSK_CHECKSUM_START = 0xFFFF };

/* The register of CRC16-CCITT from a start over bytes. With the start ZLATOPYSK_CHECKSUM_START it is their checksum;
   with the register over earlier bytes it is the register over the earlier bytes and these behind them. */
uint16_t zlatopysk_checksum(uint16_t start, const uint8_t *bytes, size_t bytes_n);

/* The checksum of joined bytes, from the checksums of the two parts, both from ZLATOPYSK_CHECKSUM_START, and the number
   of the second part's bytes, at most 65,535: C cuts a greater one to its low 16 bits, unasked. So a card's range
   checksums of ranges that adjoin are put together, if nobody writes its region meanwhile: beginning with
   ZLATOPYSK_CHECKSUM_START, the checksum of no bytes, each reply is joined behind those before it. */
uint16_t zlatopysk_joined(uint16_t first, uint16_t second, uint16_t count);

/* Fills a region of `size` bytes with the picture of a firmware text. The count is 0. */
void zlatopysk_read(const uint8_t *text, size_t text_n, size_t size, uint8_t *region, size_t region_n,
                    struct zlatopysk_answer *answer);

/* Writes the script that puts a firmware text into a card, over the front of the output. The count is the script's
   length. */
void zlatopysk_plan(const uint8_t *text, size_t text_n, const uint8_t *password, size_t password_n, uint32_t entry,
                    size_t size, uint8_t *out, size_t out_n, struct zlatopysk_answer *answer);

/* Says whether a script puts the image of a firmware text into every card, whatever its flash held before. It runs the
   script in a region of `size` bytes and keeps a bit for each of them in `size` / 8 bytes, the low bit of each byte
   first: 1 where the byte is known whatever the flash held, which an erase makes every byte and a write its own. An
   unknown byte stands as 0. Refusals 7 to 12 and a pass leave in both what the packets that succeeded left, and on pass
   every bit is 1; the other refusals change neither. */
void zlatopysk_check(const uint8_t *script, size_t script_n, const uint8_t *text, size_t text_n,
                     const uint8_t *password, size_t password_n, uint16_t expected, size_t size, uint8_t *region,
                     size_t region_n, uint8_t *known, size_t known_n, struct zlatopysk_checked *checked);

/* One message to a card, whose state is its mode, the checksum that it expects, its version xx.yy.zz as the bytes xx,
   yy and zz, its sensor record's values, and its flash, which is the region of `size` bytes. The reply stands over the
   front of the reply buffer. Of the state the call changes the region and the mode alone. */
void zlatopysk_call(uint8_t mode, uint16_t expected, const uint8_t version[3], const uint8_t record[ZLATOPYSK_RECORD],
                    size_t size, uint8_t *region, size_t region_n, const uint8_t *password, size_t password_n,
                    const uint8_t *message, size_t message_n, uint8_t *reply, size_t reply_n,
                    struct zlatopysk_called *called);

/* A message to a card that loses its mains at a place of the message's work: the region is left with a write's first
   `place` new bytes or an erase's first `place` blocks of 4,096 bytes, and else as it was. Any other message, and one
   that the card would refuse, is cut at place 0 alone. Of the state the cut changes the region alone; the restart
   settles the mode. Place and count are 0. */
void zlatopysk_cut(uint8_t mode, uint16_t expected, const uint8_t version[3], const uint8_t record[ZLATOPYSK_RECORD],
                   size_t size, uint8_t *region, size_t region_n, const uint8_t *password, size_t password_n,
                   const uint8_t *message, size_t message_n, size_t place, struct zlatopysk_answer *answer);

/* The mains come back: the card comes up in application if the region's checksum is the one that it expects, else
   locked. Of the state the restart changes the mode alone; a refused one answers the mode as it was, 1 (locked) for
   a number that names none. */
void zlatopysk_restart(uint8_t mode, uint16_t expected, const uint8_t version[3],
                       const uint8_t record[ZLATOPYSK_RECORD], size_t size, const uint8_t *region, size_t region_n,
                       struct zlatopysk_restarted *restarted);

/* Takes the values of a card's sensor record of 64 bytes apart. Place and count are 0. */
void zlatopysk_read_record(const uint8_t *bytes, size_t bytes_n, uint8_t record[ZLATOPYSK_RECORD],
                           struct zlatopysk_answer *answer);

/* Writes the 64 bytes of a card's sensor record over the front of the output. Place and count are 0. */
void zlatopysk_write_record(const uint8_t record[ZLATOPYSK_RECORD], uint8_t *out, size_t out_n,
                            struct zlatopysk_answer *answer);

/* Total power in watts from the raw readings of the 12 V input. */
uint16_t zlatopysk_total_power(uint16_t volts, uint16_t amps);

#ifdef __cplusplus
}
#endif

#endif
