/* A head that outlives a loss of power: it is saved in two slots in turn, cut off in the middle of a save, restored from
 * the slot that is whole, warm started, and goes on. docs/embedding.md says what to save and when.
 *
 *     (cd crates/capi && rt lib)
 *     gcc -Iinclude examples/c/power.c -Lcrates/capi/out -lcapi
 *
 * Beside each step stands what it has to print and why. */
#include <inttypes.h>
#include <stdio.h>
#include <string.h>

#include "serkoviu.h"

/* A slot: a counter, the packed device, and the CRC-32 of both, which is written last. */
#define COUNTER_AT 0
#define DEVICE_AT 4
#define CRC_AT (DEVICE_AT + SERKOVIU_PACKED_BYTES)
#define SLOT_BYTES (CRC_AT + 4)

/* Stands for a memory that keeps its bytes without power; erased bytes are 0xFF. */
static uint8_t memory[2][SLOT_BYTES];

static void put_word(uint8_t *at, uint32_t word)
{
    for (int i = 0; i < 4; i++) {
        at[i] = (uint8_t)(word >> (24 - 8 * i));
    }
}

static uint32_t word_at(const uint8_t *at)
{
    return (uint32_t)at[0] << 24 | (uint32_t)at[1] << 16 | (uint32_t)at[2] << 8 | at[3];
}

/* CRC-32 as in Ethernet: polynomial 0x04C11DB7, lowest bit first. */
static uint32_t crc_32(const uint8_t *bytes, size_t length)
{
    uint32_t crc = 0xFFFFFFFFu;
    for (size_t i = 0; i < length; i++) {
        crc ^= bytes[i];
        for (int bit = 0; bit < 8; bit++) {
            crc = crc >> 1 ^ (crc & 1 ? 0xEDB88320u : 0);
        }
    }
    return ~crc;
}

static bool whole(const uint8_t *slot)
{
    return word_at(slot + CRC_AT) == crc_32(slot, CRC_AT);
}

/* The slot that is whole and was saved last, -1 if none is whole. The counter may run over: of two saves in a row the
 * later one is ahead of the other. */
static int newest(void)
{
    if (whole(memory[0]) && whole(memory[1])) {
        return (int32_t)(word_at(memory[1]) - word_at(memory[0])) > 0;
    }
    return whole(memory[0]) ? 0 : whole(memory[1]) ? 1 : -1;
}

/* Saves into the slot that is not the newest, so that one good slot is left whatever happens; the power fails after
 * `most` bytes. Gives the slot. */
static int save(const serkoviu_device *device, size_t most)
{
    int old = newest();
    int slot = old == 0;
    uint8_t bytes[SLOT_BYTES];
    put_word(bytes + COUNTER_AT, old < 0 ? 1 : word_at(memory[old]) + 1);
    serkoviu_pack(device, bytes + DEVICE_AT, SERKOVIU_PACKED_BYTES);
    put_word(bytes + CRC_AT, crc_32(bytes, CRC_AT));
    memcpy(memory[slot], bytes, most < SLOT_BYTES ? most : SLOT_BYTES);
    return slot;
}

/* The device of the newest slot, else of the other one, else a fresh one (a refused call leaves it as it was); then a
 * warm start: telegrams, alarms and the filter are of a time before the loss. Gives the slot, or -1. */
static int restore(serkoviu_device *device)
{
    *device = serkoviu_factory();
    int slot = newest();
    if (slot >= 0 && serkoviu_unpack(device, memory[slot] + DEVICE_AT, SERKOVIU_PACKED_BYTES) != SERKOVIU_ACCEPTED) {
        slot = 1 - slot;
        if (!whole(memory[slot]) ||
            serkoviu_unpack(device, memory[slot] + DEVICE_AT, SERKOVIU_PACKED_BYTES) != SERKOVIU_ACCEPTED) {
            slot = -1;
        }
    }
    serkoviu_warm_start(device);
    return slot;
}

static uint32_t bits_of(float value)
{
    uint32_t bits;
    memcpy(&bits, &value, sizeof bits);
    return bits;
}

static float float_of(uint32_t bits)
{
    float value;
    memcpy(&value, &bits, sizeof value);
    return value;
}

static void send_setpoint(serkoviu_device *device, float value)
{
    uint8_t bytes[SERKOVIU_TELEGRAM_BYTES];
    put_word(bytes, bits_of(value));
    bytes[4] = SERKOVIU_STATUS_GOOD;
    serkoviu_telegram(device, SERKOVIU_SP, bytes, sizeof bytes);
}

/* AIN by the table (0, 0) (100, 50), which makes 25 of the stage 50: two static writes. */
static void use_table(serkoviu_device *device)
{
    uint8_t bytes[2 * SERKOVIU_TABLE_PAIR_BYTES] = {0};
    put_word(bytes + SERKOVIU_TABLE_PAIR_BYTES, bits_of(100.0f));
    put_word(bytes + SERKOVIU_TABLE_PAIR_BYTES + 4, bits_of(50.0f));
    serkoviu_load(device, bytes, sizeof bytes);
    serkoviu_write(device, SERKOVIU_AIN, SERKOVIU_AIN_LIN_TYPE, SERKOVIU_LIN_TYPE_TABLE, 0);
}

/* Ticks with stage 50 and rate 1, both Good: each adds 1 x 100 thousandths to the total. */
static void run(serkoviu_device *device, int ticks)
{
    serkoviu_pair stage = {bits_of(50.0f), SERKOVIU_STATUS_GOOD};
    serkoviu_pair rate = {bits_of(1.0f), SERKOVIU_STATUS_GOOD};
    serkoviu_discrete gate = {0, SERKOVIU_STATUS_GOOD};
    for (int i = 0; i < ticks; i++) {
        serkoviu_tick(device, false, stage, rate, gate);
    }
}

static void print_state(const char *when, const serkoviu_device *device)
{
    serkoviu_reading stage = serkoviu_read(device, SERKOVIU_AIN, SERKOVIU_AIN_OUT);
    serkoviu_reading out = serkoviu_read(device, SERKOVIU_AO, SERKOVIU_AO_OUT);
    serkoviu_reading limit = serkoviu_read(device, SERKOVIU_AIN, SERKOVIU_AIN_HI_LIM);
    serkoviu_reading revision = serkoviu_read(device, SERKOVIU_AIN, SERKOVIU_AIN_ST_REV);
    printf("%s: total %" PRId64 ", AIN %g, AO %g with 0x%02" PRIX32 ", HI_LIM %g, ST_REV %" PRIu32 "\n", when,
           serkoviu_total(device), (double)float_of(stage.first), (double)float_of(out.first), out.second,
           (double)float_of(limit.first), revision.first);
}

int main(void)
{
    serkoviu_device device;

    /* Nothing was saved, and erased bytes are no whole slot: a fresh device. Total and outputs are 0, status 0x1F (out of
     * service), HI_LIM is infinite and nothing was written. */
    memset(memory, 0xFF, sizeof memory);
    printf("restored from slot %d\n", restore(&device));
    print_state("first start", &device);

    /* Three static writes to AIN, saved at once: slot 0, counter 1. FSAFE_TIME 100 lets AO follow a setpoint for 10 s. */
    serkoviu_write(&device, SERKOVIU_AIN, SERKOVIU_AIN_HI_LIM, bits_of(80.0f), 0);
    use_table(&device);
    serkoviu_write(&device, SERKOVIU_AO, SERKOVIU_AO_FSAFE_TIME, 100, 0);
    printf("saved in slot %d\n", save(&device, SLOT_BYTES));

    /* Ten ticks add 1000; the setpoint 75 is 75 by the factory's scales. Saved in slot 1, counter 2. */
    send_setpoint(&device, 75.0f);
    run(&device, 10);
    print_state("running", &device);
    printf("saved in slot %d\n", save(&device, SLOT_BYTES));

    /* Five ticks add 500, AO is at 25. The save goes to slot 0 and is cut off after 100 of its bytes. */
    send_setpoint(&device, 25.0f);
    run(&device, 5);
    print_state("running", &device);
    printf("cut off while saving in slot %d\n", save(&device, 100));

    /* Slot 0 is torn, slot 1 whole. What came after the second save is lost: 500 of the total, and AO's value is the 75
     * of that save. The writes are kept, and the table with them. A warm start makes the status 0x1F. */
    printf("restored from slot %d\n", restore(&device));
    print_state("warm started", &device);

    /* AO has no telegram since the start: by FSAFE_TYPE 1 it keeps its value, with 0x4C (initial value), and drives the
     * valve there, although it stood at 25. The next telegram is followed. Ten ticks in all add 1000. */
    run(&device, 4);
    print_state("before a telegram", &device);
    send_setpoint(&device, 25.0f);
    run(&device, 6);
    print_state("after a telegram", &device);

    /* The newest whole slot is 1, so the torn one is used again. */
    printf("saved in slot %d\n", save(&device, SLOT_BYTES));

    /* A save of total 2500 into slot 1, cut off after each number of bytes short of all: the total is then 2000, that of
     * slot 0. */
    run(&device, 5);
    uint8_t before[2][SLOT_BYTES];
    memcpy(before, memory, sizeof memory);
    unsigned kept = 0;
    for (size_t most = 0; most < SLOT_BYTES; most++) {
        serkoviu_device other;
        save(&device, most);
        kept += restore(&other) == 0 && serkoviu_total(&other) == 2000;
        memcpy(memory, before, sizeof memory);
    }
    printf("cut off at %u of %u places: restored from slot 0\n", kept, (unsigned)SLOT_BYTES);

    /* Slot 1 is whole and newer, but of a form that this archive does not have: it is refused, and slot 0 is used. */
    save(&device, SLOT_BYTES);
    put_word(memory[1] + DEVICE_AT, SERKOVIU_LAYOUT_VERSION + 1);
    put_word(memory[1] + CRC_AT, crc_32(memory[1], CRC_AT));
    printf("slot %d is the newest, ", newest());
    printf("restored from slot %d\n", restore(&device));
    return 0;
}
