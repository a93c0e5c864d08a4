/* The head in a main loop: a thousand ticks with simulated transducers, a contact at the gate and a master whose telegrams stop
 * half-way.
 *
 *     (cd crates/capi && rt lib)
 *     gcc -Iinclude examples/c/main.c -Lcrates/capi/out -lcapi
 */
#include <inttypes.h>
#include <stdio.h>
#include <string.h>

#include "serkoviu.h"

static uint32_t bits_of(float value)
{
    uint32_t bits;
    memcpy(&bits, &value, sizeof bits);
    return bits;
}

static float float_of(uint32_t bits)
{
    float value;
    memcpy(&value, &bits, sizeof value);
    return value;
}

/* Writes a parameter and says so if it is refused. */
static void set(serkoviu_device *device, uint8_t block, uint8_t parameter, uint32_t first, uint32_t second)
{
    uint8_t answer = serkoviu_write(device, block, parameter, first, second);
    if (answer != SERKOVIU_ACCEPTED) {
        printf("write %u %u: refused %u\n", block, parameter, answer);
    }
}

/* A setpoint, Good, as the bus carries it: highest byte first, then the status. */
static void send_setpoint(serkoviu_device *device, float value)
{
    uint32_t bits = bits_of(value);
    uint8_t bytes[SERKOVIU_TELEGRAM_BYTES] = {(uint8_t)(bits >> 24), (uint8_t)(bits >> 16), (uint8_t)(bits >> 8),
                                              (uint8_t)bits, SERKOVIU_STATUS_GOOD};
    uint8_t answer = serkoviu_telegram(device, SERKOVIU_SP, bytes, sizeof bytes);
    if (answer != SERKOVIU_ACCEPTED) {
        printf("telegram: refused %u\n", answer);
    }
}

/* Opens or closes the sluice: two bytes. */
static void send_gate(serkoviu_device *device, uint8_t value)
{
    uint8_t bytes[SERKOVIU_TELEGRAM_D_BYTES] = {value, SERKOVIU_STATUS_GOOD};
    uint8_t answer = serkoviu_telegram(device, SERKOVIU_SP_D, bytes, sizeof bytes);
    if (answer != SERKOVIU_ACCEPTED) {
        printf("telegram: refused %u\n", answer);
    }
}

/* AIN's table: the weir's discharge over the stage, both as currents of 4 to 20 mA. x, then y, highest byte first. */
static void load_table(serkoviu_device *device)
{
    const float pairs[][2] = {{4.0f, 4.0f}, {12.0f, 6.0f}, {20.0f, 20.0f}};
    uint8_t bytes[sizeof pairs / sizeof pairs[0] * SERKOVIU_TABLE_PAIR_BYTES];
    for (size_t i = 0; i < sizeof bytes; i++) {
        uint32_t bits = bits_of(pairs[i / 8][i / 4 % 2]);
        bytes[i] = (uint8_t)(bits >> (24 - 8 * (i % 4)));
    }
    uint8_t answer = serkoviu_load(device, bytes, sizeof bytes);
    if (answer != SERKOVIU_ACCEPTED) {
        printf("load: refused %u\n", answer);
    }
}

static void print_value(const serkoviu_device *device, const char *name, uint8_t block, uint8_t parameter)
{
    serkoviu_reading reading = serkoviu_read(device, block, parameter);
    printf("%s %g, status 0x%02" PRIX32 "\n", name, (double)float_of(reading.first), reading.second);
}

int main(void)
{
    if (serkoviu_version() != SERKOVIU_VERSION) {
        printf("header and archive are of different versions\n");
        return 1;
    }
    serkoviu_device device = serkoviu_factory();
    set(&device, SERKOVIU_AIN, SERKOVIU_AIN_PV_SCALE, bits_of(4.0f), bits_of(20.0f)); /* 4 to 20 mA */
    set(&device, SERKOVIU_AIN, SERKOVIU_AIN_LIN_TYPE, SERKOVIU_LIN_TYPE_TABLE, 0); /* there is no table yet */
    load_table(&device);
    set(&device, SERKOVIU_AIN, SERKOVIU_AIN_LIN_TYPE, SERKOVIU_LIN_TYPE_TABLE, 0);
    set(&device, SERKOVIU_AIN, SERKOVIU_AIN_HI_LIM, bits_of(80.0f), 0);
    set(&device, SERKOVIU_AO, SERKOVIU_AO_FSAFE_TIME, 20, 0); /* 2 s */
    set(&device, SERKOVIU_AO, SERKOVIU_AO_FSAFE_TYPE, SERKOVIU_FSAFE_TYPE_VALUE, 0);
    set(&device, SERKOVIU_AO, SERKOVIU_AO_FSAFE_VALUE, bits_of(25.0f), 0);
    set(&device, SERKOVIU_DO, SERKOVIU_DO_FSAFE_TIME, 20, 0);
    set(&device, SERKOVIU_DO, SERKOVIU_DO_FSAFE_TYPE, SERKOVIU_FSAFE_TYPE_SAFE, 0);
    set(&device, SERKOVIU_DI, SERKOVIU_DI_INVERT, SERKOVIU_INVERT_ON, 0); /* the contact opens as the gate does */
    set(&device, SERKOVIU_AIN, SERKOVIU_AIN_ST_REV, 0, 0); /* can only be read */

    unsigned high = 0;
    unsigned followed = 0;
    unsigned fail_safe = 0;
    unsigned safe = 0;
    float position = 0.0f;
    uint8_t gate = 0;
    for (unsigned i = 0; i < 1000; i++) {
        if (i % 10 == 0 && i <= 500) {
            send_setpoint(&device, (float)(i / 10));
            send_gate(&device, i >= 250);
        }
        serkoviu_pair ain = {bits_of(4.0f + (float)(i % 128) * 0.125f), SERKOVIU_STATUS_GOOD};
        serkoviu_pair tot = {bits_of(0.015625f), SERKOVIU_STATUS_GOOD};
        serkoviu_discrete di = {gate == 0, SERKOVIU_STATUS_GOOD};
        serkoviu_orders orders = serkoviu_tick(&device, false, ain, tot, di);
        switch (orders.ao.kind) {
        case SERKOVIU_POSITION:
            position = orders.ao.value;
            break;
        default:
            printf("tick %u: order of kind %u\n", i, orders.ao.kind);
            break;
        }
        switch (orders.dout.kind) {
        case SERKOVIU_POSITION:
            gate = orders.dout.value;
            break;
        default:
            safe++; /* the drive's own safe position, here where it stands */
            break;
        }
        uint32_t alarms = serkoviu_read(&device, SERKOVIU_AIN, SERKOVIU_AIN_ALARMS).first;
        uint32_t status = serkoviu_read(&device, SERKOVIU_AO, SERKOVIU_AO_OUT).second;
        high += (alarms & SERKOVIU_ALARM_HI) != 0;
        followed += status == SERKOVIU_STATUS_GOOD;
        fail_safe += status == SERKOVIU_STATUS_UNCERTAIN_SUBSTITUTE;
    }

    print_value(&device, "AIN", SERKOVIU_AIN, SERKOVIU_AIN_OUT);
    print_value(&device, "TOT", SERKOVIU_TOT, SERKOVIU_TOT_TOTAL);
    print_value(&device, "AO", SERKOVIU_AO, SERKOVIU_AO_OUT);
    printf("HI stood in %u ticks\n", high);
    printf("AO followed the setpoint in %u ticks, was in fail-safe in %u, last position %g\n", followed, fail_safe,
           (double)position);
    serkoviu_reading contact = serkoviu_read(&device, SERKOVIU_DI, SERKOVIU_DI_OUT_D);
    printf("the gate is at %u, its contact says %" PRIu32 ", status 0x%02" PRIX32 "; the sluice was in Safe in %u ticks\n", gate,
           contact.first, contact.second, safe);
    printf("total %" PRId64 "\n", serkoviu_total(&device));

    uint8_t image[SERKOVIU_IMAGE_BYTES];
    printf("image %u:", serkoviu_image(&device, image, sizeof image));
    for (size_t i = 0; i < sizeof image; i++) {
        printf(" %02X", image[i]);
    }
    printf("\n");
    serkoviu_warm_start(&device);
    print_value(&device, "after a warm start AIN", SERKOVIU_AIN, SERKOVIU_AIN_OUT);
    return 0;
}
