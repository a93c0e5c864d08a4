/* Holds the codes, statuses and answers of include/serkoviu.h to what the head makes of them: they are used in calls, and
 * what a call does is compared with what the names say. Prints what is wrong, and at last how many checks were made. */
#include <math.h>
#include <stdio.h>
#include <string.h>

#include "serkoviu.h"

static unsigned made = 0;
static unsigned wrong = 0;

static void check_at(int line, bool fact, const char *what)
{
    made++;
    if (!fact) {
        wrong++;
        printf("line %d: not so: %s\n", line, what);
    }
}
#define CHECK(fact) check_at(__LINE__, fact, #fact)

static uint32_t bits_of(float value)
{
    uint32_t bits;
    memcpy(&bits, &value, sizeof bits);
    return bits;
}

/* A device with one accepted write. */
static serkoviu_device with(serkoviu_device device, uint8_t block, uint8_t parameter, uint32_t word)
{
    CHECK(serkoviu_write(&device, block, parameter, word, 0) == SERKOVIU_ACCEPTED);
    return device;
}

static serkoviu_order tick(serkoviu_device *device, float ain, uint8_t ain_status, float rate, uint8_t rate_status)
{
    serkoviu_pair first = {bits_of(ain), ain_status};
    serkoviu_pair second = {bits_of(rate), rate_status};
    serkoviu_discrete third = {0, SERKOVIU_STATUS_GOOD};
    return serkoviu_tick(device, false, first, second, third).ao;
}

static serkoviu_order good_tick(serkoviu_device *device)
{
    return tick(device, 50.0f, SERKOVIU_STATUS_GOOD, 1.0f, SERKOVIU_STATUS_GOOD);
}

static uint8_t telegram(serkoviu_device *device, uint8_t input, float value, uint8_t status)
{
    uint32_t bits = bits_of(value);
    uint8_t bytes[SERKOVIU_TELEGRAM_BYTES] = {(uint8_t)(bits >> 24), (uint8_t)(bits >> 16), (uint8_t)(bits >> 8),
                                              (uint8_t)bits, status};
    return serkoviu_telegram(device, input, bytes, sizeof bytes);
}

static bool reads(const serkoviu_device *device, uint8_t block, uint8_t parameter, uint32_t first, uint32_t second)
{
    serkoviu_reading reading = serkoviu_read(device, block, parameter);
    return reading.answer == SERKOVIU_ACCEPTED && reading.first == first && reading.second == second;
}

/* Whether an output is this value with this status. */
static bool ain_is(const serkoviu_device *device, float value, uint32_t status)
{
    return reads(device, SERKOVIU_AIN, SERKOVIU_AIN_OUT, bits_of(value), status);
}

static bool tot_is(const serkoviu_device *device, float value, uint32_t status)
{
    return reads(device, SERKOVIU_TOT, SERKOVIU_TOT_TOTAL, bits_of(value), status);
}

static bool ao_is(const serkoviu_device *device, float value, uint32_t status)
{
    return reads(device, SERKOVIU_AO, SERKOVIU_AO_OUT, bits_of(value), status);
}

static bool positioned(serkoviu_order order, float value)
{
    return order.kind == SERKOVIU_POSITION && order.value == value;
}

static void modes(void)
{
    const uint8_t targets[] = {SERKOVIU_AIN_TARGET_MODE, SERKOVIU_TOT_TARGET_MODE, SERKOVIU_AO_TARGET_MODE};
    const uint8_t actuals[] = {SERKOVIU_AIN_ACTUAL_MODE, SERKOVIU_TOT_ACTUAL_MODE, SERKOVIU_AO_ACTUAL_MODE};
    const uint8_t codes[] = {SERKOVIU_MODE_OS, SERKOVIU_MODE_MAN, SERKOVIU_MODE_AUTO, SERKOVIU_MODE_RCAS};
    for (uint8_t block = SERKOVIU_AIN; block <= SERKOVIU_AO; block++) {
        for (unsigned i = 0; i < 4; i++) {
            serkoviu_device d = serkoviu_factory();
            uint8_t answer = serkoviu_write(&d, block, targets[block - 1], codes[i], 0);
            bool lacks = codes[i] == SERKOVIU_MODE_RCAS && block != SERKOVIU_AO;
            CHECK(answer == (lacks ? SERKOVIU_WORDS_NOT_ALLOWED : SERKOVIU_ACCEPTED));
            good_tick(&d);
            CHECK(reads(&d, block, actuals[block - 1], lacks ? SERKOVIU_MODE_AUTO : codes[i], 0));
        }
    }

    /* O/S keeps the value and rests; Man gives the operator's pair, at first what was last given; Auto and RCas follow an
     * input each. */
    serkoviu_device d = serkoviu_factory();
    CHECK(telegram(&d, SERKOVIU_SP, 25.0f, SERKOVIU_QUALITY_GOOD) == SERKOVIU_ACCEPTED);
    CHECK(telegram(&d, SERKOVIU_RCAS_IN, 75.0f, SERKOVIU_QUALITY_GOOD_CASCADE) == SERKOVIU_ACCEPTED);
    CHECK(telegram(&d, SERKOVIU_RCAS_IN_D + 1, 70.0f, SERKOVIU_STATUS_GOOD) == SERKOVIU_NO_SUCH_INPUT);
    serkoviu_device by_sp = with(d, SERKOVIU_AO, SERKOVIU_AO_TARGET_MODE, SERKOVIU_MODE_AUTO);
    CHECK(positioned(good_tick(&by_sp), 25.0f) && ao_is(&by_sp, 25.0f, SERKOVIU_STATUS_GOOD));
    serkoviu_device by_rcas_in = with(d, SERKOVIU_AO, SERKOVIU_AO_TARGET_MODE, SERKOVIU_MODE_RCAS);
    CHECK(positioned(good_tick(&by_rcas_in), 75.0f) && ao_is(&by_rcas_in, 75.0f, SERKOVIU_STATUS_GOOD));
    serkoviu_device out = with(by_sp, SERKOVIU_AO, SERKOVIU_AO_TARGET_MODE, SERKOVIU_MODE_OS);
    CHECK(good_tick(&out).kind == SERKOVIU_REST && ao_is(&out, 25.0f, SERKOVIU_STATUS_BAD_OUT_OF_SERVICE));
    serkoviu_device man = with(by_sp, SERKOVIU_AO, SERKOVIU_AO_TARGET_MODE, SERKOVIU_MODE_MAN);
    CHECK(positioned(good_tick(&man), 25.0f) && ao_is(&man, 25.0f, SERKOVIU_STATUS_GOOD));
    CHECK(serkoviu_write(&man, SERKOVIU_AO, SERKOVIU_AO_OUT, bits_of(12.0f), 0x83) == SERKOVIU_ACCEPTED);
    CHECK(positioned(good_tick(&man), 12.0f) && ao_is(&man, 12.0f, 0x83));
}

/* A device after a tick with AO in another mode than Man, then after one with AO in Man. */
static serkoviu_device man_after(serkoviu_device device, uint32_t mode, uint8_t kind, float value, uint32_t status)
{
    device = with(device, SERKOVIU_AO, SERKOVIU_AO_TARGET_MODE, mode);
    CHECK(good_tick(&device).kind == kind && ao_is(&device, value, status));
    device = with(device, SERKOVIU_AO, SERKOVIU_AO_TARGET_MODE, SERKOVIU_MODE_MAN);
    CHECK(positioned(good_tick(&device), value) && ao_is(&device, value, status));
    return device;
}

static void entering_man(void)
{
    /* What was last given stands, from every other mode: 0x1F too, and out of Safe the old OUT with 0x00. */
    serkoviu_device d = with(serkoviu_factory(), SERKOVIU_AO, SERKOVIU_AO_FSAFE_TIME, 1);
    CHECK(telegram(&d, SERKOVIU_SP, 25.0f, SERKOVIU_STATUS_GOOD) == SERKOVIU_ACCEPTED);
    CHECK(telegram(&d, SERKOVIU_RCAS_IN, 75.0f, SERKOVIU_STATUS_GOOD) == SERKOVIU_ACCEPTED);
    CHECK(positioned(good_tick(&d), 25.0f));
    man_after(d, SERKOVIU_MODE_RCAS, SERKOVIU_POSITION, 75.0f, SERKOVIU_STATUS_GOOD);
    man_after(d, SERKOVIU_MODE_OS, SERKOVIU_REST, 25.0f, SERKOVIU_STATUS_BAD_OUT_OF_SERVICE);
    serkoviu_device safe = with(d, SERKOVIU_AO, SERKOVIU_AO_FSAFE_TYPE, SERKOVIU_FSAFE_TYPE_SAFE);
    safe = with(safe, SERKOVIU_AO, SERKOVIU_AO_FSAFE_TIME, 0);
    man_after(safe, SERKOVIU_MODE_AUTO, SERKOVIU_SAFE, 25.0f, SERKOVIU_STATUS_BAD_NON_SPECIFIC);
    serkoviu_device fresh = with(serkoviu_factory(), SERKOVIU_AO, SERKOVIU_AO_TARGET_MODE, SERKOVIU_MODE_MAN);
    CHECK(positioned(good_tick(&fresh), 0.0f) && ao_is(&fresh, 0.0f, SERKOVIU_STATUS_BAD_OUT_OF_SERVICE));

    /* Man over Man leaves the pair and counts in ST_REV: the fourth static write, FSAFE_TIME being the first. */
    serkoviu_device man = man_after(d, SERKOVIU_MODE_AUTO, SERKOVIU_POSITION, 25.0f, SERKOVIU_STATUS_GOOD);
    CHECK(serkoviu_write(&man, SERKOVIU_AO, SERKOVIU_AO_OUT, bits_of(12.0f), 0x83) == SERKOVIU_ACCEPTED);
    man = with(man, SERKOVIU_AO, SERKOVIU_AO_TARGET_MODE, SERKOVIU_MODE_MAN);
    CHECK(positioned(good_tick(&man), 12.0f) && ao_is(&man, 12.0f, 0x83));
    CHECK(reads(&man, SERKOVIU_AO, SERKOVIU_AO_ST_REV, 4, 0));

    /* Left and entered again without a tick: what was written meanwhile was never given. */
    CHECK(serkoviu_write(&man, SERKOVIU_AO, SERKOVIU_AO_OUT, bits_of(70.0f), 0x81) == SERKOVIU_ACCEPTED);
    man = with(man, SERKOVIU_AO, SERKOVIU_AO_TARGET_MODE, SERKOVIU_MODE_AUTO);
    man = with(man, SERKOVIU_AO, SERKOVIU_AO_TARGET_MODE, SERKOVIU_MODE_MAN);
    CHECK(positioned(good_tick(&man), 12.0f) && ao_is(&man, 12.0f, 0x83));

    /* AIN stands too. TOT has its total and the operator's status of before, here the fresh one. */
    man = with(man, SERKOVIU_AIN, SERKOVIU_AIN_TARGET_MODE, SERKOVIU_MODE_MAN);
    man = with(man, SERKOVIU_TOT, SERKOVIU_TOT_TARGET_MODE, SERKOVIU_MODE_MAN);
    float total = (float)serkoviu_total(&man) / 1000.0f;
    tick(&man, 10.0f, SERKOVIU_STATUS_GOOD, 1.0f, SERKOVIU_STATUS_GOOD);
    CHECK(ain_is(&man, 50.0f, SERKOVIU_STATUS_GOOD) && tot_is(&man, total, SERKOVIU_STATUS_UNCERTAIN_INITIAL));

    /* A warm start leaves the fresh pairs, also in Man. */
    CHECK(serkoviu_warm_start(&man) == SERKOVIU_ACCEPTED);
    CHECK(ain_is(&man, 50.0f, SERKOVIU_STATUS_BAD_OUT_OF_SERVICE) && ao_is(&man, 12.0f, SERKOVIU_STATUS_BAD_OUT_OF_SERVICE));
    CHECK(positioned(good_tick(&man), 0.0f) && ao_is(&man, 0.0f, SERKOVIU_STATUS_UNCERTAIN_INITIAL));
    CHECK(ain_is(&man, 0.0f, SERKOVIU_STATUS_UNCERTAIN_INITIAL));
}

static void ain(void)
{
    /* Each kind of unusable input, given by type 2 with its own status; then what the other types give. */
    serkoviu_device d = with(serkoviu_factory(), SERKOVIU_AIN, SERKOVIU_AIN_FSAFE_VALUE, bits_of(12.5f));
    serkoviu_device bad = with(d, SERKOVIU_AIN, SERKOVIU_AIN_FSAFE_TYPE, SERKOVIU_FSAFE_TYPE_BAD_VALUE);
    tick(&bad, 50.0f, SERKOVIU_QUALITY_GOOD_CASCADE, 0.0f, SERKOVIU_STATUS_GOOD);
    CHECK(ain_is(&bad, 50.0f, SERKOVIU_STATUS_BAD_CONFIGURATION));
    tick(&bad, 25.0f, SERKOVIU_STATUS_BAD_NON_SPECIFIC, 0.0f, SERKOVIU_STATUS_GOOD);
    CHECK(ain_is(&bad, 25.0f, SERKOVIU_STATUS_BAD_NON_SPECIFIC));
    tick(&bad, INFINITY, SERKOVIU_STATUS_GOOD, 0.0f, SERKOVIU_STATUS_GOOD);
    CHECK(ain_is(&bad, 25.0f, SERKOVIU_STATUS_BAD_SENSOR));
    serkoviu_device value = with(d, SERKOVIU_AIN, SERKOVIU_AIN_FSAFE_TYPE, SERKOVIU_FSAFE_TYPE_VALUE);
    tick(&value, 50.0f, SERKOVIU_QUALITY_BAD, 0.0f, SERKOVIU_STATUS_GOOD);
    CHECK(ain_is(&value, 12.5f, SERKOVIU_STATUS_UNCERTAIN_SUBSTITUTE));
    serkoviu_device last = with(d, SERKOVIU_AIN, SERKOVIU_AIN_FSAFE_TYPE, SERKOVIU_FSAFE_TYPE_LAST);
    tick(&last, 50.0f, SERKOVIU_QUALITY_BAD, 0.0f, SERKOVIU_STATUS_GOOD);
    CHECK(ain_is(&last, 0.0f, SERKOVIU_STATUS_UNCERTAIN_INITIAL));
    tick(&last, 50.0f, SERKOVIU_QUALITY_UNCERTAIN, 0.0f, SERKOVIU_STATUS_GOOD);
    CHECK(ain_is(&last, 50.0f, SERKOVIU_QUALITY_UNCERTAIN));
    tick(&last, 25.0f, SERKOVIU_QUALITY_BAD, 0.0f, SERKOVIU_STATUS_GOOD);
    CHECK(ain_is(&last, 50.0f, SERKOVIU_STATUS_UNCERTAIN_LAST_USABLE));

    /* One limit at a time, met by OUT 50: its bit alone, and its status. */
    const struct {
        uint8_t limit, bit, status, limits;
    } alarms[] = {
        {SERKOVIU_AIN_HI_HI_LIM, SERKOVIU_ALARM_HI_HI, SERKOVIU_STATUS_GOOD_CRITICAL_HIGH, SERKOVIU_LIMITS_HIGH},
        {SERKOVIU_AIN_HI_LIM, SERKOVIU_ALARM_HI, SERKOVIU_STATUS_GOOD_ADVISORY_HIGH, SERKOVIU_LIMITS_HIGH},
        {SERKOVIU_AIN_LO_LIM, SERKOVIU_ALARM_LO, SERKOVIU_STATUS_GOOD_ADVISORY_LOW, SERKOVIU_LIMITS_LOW},
        {SERKOVIU_AIN_LO_LO_LIM, SERKOVIU_ALARM_LO_LO, SERKOVIU_STATUS_GOOD_CRITICAL_LOW, SERKOVIU_LIMITS_LOW},
    };
    for (unsigned i = 0; i < 4; i++) {
        serkoviu_device limited = with(serkoviu_factory(), SERKOVIU_AIN, alarms[i].limit, bits_of(50.0f));
        good_tick(&limited);
        CHECK(reads(&limited, SERKOVIU_AIN, SERKOVIU_AIN_ALARMS, alarms[i].bit, 0));
        CHECK(ain_is(&limited, 50.0f, alarms[i].status));
        CHECK((alarms[i].status & SERKOVIU_QUALITY_MASK) == SERKOVIU_QUALITY_GOOD);
        CHECK((alarms[i].status & SERKOVIU_LIMITS_MASK) == alarms[i].limits);
    }
    CHECK((SERKOVIU_STATUS_GOOD & SERKOVIU_LIMITS_MASK) == SERKOVIU_LIMITS_NONE);
    CHECK((SERKOVIU_STATUS_BAD_OUT_OF_SERVICE & SERKOVIU_LIMITS_MASK) == SERKOVIU_LIMITS_CONSTANT);
}

/* A pair of a table as its bytes. */
static void put_pair(uint8_t *at, float x, float y)
{
    uint32_t words[] = {bits_of(x), bits_of(y)};
    for (unsigned i = 0; i < SERKOVIU_TABLE_PAIR_BYTES; i++) {
        at[i] = (uint8_t)(words[i / 4] >> (24 - 8 * (i % 4)));
    }
}

static void table(void)
{
    /* As many pairs as the header says, and one less or more. */
    serkoviu_device d = serkoviu_factory();
    uint8_t bytes[(SERKOVIU_TABLE_MOST_PAIRS + 1) * SERKOVIU_TABLE_PAIR_BYTES];
    for (unsigned i = 0; i <= SERKOVIU_TABLE_MOST_PAIRS; i++) {
        put_pair(bytes + i * SERKOVIU_TABLE_PAIR_BYTES, (float)i, 2.0f * (float)i);
    }
    const struct {
        unsigned pairs;
        uint8_t answer;
    } loads[] = {
        {SERKOVIU_TABLE_LEAST_PAIRS - 1, SERKOVIU_NOT_WHOLE_PAIRS},
        {SERKOVIU_TABLE_LEAST_PAIRS, SERKOVIU_ACCEPTED},
        {SERKOVIU_TABLE_MOST_PAIRS, SERKOVIU_ACCEPTED},
        {SERKOVIU_TABLE_MOST_PAIRS + 1, SERKOVIU_NOT_WHOLE_PAIRS},
    };
    for (unsigned i = 0; i < 4; i++) {
        CHECK(serkoviu_load(&d, bytes, loads[i].pairs * SERKOVIU_TABLE_PAIR_BYTES) == loads[i].answer);
    }
    CHECK(serkoviu_load(&d, bytes, 3 * SERKOVIU_TABLE_PAIR_BYTES - 1) == SERKOVIU_NOT_WHOLE_PAIRS);
    CHECK(reads(&d, SERKOVIU_AIN, SERKOVIU_AIN_ST_REV, 2, 0));
    put_pair(bytes, 1.0f, 0.0f);
    CHECK(serkoviu_load(&d, bytes, 2 * SERKOVIU_TABLE_PAIR_BYTES) == SERKOVIU_NOT_RISING);

    /* 0 to 50 becomes 0 to 25, 50 to 100 becomes 25 to 100; both scales leave a value as it is. */
    put_pair(bytes, 0.0f, 0.0f);
    put_pair(bytes + SERKOVIU_TABLE_PAIR_BYTES, 50.0f, 25.0f);
    put_pair(bytes + 2 * SERKOVIU_TABLE_PAIR_BYTES, 100.0f, 100.0f);
    d = serkoviu_factory();
    CHECK(serkoviu_write(&d, SERKOVIU_AIN, SERKOVIU_AIN_LIN_TYPE, SERKOVIU_LIN_TYPE_TABLE, 0) == SERKOVIU_WORDS_NOT_ALLOWED);
    d = with(d, SERKOVIU_PHYSICAL, SERKOVIU_PHYSICAL_WRITE_LOCKING, SERKOVIU_WRITE_LOCKING_ON);
    CHECK(serkoviu_load(&d, bytes, 3 * SERKOVIU_TABLE_PAIR_BYTES) == SERKOVIU_LOCKED);
    d = with(d, SERKOVIU_PHYSICAL, SERKOVIU_PHYSICAL_WRITE_LOCKING, SERKOVIU_WRITE_LOCKING_OFF);
    CHECK(serkoviu_load(&d, bytes, 3 * SERKOVIU_TABLE_PAIR_BYTES) == SERKOVIU_ACCEPTED);
    good_tick(&d);
    CHECK(ain_is(&d, 50.0f, SERKOVIU_STATUS_GOOD));
    d = with(d, SERKOVIU_AIN, SERKOVIU_AIN_LIN_TYPE, SERKOVIU_LIN_TYPE_TABLE);
    good_tick(&d);
    CHECK(ain_is(&d, 25.0f, SERKOVIU_STATUS_GOOD));
    CHECK(serkoviu_warm_start(&d) == SERKOVIU_ACCEPTED);
    tick(&d, 75.0f, SERKOVIU_STATUS_GOOD, 0.0f, SERKOVIU_STATUS_GOOD);
    CHECK(ain_is(&d, 62.5f, SERKOVIU_STATUS_GOOD));
    d = with(d, SERKOVIU_AIN, SERKOVIU_AIN_LIN_TYPE, SERKOVIU_LIN_TYPE_NONE);
    good_tick(&d);
    CHECK(ain_is(&d, 50.0f, SERKOVIU_STATUS_GOOD));
}

/* The total after a tick of this rate and status on a device whose total is 1. */
static float total_after(serkoviu_device device, float rate, uint8_t status, uint32_t *given)
{
    tick(&device, 0.0f, SERKOVIU_STATUS_GOOD, rate, status);
    *given = serkoviu_read(&device, SERKOVIU_TOT, SERKOVIU_TOT_TOTAL).second;
    return (float)serkoviu_total(&device) / 1000.0f;
}

static void tot(void)
{
    /* A tick is 0.1 s: of the rate 10 it adds 1. */
    serkoviu_device one = with(serkoviu_factory(), SERKOVIU_TOT, SERKOVIU_TOT_PRESET_TOT, bits_of(5.0f));
    tick(&one, 0.0f, SERKOVIU_STATUS_GOOD, 10.0f, SERKOVIU_STATUS_GOOD);
    CHECK(tot_is(&one, 1.0f, SERKOVIU_STATUS_GOOD));
    uint32_t given;
    const struct {
        uint8_t parameter, word;
        float up, down; /* the total after a Good tick of rate 20, of rate -20 */
    } words[] = {
        {SERKOVIU_TOT_SET_TOT, SERKOVIU_SET_TOT_RUN, 3.0f, -1.0f},
        {SERKOVIU_TOT_SET_TOT, SERKOVIU_SET_TOT_RESET, 0.0f, 0.0f},
        {SERKOVIU_TOT_SET_TOT, SERKOVIU_SET_TOT_PRESET, 5.0f, 5.0f},
        {SERKOVIU_TOT_MODE_TOT, SERKOVIU_MODE_TOT_BALANCED, 3.0f, -1.0f},
        {SERKOVIU_TOT_MODE_TOT, SERKOVIU_MODE_TOT_POSITIVE, 3.0f, 1.0f},
        {SERKOVIU_TOT_MODE_TOT, SERKOVIU_MODE_TOT_NEGATIVE, 1.0f, -1.0f},
        {SERKOVIU_TOT_MODE_TOT, SERKOVIU_MODE_TOT_HOLD, 1.0f, 1.0f},
    };
    for (unsigned i = 0; i < 7; i++) {
        serkoviu_device d = with(one, SERKOVIU_TOT, words[i].parameter, words[i].word);
        CHECK(total_after(d, 20.0f, SERKOVIU_STATUS_GOOD, &given) == words[i].up);
        CHECK(total_after(d, -20.0f, SERKOVIU_STATUS_GOOD, &given) == words[i].down);
    }
    const struct {
        uint8_t word;
        float total;
        uint32_t status;
    } fails[] = {
        {SERKOVIU_FAIL_TOT_RUN, 3.0f, SERKOVIU_STATUS_BAD_SENSOR},
        {SERKOVIU_FAIL_TOT_HOLD, 1.0f, SERKOVIU_STATUS_UNCERTAIN_NON_SPECIFIC},
        {SERKOVIU_FAIL_TOT_MEMORY, 2.0f, SERKOVIU_STATUS_UNCERTAIN_LAST_USABLE}, /* the rate 10 of before */
    };
    for (unsigned i = 0; i < 3; i++) {
        serkoviu_device d = with(one, SERKOVIU_TOT, SERKOVIU_TOT_FAIL_TOT, fails[i].word);
        CHECK(total_after(d, 20.0f, SERKOVIU_STATUS_BAD_SENSOR, &given) == fails[i].total);
        CHECK(given == fails[i].status);
    }
}

static void ao(void)
{
    serkoviu_device d = with(serkoviu_factory(), SERKOVIU_AO, SERKOVIU_AO_FSAFE_VALUE, bits_of(20.0f));
    d = with(d, SERKOVIU_AO, SERKOVIU_AO_FSAFE_TIME, 1);
    serkoviu_device safe = with(d, SERKOVIU_AO, SERKOVIU_AO_FSAFE_TYPE, SERKOVIU_FSAFE_TYPE_SAFE);
    CHECK(good_tick(&safe).kind == SERKOVIU_SAFE && ao_is(&safe, 0.0f, SERKOVIU_STATUS_BAD_NON_SPECIFIC));
    serkoviu_device value = with(d, SERKOVIU_AO, SERKOVIU_AO_FSAFE_TYPE, SERKOVIU_FSAFE_TYPE_VALUE);
    CHECK(positioned(good_tick(&value), 20.0f) && ao_is(&value, 20.0f, SERKOVIU_STATUS_UNCERTAIN_SUBSTITUTE));
    serkoviu_device last = with(d, SERKOVIU_AO, SERKOVIU_AO_FSAFE_TYPE, SERKOVIU_FSAFE_TYPE_LAST);
    CHECK(positioned(good_tick(&last), 0.0f) && ao_is(&last, 0.0f, SERKOVIU_STATUS_UNCERTAIN_INITIAL));
    /* FSAFE_TIME 1: two ticks follow a telegram, the third is fail-safe. */
    CHECK(telegram(&last, SERKOVIU_SP, 40.0f, SERKOVIU_STATUS_GOOD) == SERKOVIU_ACCEPTED);
    CHECK(positioned(good_tick(&last), 40.0f) && ao_is(&last, 40.0f, SERKOVIU_STATUS_GOOD));
    CHECK(positioned(good_tick(&last), 40.0f) && ao_is(&last, 40.0f, SERKOVIU_STATUS_GOOD));
    CHECK(positioned(good_tick(&last), 40.0f) && ao_is(&last, 40.0f, SERKOVIU_STATUS_UNCERTAIN_LAST_USABLE));
    /* A telegram that initiates fail-safe does so at once, whatever bits it has outside quality and sub-status. */
    const uint8_t qualities[] = {SERKOVIU_QUALITY_GOOD, SERKOVIU_QUALITY_GOOD_CASCADE};
    for (unsigned i = 0; i < 2; i++) {
        serkoviu_device told = value;
        CHECK(telegram(&told, SERKOVIU_SP, 40.0f, SERKOVIU_STATUS_GOOD) == SERKOVIU_ACCEPTED);
        uint8_t status = (uint8_t)(qualities[i] | SERKOVIU_SUB_STATUS_IFS | SERKOVIU_LIMITS_HIGH);
        CHECK((status & SERKOVIU_SUB_STATUS_MASK) == SERKOVIU_SUB_STATUS_IFS);
        CHECK(telegram(&told, SERKOVIU_SP, 60.0f, status) == SERKOVIU_ACCEPTED);
        good_tick(&told);
        CHECK(ao_is(&told, 20.0f, SERKOVIU_STATUS_UNCERTAIN_SUBSTITUTE));
    }
    /* OUT for the setpoint 25. */
    const struct {
        uint8_t word;
        float out;
    } ways[] = {{SERKOVIU_INCREASE_CLOSE_RISING, 25.0f}, {SERKOVIU_INCREASE_CLOSE_FALLING, 75.0f}};
    for (unsigned i = 0; i < 2; i++) {
        serkoviu_device way = with(d, SERKOVIU_AO, SERKOVIU_AO_INCREASE_CLOSE, ways[i].word);
        CHECK(telegram(&way, SERKOVIU_SP, 25.0f, SERKOVIU_STATUS_GOOD) == SERKOVIU_ACCEPTED);
        CHECK(positioned(good_tick(&way), ways[i].out));
    }
}

/* What DI gives of a value and a status. */
static bool contact_is(serkoviu_device device, uint8_t value, uint8_t status, uint32_t out, uint32_t out_status)
{
    serkoviu_pair none = {0, SERKOVIU_STATUS_GOOD};
    serkoviu_discrete di = {value, status};
    serkoviu_tick(&device, false, none, none, di);
    return reads(&device, SERKOVIU_DI, SERKOVIU_DI_OUT_D, out, out_status);
}

static void di(void)
{
    serkoviu_device d = serkoviu_factory();
    CHECK(contact_is(d, 1, SERKOVIU_STATUS_GOOD, 1, SERKOVIU_STATUS_GOOD));
    CHECK(contact_is(with(d, SERKOVIU_DI, SERKOVIU_DI_INVERT, SERKOVIU_INVERT_ON), 1, SERKOVIU_STATUS_GOOD, 0,
                     SERKOVIU_STATUS_GOOD));
    CHECK(contact_is(with(d, SERKOVIU_DI, SERKOVIU_DI_INVERT, SERKOVIU_INVERT_OFF), 1, SERKOVIU_STATUS_GOOD, 1,
                     SERKOVIU_STATUS_GOOD));
    /* Another value than 0 and 1, by each FSAFE_TYPE. */
    serkoviu_device value = with(d, SERKOVIU_DI, SERKOVIU_DI_FSAFE_VAL_D, 1);
    CHECK(contact_is(value, 7, SERKOVIU_STATUS_GOOD, 1, SERKOVIU_STATUS_UNCERTAIN_SUBSTITUTE));
    serkoviu_device last = with(d, SERKOVIU_DI, SERKOVIU_DI_FSAFE_TYPE, SERKOVIU_FSAFE_TYPE_LAST);
    CHECK(contact_is(last, 7, SERKOVIU_STATUS_GOOD, 0, SERKOVIU_STATUS_UNCERTAIN_INITIAL));
    serkoviu_device bad = with(d, SERKOVIU_DI, SERKOVIU_DI_FSAFE_TYPE, SERKOVIU_FSAFE_TYPE_BAD_VALUE);
    CHECK(contact_is(bad, 7, SERKOVIU_STATUS_GOOD, 0, SERKOVIU_STATUS_BAD_CONFIGURATION));
    CHECK(contact_is(bad, 1, SERKOVIU_STATUS_BAD_SENSOR, 1, SERKOVIU_STATUS_BAD_SENSOR));
    /* A target of DI, and its reads. */
    serkoviu_device man = with(d, SERKOVIU_DI, SERKOVIU_DI_TARGET_MODE, SERKOVIU_MODE_MAN);
    CHECK(reads(&man, SERKOVIU_DI, SERKOVIU_DI_ST_REV, 1, 0));
    CHECK(reads(&man, SERKOVIU_DI, SERKOVIU_DI_ACTUAL_MODE, SERKOVIU_MODE_OS, 0));
    CHECK(serkoviu_write(&man, SERKOVIU_DI, SERKOVIU_DI_OUT_D, 1, 0x83) == SERKOVIU_ACCEPTED);
    CHECK(contact_is(man, 0, SERKOVIU_STATUS_GOOD, 1, 0x83));
}

/* DO's order, and what it gives. */
static bool sluice_is(serkoviu_device *device, uint8_t kind, uint8_t value, uint32_t out, uint32_t status)
{
    serkoviu_pair none = {0, SERKOVIU_STATUS_GOOD};
    serkoviu_discrete di = {0, SERKOVIU_STATUS_GOOD};
    serkoviu_order_d order = serkoviu_tick(device, false, none, none, di).dout;
    return order.kind == kind && order.value == value && reads(device, SERKOVIU_DO, SERKOVIU_DO_OUT_D, out, status);
}

static void dout(void)
{
    const uint8_t open[SERKOVIU_TELEGRAM_D_BYTES] = {1, SERKOVIU_STATUS_GOOD};
    serkoviu_device d = with(serkoviu_factory(), SERKOVIU_DO, SERKOVIU_DO_FSAFE_TIME, 1);
    serkoviu_device fresh = d;
    CHECK(sluice_is(&fresh, SERKOVIU_POSITION, 0, 0, SERKOVIU_STATUS_UNCERTAIN_SUBSTITUTE));
    serkoviu_device value = with(with(d, SERKOVIU_DO, SERKOVIU_DO_FSAFE_VAL_D, 1), SERKOVIU_DO, SERKOVIU_DO_INVERT, SERKOVIU_INVERT_ON);
    CHECK(sluice_is(&value, SERKOVIU_POSITION, 0, 0, SERKOVIU_STATUS_UNCERTAIN_SUBSTITUTE));
    serkoviu_device safe = with(d, SERKOVIU_DO, SERKOVIU_DO_FSAFE_TYPE, SERKOVIU_FSAFE_TYPE_SAFE);
    CHECK(sluice_is(&safe, SERKOVIU_SAFE, 0, 0, SERKOVIU_STATUS_BAD_NON_SPECIFIC));
    /* FSAFE_TIME 1: two ticks follow a telegram, the third is fail-safe. */
    serkoviu_device last = with(d, SERKOVIU_DO, SERKOVIU_DO_FSAFE_TYPE, SERKOVIU_FSAFE_TYPE_LAST);
    CHECK(serkoviu_telegram(&last, SERKOVIU_SP_D, open, sizeof open) == SERKOVIU_ACCEPTED);
    CHECK(sluice_is(&last, SERKOVIU_POSITION, 1, 1, SERKOVIU_STATUS_GOOD));
    CHECK(sluice_is(&last, SERKOVIU_POSITION, 1, 1, SERKOVIU_STATUS_GOOD));
    CHECK(sluice_is(&last, SERKOVIU_POSITION, 1, 1, SERKOVIU_STATUS_UNCERTAIN_LAST_USABLE));
    /* In RCas RCAS_IN_D counts, and not SP_D; in O/S nothing is ordered. */
    serkoviu_device rcas = with(d, SERKOVIU_DO, SERKOVIU_DO_TARGET_MODE, SERKOVIU_MODE_RCAS);
    CHECK(serkoviu_telegram(&rcas, SERKOVIU_SP_D, open, sizeof open) == SERKOVIU_ACCEPTED);
    CHECK(sluice_is(&rcas, SERKOVIU_POSITION, 0, 0, SERKOVIU_STATUS_UNCERTAIN_SUBSTITUTE));
    CHECK(serkoviu_telegram(&rcas, SERKOVIU_RCAS_IN_D, open, sizeof open) == SERKOVIU_ACCEPTED);
    CHECK(sluice_is(&rcas, SERKOVIU_POSITION, 1, 1, SERKOVIU_STATUS_GOOD));
    CHECK(reads(&rcas, SERKOVIU_DO, SERKOVIU_DO_ACTUAL_MODE, SERKOVIU_MODE_RCAS, 0));
    serkoviu_device off = with(d, SERKOVIU_DO, SERKOVIU_DO_TARGET_MODE, SERKOVIU_MODE_OS);
    CHECK(sluice_is(&off, SERKOVIU_REST, 0, 0, SERKOVIU_STATUS_BAD_OUT_OF_SERVICE));
}

static void answers(void)
{
    serkoviu_device d = serkoviu_factory();
    uint8_t room[SERKOVIU_PACKED_BYTES + 1] = {0};
    CHECK(serkoviu_read(&d, SERKOVIU_DO + 1, SERKOVIU_DO_ST_REV).answer == SERKOVIU_NO_SUCH_BLOCK);
    CHECK(serkoviu_write(&d, SERKOVIU_DI, SERKOVIU_DI_OUT_D, 2, 0) == SERKOVIU_WORDS_NOT_ALLOWED);
    CHECK(serkoviu_write(&d, SERKOVIU_DO, SERKOVIU_DO_OUT_D, 1, 0) == SERKOVIU_NOT_MAN);
    CHECK(serkoviu_read(&d, SERKOVIU_TOT, SERKOVIU_AIN_ALARMS).answer == SERKOVIU_NO_SUCH_PARAMETER);
    CHECK(serkoviu_write(&d, SERKOVIU_AIN, SERKOVIU_AIN_ACTUAL_MODE, 0, 0) == SERKOVIU_READ_ONLY);
    CHECK(serkoviu_write(&d, SERKOVIU_AIN, SERKOVIU_AIN_TARGET_MODE, 1, 0) == SERKOVIU_WORDS_NOT_ALLOWED);
    CHECK(serkoviu_write(&d, SERKOVIU_TOT, SERKOVIU_TOT_TOTAL, 0, 0) == SERKOVIU_NOT_MAN);
    CHECK(serkoviu_telegram(&d, SERKOVIU_SP, room, SERKOVIU_TELEGRAM_BYTES + 1) == SERKOVIU_WRONG_LENGTH);
    CHECK(serkoviu_telegram(&d, SERKOVIU_SP_D, room, SERKOVIU_TELEGRAM_D_BYTES + 1) == SERKOVIU_WRONG_LENGTH);
    CHECK(serkoviu_telegram(&d, SERKOVIU_RCAS_IN_D + 1, room, SERKOVIU_TELEGRAM_D_BYTES) == SERKOVIU_NO_SUCH_INPUT);
    CHECK(serkoviu_image(&d, room, SERKOVIU_IMAGE_BYTES - 1) == SERKOVIU_WRONG_LENGTH);
    CHECK(serkoviu_image(&d, room, SERKOVIU_IMAGE_BYTES) == SERKOVIU_ACCEPTED);
    d = with(d, SERKOVIU_PHYSICAL, SERKOVIU_PHYSICAL_WRITE_LOCKING, SERKOVIU_WRITE_LOCKING_ON);
    CHECK(serkoviu_write(&d, SERKOVIU_AIN, SERKOVIU_AIN_PV_FTIME, 0, 0) == SERKOVIU_LOCKED);
    d = with(d, SERKOVIU_PHYSICAL, SERKOVIU_PHYSICAL_WRITE_LOCKING, SERKOVIU_WRITE_LOCKING_OFF);
    CHECK(serkoviu_write(&d, SERKOVIU_AIN, SERKOVIU_AIN_PV_FTIME, 0, 0) == SERKOVIU_ACCEPTED);
    CHECK(serkoviu_warm_start(&d) == SERKOVIU_ACCEPTED);
    CHECK(serkoviu_version() == SERKOVIU_VERSION);
}

static void packing(void)
{
    /* A packed device begins with the version of its form and is as long as the header says. */
    serkoviu_device d = serkoviu_factory();
    good_tick(&d);
    uint8_t packed[SERKOVIU_PACKED_BYTES + 1];
    memset(packed, 0xA5, sizeof packed);
    CHECK(serkoviu_pack(&d, packed, SERKOVIU_PACKED_BYTES - 1) == SERKOVIU_WRONG_LENGTH);
    CHECK(packed[0] == 0xA5 && packed[SERKOVIU_PACKED_BYTES - 2] == 0xA5);
    CHECK(serkoviu_pack(&d, packed, sizeof packed) == SERKOVIU_ACCEPTED);
    CHECK(packed[0] == 0 && packed[1] == 0 && packed[2] == 0 && packed[3] == SERKOVIU_LAYOUT_VERSION);
    CHECK(packed[SERKOVIU_PACKED_BYTES] == 0xA5);

    /* It comes back; bytes of another length, and of another version, leave the device as it was. */
    serkoviu_device back = serkoviu_factory();
    CHECK(serkoviu_unpack(&back, packed, SERKOVIU_PACKED_BYTES) == SERKOVIU_ACCEPTED);
    CHECK(ain_is(&back, 50.0f, SERKOVIU_STATUS_GOOD));
    serkoviu_device kept = serkoviu_factory();
    CHECK(serkoviu_unpack(&kept, packed, SERKOVIU_PACKED_BYTES - 1) == SERKOVIU_WRONG_LENGTH);
    CHECK(serkoviu_unpack(&kept, packed, SERKOVIU_PACKED_BYTES + 1) == SERKOVIU_WRONG_LENGTH);
    packed[3] = SERKOVIU_LAYOUT_VERSION + 1;
    CHECK(serkoviu_unpack(&kept, packed, SERKOVIU_PACKED_BYTES) == SERKOVIU_NOT_A_DEVICE);
    CHECK(ain_is(&kept, 0.0f, SERKOVIU_STATUS_BAD_OUT_OF_SERVICE));
}

int main(void)
{
    modes();
    entering_man();
    ain();
    table();
    tot();
    ao();
    di();
    dout();
    answers();
    packing();
    printf("%u checks, %u wrong\n", made, wrong);
    return wrong != 0;
}
