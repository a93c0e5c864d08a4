/* The intake head's function blocks AIN, TOT, AO, DI and DO for C11 and C++17: the calls of libcapi.a. docs/embedding.md says how
 * to link it, what a call costs and how a device outlives a loss of power; docs/parameters.md has every parameter.
 *
 * A device is a plain struct that the caller holds; it starts as what serkoviu_factory gives. It has no pointer in it and
 * may be copied and moved. What is stored or compared is its packed form (serkoviu_pack): padding bytes of the struct
 * have no fixed value, and its layout may change with SERKOVIU_VERSION.
 *
 * Every call is defined for every argument under these conditions, which no call can test:
 * - Floats are computed with SSE under the caller's MXCSR. Rounding is to nearest, flush-to-zero and denormals-are-zero
 *   are off and exceptions are masked, the state in which a process starts. Start-up code that -ffast-math links sets
 *   both flags, and a library may leave another direction of rounding; the values given are then not the proved ones.
 * - No pointer is null, also where a length is 0. It points to a device, or to as many bytes as the length says.
 * - A device and the bytes lent in the same call do not overlap.
 * - A device is used by one thread at a time, and by no interrupt within a call. An interrupt on the caller's stack leaves
 *   the 128 bytes below the stack pointer alone (the red zone of System V). No call uses the heap, a global variable or a
 *   clock, so calls on different devices may run at the same time.
 * - A bool is 0 or 1. */
#ifndef SERKOVIU_H
#define SERKOVIU_H

#if !defined(__x86_64__) || defined(__ILP32__) || defined(_WIN32) || defined(__CYGWIN__) || \
    !defined(__BYTE_ORDER__) || __BYTE_ORDER__ != __ORDER_LITTLE_ENDIAN__
#error "libcapi.a is for x86-64, little-endian, System V: the toolchain makes no other archive"
#endif

#include <stdbool.h>
#include <stddef.h>
#include <stdint.h>

#ifdef __cplusplus
extern "C" {
#endif

/* Version of this header: major, minor and patch in a byte each; each request that landed raised it. serkoviu_version gives
 * that of the archive. */
#define SERKOVIU_VERSION 0x00020000
/* The form of a packed device; it stands in its first four bytes. */
#define SERKOVIU_LAYOUT_VERSION 3

/* Blocks. */
#define SERKOVIU_PHYSICAL 0
#define SERKOVIU_AIN 1
#define SERKOVIU_TOT 2
#define SERKOVIU_AO 3
#define SERKOVIU_DI 4
#define SERKOVIU_DO 5

/* Parameters of the physical block. */
#define SERKOVIU_PHYSICAL_WRITE_LOCKING 18

/* Parameters of AIN. */
#define SERKOVIU_AIN_ST_REV 1
#define SERKOVIU_AIN_TARGET_MODE 5
#define SERKOVIU_AIN_ACTUAL_MODE 6
#define SERKOVIU_AIN_ALARMS 7
#define SERKOVIU_AIN_OUT 10
#define SERKOVIU_AIN_PV_SCALE 11
#define SERKOVIU_AIN_OUT_SCALE 12
#define SERKOVIU_AIN_LIN_TYPE 13
#define SERKOVIU_AIN_PV_FTIME 16
#define SERKOVIU_AIN_FSAFE_TYPE 17
#define SERKOVIU_AIN_FSAFE_VALUE 18
#define SERKOVIU_AIN_ALARM_HYS 19
#define SERKOVIU_AIN_HI_HI_LIM 21
#define SERKOVIU_AIN_HI_LIM 23
#define SERKOVIU_AIN_LO_LIM 25
#define SERKOVIU_AIN_LO_LO_LIM 27

/* Parameters of TOT. */
#define SERKOVIU_TOT_ST_REV 1
#define SERKOVIU_TOT_TARGET_MODE 5
#define SERKOVIU_TOT_ACTUAL_MODE 6
#define SERKOVIU_TOT_TOTAL 10
#define SERKOVIU_TOT_SET_TOT 13
#define SERKOVIU_TOT_MODE_TOT 14
#define SERKOVIU_TOT_FAIL_TOT 15
#define SERKOVIU_TOT_PRESET_TOT 16

/* Parameters of AO. */
#define SERKOVIU_AO_ST_REV 1
#define SERKOVIU_AO_TARGET_MODE 5
#define SERKOVIU_AO_ACTUAL_MODE 6
#define SERKOVIU_AO_PV_SCALE 11
#define SERKOVIU_AO_FSAFE_TIME 23
#define SERKOVIU_AO_FSAFE_TYPE 24
#define SERKOVIU_AO_FSAFE_VALUE 25
#define SERKOVIU_AO_INCREASE_CLOSE 36
#define SERKOVIU_AO_OUT 37
#define SERKOVIU_AO_OUT_SCALE 38

/* Parameters of DI. */
#define SERKOVIU_DI_ST_REV 1
#define SERKOVIU_DI_TARGET_MODE 5
#define SERKOVIU_DI_ACTUAL_MODE 6
#define SERKOVIU_DI_OUT_D 10
#define SERKOVIU_DI_INVERT 15
#define SERKOVIU_DI_FSAFE_TYPE 20
#define SERKOVIU_DI_FSAFE_VAL_D 21

/* Parameters of DO. */
#define SERKOVIU_DO_ST_REV 1
#define SERKOVIU_DO_TARGET_MODE 5
#define SERKOVIU_DO_ACTUAL_MODE 6
#define SERKOVIU_DO_OUT_D 10
#define SERKOVIU_DO_INVERT 15
#define SERKOVIU_DO_FSAFE_TYPE 20
#define SERKOVIU_DO_FSAFE_VAL_D 21
#define SERKOVIU_DO_FSAFE_TIME 22

/* Words of WRITE_LOCKING. */
#define SERKOVIU_WRITE_LOCKING_ON 0
#define SERKOVIU_WRITE_LOCKING_OFF 2457

/* Words of TARGET_MODE and ACTUAL_MODE; RCas in AO and DO alone. */
#define SERKOVIU_MODE_OS 0x80
#define SERKOVIU_MODE_MAN 0x10
#define SERKOVIU_MODE_AUTO 0x08
#define SERKOVIU_MODE_RCAS 0x02

/* Words of LIN_TYPE: the measured value as it is, or by the table that serkoviu_load has loaded; refused as
 * SERKOVIU_WORDS_NOT_ALLOWED before one is loaded. */
#define SERKOVIU_LIN_TYPE_NONE 0
#define SERKOVIU_LIN_TYPE_TABLE 1

/* Words of FSAFE_TYPE: FSAFE_VALUE or FSAFE_VAL_D, the last usable value; then in AIN and DI the value as it comes, and in
 * AO and DO the drive order Safe. */
#define SERKOVIU_FSAFE_TYPE_VALUE 0
#define SERKOVIU_FSAFE_TYPE_LAST 1
#define SERKOVIU_FSAFE_TYPE_BAD_VALUE 2
#define SERKOVIU_FSAFE_TYPE_SAFE 2

/* Words of SET_TOT. */
#define SERKOVIU_SET_TOT_RUN 0
#define SERKOVIU_SET_TOT_RESET 1
#define SERKOVIU_SET_TOT_PRESET 2

/* Words of MODE_TOT. */
#define SERKOVIU_MODE_TOT_BALANCED 0
#define SERKOVIU_MODE_TOT_POSITIVE 1
#define SERKOVIU_MODE_TOT_NEGATIVE 2
#define SERKOVIU_MODE_TOT_HOLD 3

/* Words of FAIL_TOT. */
#define SERKOVIU_FAIL_TOT_RUN 0
#define SERKOVIU_FAIL_TOT_HOLD 1
#define SERKOVIU_FAIL_TOT_MEMORY 2

/* Words of INCREASE_CLOSE: OUT rises, or falls, with the setpoint. */
#define SERKOVIU_INCREASE_CLOSE_RISING 0
#define SERKOVIU_INCREASE_CLOSE_FALLING 1

/* Words of INVERT: a discrete value as it is, or 0 and 1 exchanged. */
#define SERKOVIU_INVERT_OFF 0
#define SERKOVIU_INVERT_ON 1

/* Bits of ALARMS. */
#define SERKOVIU_ALARM_HI_HI 0x01
#define SERKOVIU_ALARM_HI 0x02
#define SERKOVIU_ALARM_LO 0x04
#define SERKOVIU_ALARM_LO_LO 0x08

/* The status bytes that the head gives of its own, by the profile's names (advisory: LO and HI; critical: LO_LO and
 * HI_HI). Beside them it hands on those of the transducers and of the operator. */
#define SERKOVIU_STATUS_BAD_NON_SPECIFIC 0x00
#define SERKOVIU_STATUS_BAD_CONFIGURATION 0x04
#define SERKOVIU_STATUS_BAD_SENSOR 0x10
#define SERKOVIU_STATUS_BAD_OUT_OF_SERVICE 0x1F
#define SERKOVIU_STATUS_UNCERTAIN_NON_SPECIFIC 0x40
#define SERKOVIU_STATUS_UNCERTAIN_LAST_USABLE 0x44
#define SERKOVIU_STATUS_UNCERTAIN_SUBSTITUTE 0x48
#define SERKOVIU_STATUS_UNCERTAIN_INITIAL 0x4C
#define SERKOVIU_STATUS_GOOD 0x80
#define SERKOVIU_STATUS_GOOD_ADVISORY_LOW 0x89
#define SERKOVIU_STATUS_GOOD_ADVISORY_HIGH 0x8A
#define SERKOVIU_STATUS_GOOD_CRITICAL_LOW 0x8D
#define SERKOVIU_STATUS_GOOD_CRITICAL_HIGH 0x8E

/* A status byte: quality, sub-status and limit bits. */
#define SERKOVIU_QUALITY_MASK 0xC0
#define SERKOVIU_QUALITY_BAD 0x00
#define SERKOVIU_QUALITY_UNCERTAIN 0x40
#define SERKOVIU_QUALITY_GOOD 0x80
#define SERKOVIU_QUALITY_GOOD_CASCADE 0xC0
#define SERKOVIU_SUB_STATUS_MASK 0x3C
/* The sub-status by which a telegram of quality Good or Good Cascade initiates fail-safe. */
#define SERKOVIU_SUB_STATUS_IFS 0x20
#define SERKOVIU_LIMITS_MASK 0x03
#define SERKOVIU_LIMITS_NONE 0x00
#define SERKOVIU_LIMITS_LOW 0x01
#define SERKOVIU_LIMITS_HIGH 0x02
#define SERKOVIU_LIMITS_CONSTANT 0x03

/* Answers: accepted, or the ground of refusal. A refused call changes neither the device nor a lent byte. */
#define SERKOVIU_ACCEPTED 0
#define SERKOVIU_NO_SUCH_BLOCK 1
#define SERKOVIU_NO_SUCH_PARAMETER 2
#define SERKOVIU_READ_ONLY 3
#define SERKOVIU_LOCKED 4
#define SERKOVIU_WORDS_NOT_ALLOWED 5
#define SERKOVIU_NOT_MAN 6
#define SERKOVIU_WRONG_LENGTH 7
#define SERKOVIU_NO_SUCH_INPUT 8
/* Of serkoviu_load alone. */
#define SERKOVIU_NOT_WHOLE_PAIRS 9
#define SERKOVIU_NOT_RISING 10
/* Of serkoviu_unpack alone. */
#define SERKOVIU_NOT_A_DEVICE 255

/* Kinds of drive order. */
#define SERKOVIU_POSITION 0
#define SERKOVIU_SAFE 1
#define SERKOVIU_REST 2

/* Setpoint inputs: AO's, and DO's. */
#define SERKOVIU_SP 0
#define SERKOVIU_RCAS_IN 1
#define SERKOVIU_SP_D 2
#define SERKOVIU_RCAS_IN_D 3

/* Lengths of a telegram to AO and to DO, of a bus image and of a packed device. */
#define SERKOVIU_TELEGRAM_BYTES 5
#define SERKOVIU_TELEGRAM_D_BYTES 2
#define SERKOVIU_IMAGE_BYTES 19
#define SERKOVIU_PACKED_BYTES 564

/* A linearisation table: the bytes of a pair, and how many pairs there are. */
#define SERKOVIU_TABLE_PAIR_BYTES 8
#define SERKOVIU_TABLE_LEAST_PAIRS 2
#define SERKOVIU_TABLE_MOST_PAIRS 21

/* A value by the 32 bits of its float, and its status. */
typedef struct serkoviu_pair {
    uint32_t bits;
    uint8_t status;
} serkoviu_pair;

/* A discrete value, 0 or 1, and its status. */
typedef struct serkoviu_discrete {
    uint8_t value;
    uint8_t status;
} serkoviu_discrete;

/* Both ends of a scale. */
typedef struct serkoviu_scale {
    float low;
    float high;
} serkoviu_scale;

/* A value that may be missing; while it is, the value is 0. */
typedef struct serkoviu_kept {
    bool some;
    float value;
} serkoviu_kept;

/* AIN's stored parameters. */
typedef struct serkoviu_ain_settings {
    uint32_t target;
    serkoviu_scale pv_scale;
    serkoviu_scale out_scale;
    uint32_t lin_type;
    float pv_ftime;
    uint32_t fsafe_type;
    float fsafe_value;
    float alarm_hys;
    float hi_hi_lim;
    float hi_lim;
    float lo_lim;
    float lo_lo_lim;
} serkoviu_ain_settings;

/* Which alarms stand. */
typedef struct serkoviu_alarms {
    bool hi_hi;
    bool hi;
    bool lo;
    bool lo_lo;
} serkoviu_alarms;

/* What AIN's ticks change, and the operator's pair, which Man ticks give: OUT as last given when TARGET_MODE became
 * SERKOVIU_MODE_MAN, then what is written to OUT; after a start 0 with SERKOVIU_STATUS_UNCERTAIN_INITIAL. */
typedef struct serkoviu_ain_state {
    serkoviu_pair out;
    uint32_t mode;
    serkoviu_kept filter;
    serkoviu_kept last;
    serkoviu_pair operator_pair;
    serkoviu_alarms alarms;
} serkoviu_ain_state;

/* A pair of a linearisation table: a measured value, and what it becomes. */
typedef struct serkoviu_point {
    float x;
    float y;
} serkoviu_point;

/* A linearisation table: how many pairs it has, 0 before the first load, and the pairs; zeros after the last. */
typedef struct serkoviu_table {
    uint32_t count;
    serkoviu_point points[21];
} serkoviu_table;

/* TOT's stored parameters. */
typedef struct serkoviu_tot_settings {
    uint32_t target;
    uint32_t set_tot;
    uint32_t mode_tot;
    uint32_t fail_tot;
    float preset_tot;
} serkoviu_tot_settings;

/* The total in thousandths, and what TOT's ticks and the operator change. */
typedef struct serkoviu_tot_state {
    int64_t total;
    serkoviu_pair out;
    uint32_t mode;
    serkoviu_kept rate;
    uint8_t operator_status;
} serkoviu_tot_state;

/* AO's stored parameters. */
typedef struct serkoviu_ao_settings {
    uint32_t target;
    serkoviu_scale pv_scale;
    serkoviu_scale out_scale;
    uint32_t fsafe_time;
    uint32_t fsafe_type;
    float fsafe_value;
    uint32_t increase_close;
} serkoviu_ao_settings;

/* A setpoint input: its last usable telegram since start, the ticks since, and whether IFS stands. */
typedef struct serkoviu_ao_input {
    bool some;
    float value;
    uint32_t silence;
    bool ifs;
} serkoviu_ao_input;

/* What AO's ticks and telegrams change, and the operator's pair, which is as AIN's. */
typedef struct serkoviu_ao_state {
    serkoviu_pair out;
    uint32_t mode;
    serkoviu_pair operator_pair;
    serkoviu_ao_input sp;
    serkoviu_ao_input rcas_in;
} serkoviu_ao_state;

/* DI's stored parameters. */
typedef struct serkoviu_di_settings {
    uint32_t target;
    uint32_t invert;
    uint32_t fsafe_type;
    uint32_t fsafe_val_d;
} serkoviu_di_settings;

/* A discrete value that may be missing; while it is, the value is 0. */
typedef struct serkoviu_kept_d {
    bool some;
    uint8_t value;
} serkoviu_kept_d;

/* What DI's ticks change, and the operator's pair, which is as AIN's. */
typedef struct serkoviu_di_state {
    serkoviu_discrete out;
    uint32_t mode;
    serkoviu_kept_d last;
    serkoviu_discrete operator_pair;
} serkoviu_di_state;

/* DO's stored parameters. */
typedef struct serkoviu_do_settings {
    uint32_t target;
    uint32_t invert;
    uint32_t fsafe_type;
    uint32_t fsafe_val_d;
    uint32_t fsafe_time;
} serkoviu_do_settings;

/* A setpoint input of DO, as AO's. */
typedef struct serkoviu_do_input {
    bool some;
    uint8_t value;
    uint32_t silence;
    bool ifs;
} serkoviu_do_input;

/* What DO's ticks and telegrams change, and the operator's pair, which is as AIN's. */
typedef struct serkoviu_do_state {
    serkoviu_discrete out;
    uint32_t mode;
    serkoviu_discrete operator_pair;
    serkoviu_do_input sp;
    serkoviu_do_input rcas_in;
} serkoviu_do_state;

typedef struct serkoviu_ain_block {
    serkoviu_ain_settings settings;
    serkoviu_ain_state state;
    uint16_t st_rev;
    serkoviu_table table;
} serkoviu_ain_block;

typedef struct serkoviu_tot_block {
    serkoviu_tot_settings settings;
    serkoviu_tot_state state;
    uint16_t st_rev;
} serkoviu_tot_block;

typedef struct serkoviu_ao_block {
    serkoviu_ao_settings settings;
    serkoviu_ao_state state;
    uint16_t st_rev;
} serkoviu_ao_block;

typedef struct serkoviu_di_block {
    serkoviu_di_settings settings;
    serkoviu_di_state state;
    uint16_t st_rev;
} serkoviu_di_block;

typedef struct serkoviu_do_block {
    serkoviu_do_settings settings;
    serkoviu_do_state state;
    uint16_t st_rev;
} serkoviu_do_block;

/* A device; `do` is a keyword. */
typedef struct serkoviu_device {
    uint32_t write_locking;
    serkoviu_ain_block ain;
    serkoviu_tot_block tot;
    serkoviu_ao_block ao;
    serkoviu_di_block di;
    serkoviu_do_block dout;
} serkoviu_device;

/* AO's drive order: a SERKOVIU_POSITION with its value, or another kind with the value 0. */
typedef struct serkoviu_order {
    uint8_t kind;
    float value;
} serkoviu_order;

/* DO's drive order, with a discrete value. */
typedef struct serkoviu_order_d {
    uint8_t kind;
    uint8_t value;
} serkoviu_order_d;

/* The drive orders of a tick. */
typedef struct serkoviu_orders {
    serkoviu_order ao;
    serkoviu_order_d dout;
} serkoviu_orders;

/* A read's answer and words; both words are 0 where it is refused. */
typedef struct serkoviu_reading {
    uint8_t answer;
    uint32_t first;
    uint32_t second;
} serkoviu_reading;

/* A fresh device. */
serkoviu_device serkoviu_factory(void);

/* A tick, every 0.1 s: the fault flag, and the transducers' pairs for AIN, TOT and DI. Another value for DI than 0 and 1 is
 * Bad. Gives the drive orders of AO and DO. */
serkoviu_orders serkoviu_tick(serkoviu_device *device, bool fault, serkoviu_pair ain, serkoviu_pair tot,
                              serkoviu_discrete di);

/* A telegram to SERKOVIU_SP or SERKOVIU_RCAS_IN: SERKOVIU_TELEGRAM_BYTES, the float from its highest byte on and
 * the status behind it; to SERKOVIU_SP_D or SERKOVIU_RCAS_IN_D: SERKOVIU_TELEGRAM_D_BYTES, the value and the status.
 * Refused: SERKOVIU_NO_SUCH_INPUT, then SERKOVIU_WRONG_LENGTH. */
uint8_t serkoviu_telegram(serkoviu_device *device, uint8_t input, const uint8_t *bytes, size_t length);

/* Writes a parameter; floats are given by their bits, a one-word parameter has second word 0. Refused:
 * SERKOVIU_NO_SUCH_BLOCK to SERKOVIU_NOT_MAN, tested in the order of their numbers. A write that changes TARGET_MODE of
 * AIN, AO, DI or DO to SERKOVIU_MODE_MAN also takes OUT, value and status as last given, for the operator's pair, so that
 * OUT stands in Man; where TARGET_MODE is SERKOVIU_MODE_MAN already, the pair stays. */
uint8_t serkoviu_write(serkoviu_device *device, uint8_t block, uint8_t parameter, uint32_t first, uint32_t second);

/* Loads AIN's linearisation table, SERKOVIU_TABLE_LEAST_PAIRS to SERKOVIU_TABLE_MOST_PAIRS pairs of
 * SERKOVIU_TABLE_PAIR_BYTES: the floats x and y, each from its highest byte on. It counts as one static write to AIN and
 * acts from the next tick on where LIN_TYPE is SERKOVIU_LIN_TYPE_TABLE. Refused: SERKOVIU_LOCKED, then
 * SERKOVIU_NOT_WHOLE_PAIRS, then SERKOVIU_NOT_RISING where a number is not finite or an x not above the one before. */
uint8_t serkoviu_load(serkoviu_device *device, const uint8_t *bytes, size_t length);

/* A warm start; it is never refused. */
uint8_t serkoviu_warm_start(serkoviu_device *device);

/* Reads a parameter. Refused: SERKOVIU_NO_SUCH_BLOCK, SERKOVIU_NO_SUCH_PARAMETER. */
serkoviu_reading serkoviu_read(const serkoviu_device *device, uint8_t block, uint8_t parameter);

/* Puts values and statuses of AIN, TOT and AO, five bytes each, and of DI and DO, two each, into the front of a buffer.
 * Refused: SERKOVIU_WRONG_LENGTH, where it has less than SERKOVIU_IMAGE_BYTES. */
uint8_t serkoviu_image(const serkoviu_device *device, uint8_t *buffer, size_t length);

/* The total in thousandths, which serkoviu_read gives only cut. */
int64_t serkoviu_total(const serkoviu_device *device);

/* SERKOVIU_VERSION of the archive. */
uint32_t serkoviu_version(void);

/* Puts a device as bytes into the front of a buffer: SERKOVIU_LAYOUT_VERSION, then its fields in order, each as words of
 * 32 bits, highest byte first. Equal devices have equal bytes. Refused: SERKOVIU_WRONG_LENGTH, where the buffer has less
 * than SERKOVIU_PACKED_BYTES. */
uint8_t serkoviu_pack(const serkoviu_device *device, uint8_t *buffer, size_t length);

/* Makes the device the one that packs to these bytes. Refused: SERKOVIU_WRONG_LENGTH unless there are
 * SERKOVIU_PACKED_BYTES, then SERKOVIU_NOT_A_DEVICE where no device packs to them. */
uint8_t serkoviu_unpack(serkoviu_device *device, const uint8_t *bytes, size_t length);

/* The layout that libcapi.a was compiled with; tests/rust/tests/layout.rs holds these numbers to its source. */
#ifdef __cplusplus
#define SERKOVIU_ASSERT(fact, name) static_assert(fact, name)
#define SERKOVIU_ALIGNMENT(type) alignof(type)
#else
#define SERKOVIU_ASSERT(fact, name) _Static_assert(fact, name)
#define SERKOVIU_ALIGNMENT(type) _Alignof(type)
#endif
#define SERKOVIU_LAYOUT(type, size, alignment) \
    SERKOVIU_ASSERT(sizeof(type) == (size) && SERKOVIU_ALIGNMENT(type) == (alignment), #type)
#define SERKOVIU_FIELD(type, field, offset) SERKOVIU_ASSERT(offsetof(type, field) == (offset), #type "." #field)

SERKOVIU_LAYOUT(serkoviu_pair, 8, 4);
SERKOVIU_FIELD(serkoviu_pair, bits, 0);
SERKOVIU_FIELD(serkoviu_pair, status, 4);
SERKOVIU_LAYOUT(serkoviu_discrete, 2, 1);
SERKOVIU_FIELD(serkoviu_discrete, value, 0);
SERKOVIU_FIELD(serkoviu_discrete, status, 1);
SERKOVIU_LAYOUT(serkoviu_scale, 8, 4);
SERKOVIU_FIELD(serkoviu_scale, low, 0);
SERKOVIU_FIELD(serkoviu_scale, high, 4);
SERKOVIU_LAYOUT(serkoviu_kept, 8, 4);
SERKOVIU_FIELD(serkoviu_kept, some, 0);
SERKOVIU_FIELD(serkoviu_kept, value, 4);
SERKOVIU_LAYOUT(serkoviu_ain_settings, 56, 4);
SERKOVIU_FIELD(serkoviu_ain_settings, target, 0);
SERKOVIU_FIELD(serkoviu_ain_settings, pv_scale, 4);
SERKOVIU_FIELD(serkoviu_ain_settings, out_scale, 12);
SERKOVIU_FIELD(serkoviu_ain_settings, lin_type, 20);
SERKOVIU_FIELD(serkoviu_ain_settings, pv_ftime, 24);
SERKOVIU_FIELD(serkoviu_ain_settings, fsafe_type, 28);
SERKOVIU_FIELD(serkoviu_ain_settings, fsafe_value, 32);
SERKOVIU_FIELD(serkoviu_ain_settings, alarm_hys, 36);
SERKOVIU_FIELD(serkoviu_ain_settings, hi_hi_lim, 40);
SERKOVIU_FIELD(serkoviu_ain_settings, hi_lim, 44);
SERKOVIU_FIELD(serkoviu_ain_settings, lo_lim, 48);
SERKOVIU_FIELD(serkoviu_ain_settings, lo_lo_lim, 52);
SERKOVIU_LAYOUT(serkoviu_alarms, 4, 1);
SERKOVIU_FIELD(serkoviu_alarms, hi_hi, 0);
SERKOVIU_FIELD(serkoviu_alarms, hi, 1);
SERKOVIU_FIELD(serkoviu_alarms, lo, 2);
SERKOVIU_FIELD(serkoviu_alarms, lo_lo, 3);
SERKOVIU_LAYOUT(serkoviu_ain_state, 40, 4);
SERKOVIU_FIELD(serkoviu_ain_state, out, 0);
SERKOVIU_FIELD(serkoviu_ain_state, mode, 8);
SERKOVIU_FIELD(serkoviu_ain_state, filter, 12);
SERKOVIU_FIELD(serkoviu_ain_state, last, 20);
SERKOVIU_FIELD(serkoviu_ain_state, operator_pair, 28);
SERKOVIU_FIELD(serkoviu_ain_state, alarms, 36);
SERKOVIU_LAYOUT(serkoviu_point, 8, 4);
SERKOVIU_FIELD(serkoviu_point, x, 0);
SERKOVIU_FIELD(serkoviu_point, y, 4);
SERKOVIU_LAYOUT(serkoviu_table, 172, 4);
SERKOVIU_FIELD(serkoviu_table, count, 0);
SERKOVIU_FIELD(serkoviu_table, points, 4);
SERKOVIU_LAYOUT(serkoviu_tot_settings, 20, 4);
SERKOVIU_FIELD(serkoviu_tot_settings, target, 0);
SERKOVIU_FIELD(serkoviu_tot_settings, set_tot, 4);
SERKOVIU_FIELD(serkoviu_tot_settings, mode_tot, 8);
SERKOVIU_FIELD(serkoviu_tot_settings, fail_tot, 12);
SERKOVIU_FIELD(serkoviu_tot_settings, preset_tot, 16);
SERKOVIU_LAYOUT(serkoviu_tot_state, 32, 8);
SERKOVIU_FIELD(serkoviu_tot_state, total, 0);
SERKOVIU_FIELD(serkoviu_tot_state, out, 8);
SERKOVIU_FIELD(serkoviu_tot_state, mode, 16);
SERKOVIU_FIELD(serkoviu_tot_state, rate, 20);
SERKOVIU_FIELD(serkoviu_tot_state, operator_status, 28);
SERKOVIU_LAYOUT(serkoviu_ao_settings, 36, 4);
SERKOVIU_FIELD(serkoviu_ao_settings, target, 0);
SERKOVIU_FIELD(serkoviu_ao_settings, pv_scale, 4);
SERKOVIU_FIELD(serkoviu_ao_settings, out_scale, 12);
SERKOVIU_FIELD(serkoviu_ao_settings, fsafe_time, 20);
SERKOVIU_FIELD(serkoviu_ao_settings, fsafe_type, 24);
SERKOVIU_FIELD(serkoviu_ao_settings, fsafe_value, 28);
SERKOVIU_FIELD(serkoviu_ao_settings, increase_close, 32);
SERKOVIU_LAYOUT(serkoviu_ao_input, 16, 4);
SERKOVIU_FIELD(serkoviu_ao_input, some, 0);
SERKOVIU_FIELD(serkoviu_ao_input, value, 4);
SERKOVIU_FIELD(serkoviu_ao_input, silence, 8);
SERKOVIU_FIELD(serkoviu_ao_input, ifs, 12);
SERKOVIU_LAYOUT(serkoviu_ao_state, 52, 4);
SERKOVIU_FIELD(serkoviu_ao_state, out, 0);
SERKOVIU_FIELD(serkoviu_ao_state, mode, 8);
SERKOVIU_FIELD(serkoviu_ao_state, operator_pair, 12);
SERKOVIU_FIELD(serkoviu_ao_state, sp, 20);
SERKOVIU_FIELD(serkoviu_ao_state, rcas_in, 36);
SERKOVIU_LAYOUT(serkoviu_di_settings, 16, 4);
SERKOVIU_FIELD(serkoviu_di_settings, target, 0);
SERKOVIU_FIELD(serkoviu_di_settings, invert, 4);
SERKOVIU_FIELD(serkoviu_di_settings, fsafe_type, 8);
SERKOVIU_FIELD(serkoviu_di_settings, fsafe_val_d, 12);
SERKOVIU_LAYOUT(serkoviu_kept_d, 2, 1);
SERKOVIU_FIELD(serkoviu_kept_d, some, 0);
SERKOVIU_FIELD(serkoviu_kept_d, value, 1);
SERKOVIU_LAYOUT(serkoviu_di_state, 12, 4);
SERKOVIU_FIELD(serkoviu_di_state, out, 0);
SERKOVIU_FIELD(serkoviu_di_state, mode, 4);
SERKOVIU_FIELD(serkoviu_di_state, last, 8);
SERKOVIU_FIELD(serkoviu_di_state, operator_pair, 10);
SERKOVIU_LAYOUT(serkoviu_do_settings, 20, 4);
SERKOVIU_FIELD(serkoviu_do_settings, target, 0);
SERKOVIU_FIELD(serkoviu_do_settings, invert, 4);
SERKOVIU_FIELD(serkoviu_do_settings, fsafe_type, 8);
SERKOVIU_FIELD(serkoviu_do_settings, fsafe_val_d, 12);
SERKOVIU_FIELD(serkoviu_do_settings, fsafe_time, 16);
SERKOVIU_LAYOUT(serkoviu_do_input, 12, 4);
SERKOVIU_FIELD(serkoviu_do_input, some, 0);
SERKOVIU_FIELD(serkoviu_do_input, value, 1);
SERKOVIU_FIELD(serkoviu_do_input, silence, 4);
SERKOVIU_FIELD(serkoviu_do_input, ifs, 8);
SERKOVIU_LAYOUT(serkoviu_do_state, 36, 4);
SERKOVIU_FIELD(serkoviu_do_state, out, 0);
SERKOVIU_FIELD(serkoviu_do_state, mode, 4);
SERKOVIU_FIELD(serkoviu_do_state, operator_pair, 8);
SERKOVIU_FIELD(serkoviu_do_state, sp, 12);
SERKOVIU_FIELD(serkoviu_do_state, rcas_in, 24);
SERKOVIU_LAYOUT(serkoviu_ain_block, 272, 4);
SERKOVIU_FIELD(serkoviu_ain_block, settings, 0);
SERKOVIU_FIELD(serkoviu_ain_block, state, 56);
SERKOVIU_FIELD(serkoviu_ain_block, st_rev, 96);
SERKOVIU_FIELD(serkoviu_ain_block, table, 100);
SERKOVIU_LAYOUT(serkoviu_tot_block, 64, 8);
SERKOVIU_FIELD(serkoviu_tot_block, settings, 0);
SERKOVIU_FIELD(serkoviu_tot_block, state, 24);
SERKOVIU_FIELD(serkoviu_tot_block, st_rev, 56);
SERKOVIU_LAYOUT(serkoviu_ao_block, 92, 4);
SERKOVIU_FIELD(serkoviu_ao_block, settings, 0);
SERKOVIU_FIELD(serkoviu_ao_block, state, 36);
SERKOVIU_FIELD(serkoviu_ao_block, st_rev, 88);
SERKOVIU_LAYOUT(serkoviu_di_block, 32, 4);
SERKOVIU_FIELD(serkoviu_di_block, settings, 0);
SERKOVIU_FIELD(serkoviu_di_block, state, 16);
SERKOVIU_FIELD(serkoviu_di_block, st_rev, 28);
SERKOVIU_LAYOUT(serkoviu_do_block, 60, 4);
SERKOVIU_FIELD(serkoviu_do_block, settings, 0);
SERKOVIU_FIELD(serkoviu_do_block, state, 20);
SERKOVIU_FIELD(serkoviu_do_block, st_rev, 56);
SERKOVIU_LAYOUT(serkoviu_device, 528, 8);
SERKOVIU_FIELD(serkoviu_device, write_locking, 0);
SERKOVIU_FIELD(serkoviu_device, ain, 4);
SERKOVIU_FIELD(serkoviu_device, tot, 280);
SERKOVIU_FIELD(serkoviu_device, ao, 344);
SERKOVIU_FIELD(serkoviu_device, di, 436);
SERKOVIU_FIELD(serkoviu_device, dout, 468);
SERKOVIU_LAYOUT(serkoviu_order, 8, 4);
SERKOVIU_FIELD(serkoviu_order, kind, 0);
SERKOVIU_FIELD(serkoviu_order, value, 4);
SERKOVIU_LAYOUT(serkoviu_order_d, 2, 1);
SERKOVIU_FIELD(serkoviu_order_d, kind, 0);
SERKOVIU_FIELD(serkoviu_order_d, value, 1);
SERKOVIU_LAYOUT(serkoviu_orders, 12, 4);
SERKOVIU_FIELD(serkoviu_orders, ao, 0);
SERKOVIU_FIELD(serkoviu_orders, dout, 8);
SERKOVIU_LAYOUT(serkoviu_reading, 12, 4);
SERKOVIU_FIELD(serkoviu_reading, answer, 0);
SERKOVIU_FIELD(serkoviu_reading, first, 4);
SERKOVIU_FIELD(serkoviu_reading, second, 8);

#undef SERKOVIU_FIELD
#undef SERKOVIU_LAYOUT
#undef SERKOVIU_ALIGNMENT
#undef SERKOVIU_ASSERT

#ifdef __cplusplus
}
#endif

#endif
