/* Values of datasets. The script `values.py` draws datasets and values, and gives them to this as
 * lines of numbers; it compares what comes back with what the client in Python makes of the same.
 *
 *     test_values
 *
 * A line has: how many datasets; of each, how many elements, and of each of these its type (a
 * number of the header, or 100 and the index of a dataset before), its size and the room of its
 * member; the index of the dataset of the value; the numbers of the value; its bytes; how many
 * other bytes, and these. A line comes back: the error and the bytes of pack; the error and the
 * numbers of unpack; and of the other bytes the error, and what pack makes of them. */
#include "trdp_slot.h"

#include <math.h>
#include <stdio.h>
#include <stdlib.h>

enum { MOST = 8, NESTED = 100 };

static struct trdp_slot_element elements[MOST][TRDP_SLOT_ELEMENTS];
static struct trdp_slot_dataset datasets[MOST];
static char *rest; /* of the line */

/* The next word of the line. */
static char *word(void)
{
    char *found = strtok(rest, " \n");
    rest = NULL;
    if (found == NULL)
        abort();
    return found;
}

static size_t number(void)
{
    return (size_t)strtoull(word(), NULL, 10);
}

/* Reads the datasets. Each member is after the one before, with a byte between them, so that
 * none is where its type would have it. */
static void read_datasets(void)
{
    size_t count = number();
    if (count > MOST)
        abort();
    for (size_t i = 0; i < count; i++) {
        struct trdp_slot_dataset *dataset = &datasets[i];
        dataset->elements = elements[i];
        dataset->count = number();
        dataset->size = 1;
        for (size_t j = 0; j < dataset->count; j++) {
            struct trdp_slot_element *element = &elements[i][j];
            size_t type = number();
            element->type = type < NESTED ? (enum trdp_slot_type)type : TRDP_SLOT_NESTED;
            element->dataset = type < NESTED ? NULL : &datasets[type - NESTED];
            element->size = (uint32_t)number();
            element->room = number();
            element->item = trdp_slot_item(element);
            element->offset = dataset->size;
            dataset->size += element->item * element->room + 1;
        }
    }
}

/* Whether the numbers of a type are below 0 too. */
static bool is_signed(enum trdp_slot_type type)
{
    return type >= TRDP_SLOT_INT8 && type <= TRDP_SLOT_INT64;
}

static bool is_real(enum trdp_slot_type type)
{
    return type == TRDP_SLOT_REAL32 || type == TRDP_SLOT_REAL64;
}

/* Reads a REAL from the line into its member: its number, or `nan` and the bits of a NaN. */
static void read_real(enum trdp_slot_type type, uint8_t *at)
{
    const char *text = word();
    if (strncmp(text, "nan", 3) == 0) {
        trdp_slot_store(at, trdp_slot_width(type), strtoull(text + 3, NULL, 10));
    } else if (type == TRDP_SLOT_REAL32) {
        float real = strtof(text, NULL);
        memcpy(at, &real, sizeof real);
    } else {
        double real = strtod(text, NULL);
        memcpy(at, &real, sizeof real);
    }
}

/* Prints a REAL in the same way. */
static void print_real(enum trdp_slot_type type, const uint8_t *at)
{
    float single = 0;
    double real = 0;
    if (type == TRDP_SLOT_REAL32)
        memcpy(&single, at, sizeof single);
    else
        memcpy(&real, at, sizeof real);
    if (isnan(single) || isnan(real))
        printf(" nan%llu", (unsigned long long)trdp_slot_load(at, trdp_slot_width(type)));
    else if (type == TRDP_SLOT_REAL32)
        printf(" %.9g", (double)single);
    else
        printf(" %.17g", real);
}

/* Reads an item of a basic type from the line into its member. */
static void read_item(enum trdp_slot_type type, uint8_t *at)
{
    if (is_real(type)) {
        read_real(type, at);
    } else if (type == TRDP_SLOT_TIMEDATE48) {
        struct trdp_slot_timedate48 time;
        memset(&time, 0, sizeof time);
        time.seconds = (uint32_t)number();
        time.ticks = (uint16_t)number();
        memcpy(at, &time, sizeof time);
    } else if (type == TRDP_SLOT_TIMEDATE64) {
        struct trdp_slot_timedate64 time;
        time.seconds = (uint32_t)number();
        time.microseconds = (uint32_t)number();
        memcpy(at, &time, sizeof time);
    } else if (is_signed(type)) {
        trdp_slot_store(at, trdp_slot_width(type), (uint64_t)strtoll(word(), NULL, 10));
    } else {
        trdp_slot_store(at, trdp_slot_width(type), number());
    }
}

/* Prints an item of a basic type. */
static void print_item(enum trdp_slot_type type, const uint8_t *at)
{
    size_t width = trdp_slot_width(type);
    if (is_real(type)) {
        print_real(type, at);
    } else if (type == TRDP_SLOT_TIMEDATE48) {
        struct trdp_slot_timedate48 time;
        memcpy(&time, at, sizeof time);
        printf(" %u %u", (unsigned)time.seconds, (unsigned)time.ticks);
    } else if (type == TRDP_SLOT_TIMEDATE64) {
        struct trdp_slot_timedate64 time;
        memcpy(&time, at, sizeof time);
        printf(" %u %u", (unsigned)time.seconds, (unsigned)time.microseconds);
    } else if (is_signed(type)) {
        uint64_t bits = trdp_slot_load(at, width) << (64 - 8 * width);
        printf(" %lld", (long long)(int64_t)bits / (1LL << (64 - 8 * width)));
    } else {
        printf(" %llu", (unsigned long long)trdp_slot_load(at, width));
    }
}

/* Reads the numbers of a value from the line into its struct, or prints them. */
static void transfer(const struct trdp_slot_dataset *dataset, uint8_t *value, bool is_read)
{
    uint64_t counted = 0;
    for (size_t i = 0; i < dataset->count; i++) {
        const struct trdp_slot_element *element = &dataset->elements[i];
        uint64_t items = element->size > 0 ? element->size : counted;
        for (uint64_t item = 0; item < items; item++) {
            uint8_t *at = value + element->offset + item * element->item;
            if (element->type == TRDP_SLOT_NESTED)
                transfer(element->dataset, at, is_read);
            else if (is_read)
                read_item(element->type, at);
            else
                print_item(element->type, at);
        }
        counted = trdp_slot_counts_array(element)
            ? trdp_slot_load(value + element->offset, element->item) : 0;
    }
}

/* The bytes that the next word says, in memory of just their length. */
static uint8_t *bytes_of_word(size_t *length)
{
    const char *digits = word();
    size_t count = strcmp(digits, "-") == 0 ? 0 : strlen(digits) / 2;
    uint8_t *bytes = malloc(count > 0 ? count : 1);
    if (bytes == NULL)
        abort();
    struct trdp_slot_digits found = { digits, count };
    trdp_slot_decode(found, bytes, count);
    *length = count;
    return bytes;
}

static void print_bytes(const uint8_t *bytes, size_t length)
{
    printf(length == 0 ? " -" : " ");
    for (size_t i = 0; i < length; i++)
        printf("%02x", bytes[i]);
}

/* What pack makes of a value: its error, and its bytes, in room of just their length. */
static void pack(const struct trdp_slot_dataset *dataset, const uint8_t *value)
{
    size_t length = 0, again = 0;
    uint8_t front[1];
    enum trdp_slot_error error = trdp_slot_pack(dataset, value, front, 1, &length);
    uint8_t *bytes = malloc(length > 0 ? length : 1);
    if (bytes == NULL)
        abort();
    if (error == TRDP_SLOT_CUT)
        error = trdp_slot_pack(dataset, value, bytes, length, &again);
    else
        bytes[0] = front[0];
    printf(" %d", (int)error);
    print_bytes(bytes, error == TRDP_SLOT_OK ? length : 0);
    free(bytes);
}

int main(void)
{
    char *line = NULL;
    size_t room = 0;
    while (getline(&line, &room, stdin) > 0) {
        rest = line;
        read_datasets();
        const struct trdp_slot_dataset *dataset = &datasets[number()];
        uint8_t *value = calloc(1, dataset->size), *unpacked = malloc(dataset->size);
        if (value == NULL || unpacked == NULL)
            abort();
        transfer(dataset, value, true);
        printf("pack");
        pack(dataset, value);
        size_t length;
        uint8_t *bytes = bytes_of_word(&length);
        printf(" unpack %d", (int)trdp_slot_unpack(dataset, bytes, length, unpacked));
        transfer(dataset, unpacked, false);
        free(bytes);
        for (size_t others = number(); others > 0; others--) {
            bytes = bytes_of_word(&length);
            enum trdp_slot_error error = trdp_slot_unpack(dataset, bytes, length, unpacked);
            printf(" other %d", (int)error);
            if (error == TRDP_SLOT_OK)
                pack(dataset, unpacked);
            free(bytes);
        }
        printf("\n");
        free(value);
        free(unpacked);
    }
    free(line);
    return 0;
}
