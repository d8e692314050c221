/* The calls of chinese_number.h, made by a process of Java, Same.java: its standard input and output
 * are the descriptors 4 and 3 here. */
#include "chinese_number.h"
#include <stdio.h>
#include <stdlib.h>
#include <string.h>
#include <unistd.h>

/* A number, or bytes and how many there are. */
typedef struct argument {
    uint64_t value;
    void *bytes;
} argument;

static uint8_t message[1 << 16];
static size_t length;

static void add(const void *bytes, size_t count) {
    memcpy(message + length, bytes, count);
    length += count;
}

static void add_byte(size_t byte) {
    message[length++] = (uint8_t)byte;
}

static void take(void *bytes, size_t count) {
    uint8_t *to = bytes;
    while (count > 0) {
        ssize_t done = read(3, to, count);
        if (done <= 0) {
            fputs("calls: no answer\n", stderr);
            exit(1);
        }
        to += done;
        count -= (size_t)done;
    }
}

static uint32_t ask(const char *name, const argument *all, size_t count) {
    uint32_t status;
    length = 0;
    add_byte(strlen(name));
    add(name, strlen(name));
    add_byte(count);
    for (size_t i = 0; i < count; i++) {
        add_byte(all[i].bytes != NULL);
        add(&all[i].value, 8);
        if (all[i].bytes != NULL)
            add(all[i].bytes, all[i].value);
    }
    if (write(4, message, length) != (ssize_t)length)
        exit(1);
    take(&status, sizeof status);
    for (size_t i = 0; i < count; i++)
        if (all[i].bytes != NULL)
            take(all[i].bytes, all[i].value);
    return status;
}
