/* numeral: answers each line of standard input, `print u128 naive traditional lower 123` with
 * `ok 一二三`, as docs/RULES.md says under "Lines". It writes the same bytes as the proved program of
 * that name, and ends with the same status.
 *
 *     cc -O2 numeral.c chinese_number.c -o numeral
 *
 * Its status is 0 if everything was read and answered, 1 if a read or a write failed, and 2 if there
 * is no memory for a line. The C source also has no answer to a line of more than 4,293,918,208
 * bytes; the status is then 2. */
#include "chinese_number.h"

#include <signal.h>
#include <stdlib.h>
#include <string.h>
#ifdef _WIN32
#include <fcntl.h>
#include <io.h>
#else
#include <unistd.h>
#endif

enum { DONE, FAILED, NO_MEMORY };
enum { BLOCK = 65536 };

static struct { uint8_t bytes[BLOCK]; size_t length; } output;
/* The start of a line that continues in the next block. */
static struct { uint8_t *bytes; size_t length, most; } kept;

/* Writes the answers that are held back. After a failure they are not written again. */
static int flush(void) {
    size_t at = 0, length = output.length;
    output.length = 0;
    while (at < length) {
        long count = (long)write(1, output.bytes + at, length - at);
        if (count <= 0)
            return FAILED;
        at += (size_t)count;
    }
    return DONE;
}

static int answer(const uint8_t *line, size_t length) {
    size_t count;
    if (BLOCK - output.length <= CN_MOST_ANSWER_BYTES && flush() != DONE)
        return FAILED;
    if (chinese_number_answer_line(line, length, output.bytes + output.length, CN_MOST_ANSWER_BYTES,
                                   &count) != CN_DONE)
        return NO_MEMORY;
    output.length += count;
    output.bytes[output.length++] = '\n';
    return DONE;
}

static int keep(const uint8_t *bytes, size_t length) {
    if (length > kept.most - kept.length) {
        size_t most = kept.length < SIZE_MAX / 2 - length ? 2 * (kept.length + length) : 0;
        uint8_t *more = most == 0 ? NULL : realloc(kept.bytes, most);
        if (more == NULL)
            return NO_MEMORY;
        kept.bytes = more;
        kept.most = most;
    }
    if (length > 0)
        memcpy(kept.bytes + kept.length, bytes, length);
    kept.length += length;
    return DONE;
}

/* Answers the line that begins with the bytes that are kept and ends with these. */
static int answer_kept(const uint8_t *bytes, size_t length) {
    int status;
    if (kept.length == 0)
        return answer(bytes, length);
    status = keep(bytes, length);
    if (status == DONE)
        status = answer(kept.bytes, kept.length);
    kept.length = 0;
    return status;
}

/* Answers each line that ends in these bytes, and keeps the rest. */
static int answer_ended(const uint8_t *bytes, size_t length) {
    const uint8_t *feed;
    while ((feed = memchr(bytes, '\n', length)) != NULL) {
        size_t of_line = (size_t)(feed - bytes);
        int status = answer_kept(bytes, of_line);
        if (status != DONE)
            return status;
        bytes += of_line + 1;
        length -= of_line + 1;
    }
    return keep(bytes, length);
}

/* Before each read, which may have to wait, all answers are written. */
static int run(void) {
    static uint8_t block[BLOCK];
    for (;;) {
        long count;
        int status = flush();
        if (status != DONE)
            return status;
        count = (long)read(0, block, BLOCK);
        if (count < 0)
            return FAILED;
        if (count == 0)
            return kept.length == 0 ? DONE : answer(kept.bytes, kept.length);
        status = answer_ended(block, (size_t)count);
        if (status != DONE)
            return status;
    }
}

int main(void) {
    int status, flushed;
#ifdef SIGPIPE
    signal(SIGPIPE, SIG_IGN); /* so that a write to a closed pipe fails */
#endif
#ifdef _WIN32
    _setmode(0, _O_BINARY);
    _setmode(1, _O_BINARY);
#endif
    status = run();
    flushed = flush();
    return status == DONE ? flushed : status;
}
