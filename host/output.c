/* Writing: messages, file names and JSON strings on one line, files of bytes, and that nothing written is lost unnoticed. */
#define _POSIX_C_SOURCE 200809L
#include "output.h"

#include <errno.h>
#include <fcntl.h>
#include <stdarg.h>
#include <stdlib.h>
#include <string.h>
#include <unistd.h>

#include "command.h"

void complain(const char *format, ...)
{
    va_list arguments;
    va_start(arguments, format);
    fputs("sagepliers: ", stderr);
    vfprintf(stderr, format, arguments);
    putc('\n', stderr);
    va_end(arguments);
}

void *need(void *memory)
{
    if (memory == NULL) {
        complain("out of memory");
        exit(FAILED);
    }
    return memory;
}

void hold_standard_files(void)
{
    /* Opened the wrong way round, so that reading the one and writing the others goes on failing. */
    for (int file = 0; file <= 2; file++)
        if (fcntl(file, F_GETFD) == -1 && errno == EBADF && open("/dev/null", file == 0 ? O_WRONLY : O_RDONLY) != file)
            _exit(FAILED);
}

bool output_failed(void)
{
    return ferror(stdout) != 0;
}

void close_output(void)
{
    bool failed = output_failed();
    errno = 0;
    if (fclose(stdout) != 0)
        failed = true;
    if (failed) {
        int error = errno;
        if (error != 0)
            complain("cannot write the answer: %s", strerror(error));
        else
            complain("cannot write the answer");
        _exit(FAILED);
    }
}

static bool write_all(int file, const uint8_t *bytes, size_t count)
{
    while (count > 0) {
        ssize_t written = write(file, bytes, count);
        if (written < 0 && errno == EINTR)
            continue;
        if (written < 0)
            return false;
        bytes += written;
        count -= (size_t)written;
    }
    return true;
}

bool write_file(const char *name, const uint8_t *bytes, size_t count)
{
    if (strcmp(name, "-") == 0)
        return fwrite(bytes, 1, count, stdout) == count; /* close_output has the message */
    int file = open(name, O_WRONLY | O_CREAT | O_TRUNC | O_CLOEXEC | O_NOCTTY, 0666);
    bool written = file != -1 && write_all(file, bytes, count);
    int error = errno;
    if (file != -1 && close(file) != 0 && written) {
        error = errno;
        written = false;
    }
    if (!written)
        complain("cannot write %s: %s", shown_name(name), strerror(error));
    return written;
}

/* The bytes of the UTF-8 character at the front of the text, or 0 if there is none. Overlong forms and surrogates are none. */
static size_t utf8_character(const char *text)
{
    const unsigned char *t = (const unsigned char *)text;
    if (t[0] < 0x80)
        return 1;
    size_t length = t[0] >= 0xc2 && t[0] <= 0xdf ? 2 : (t[0] & 0xf0) == 0xe0 ? 3 : t[0] >= 0xf0 && t[0] <= 0xf4 ? 4 : 0;
    for (size_t i = 1; i < length; i++)
        if ((t[i] & 0xc0) != 0x80)
            return 0;
    if ((t[0] == 0xe0 && t[1] < 0xa0) || (t[0] == 0xed && t[1] > 0x9f) || (t[0] == 0xf0 && t[1] < 0x90) || (t[0] == 0xf4 && t[1] > 0x8f))
        return 0;
    return length;
}

/* Whether the UTF-8 character is a control character, ends a line, has no width, or turns the direction of what follows. */
static bool unseen(const char *character)
{
    const unsigned char *t = (const unsigned char *)character;
    if (t[0] < 0x20 || t[0] == 0x7f || (t[0] == 0xc2 && t[1] < 0xa0))
        return true;
    if (t[0] == 0xe2 && t[1] == 0x80) /* U+200B to U+200F, U+2028 to U+202E */
        return (t[2] >= 0x8b && t[2] <= 0x8f) || (t[2] >= 0xa8 && t[2] <= 0xae);
    return t[0] == 0xe2 && t[1] == 0x81 && t[2] >= 0xa0 && t[2] <= 0xaf; /* U+2060 to U+206F */
}

/* Whether a terminal shows the text on one line and as it is. */
static bool printable(const char *text)
{
    for (const char *t = text; *t != '\0';) {
        size_t length = utf8_character(t);
        if (length == 0 || unseen(t))
            return false;
        t += length;
    }
    return true;
}

const char *shown_name(const char *name)
{
    static char *shown[4];
    static size_t turn;
    if (name[0] != '\0' && strncmp(name, "$'", 2) != 0 && printable(name))
        return name;
    turn = (turn + 1) % (sizeof shown / sizeof *shown);
    free(shown[turn]);
    char *out = shown[turn] = need(malloc(4 * strlen(name) + sizeof "$''"));
    out += sprintf(out, "$'");
    for (; *name != '\0'; name++) {
        unsigned char c = (unsigned char)*name;
        if (c == '\n')
            out += sprintf(out, "\\n");
        else if (c == '\'' || c == '\\')
            out += sprintf(out, "\\%c", c);
        else if (c < 0x20 || c >= 0x7f)
            out += sprintf(out, "\\%03o", (unsigned)c);
        else
            *out++ = (char)c;
    }
    strcpy(out, "'");
    return shown[turn];
}

void put_json_string(const char *text)
{
    putchar('"');
    while (*text != '\0') {
        size_t length = utf8_character(text);
        unsigned char first = (unsigned char)*text;
        if (length == 0) {
            fputs("\\ufffd", stdout);
            length = 1;
        } else if (first == '"' || first == '\\') {
            printf("\\%c", first);
        } else if (first < 0x20 || first == 0x7f) {
            printf("\\u%04x", (unsigned)first);
        } else {
            fwrite(text, 1, length, stdout);
        }
        text += length;
    }
    putchar('"');
}

void put_json_file(const char *name)
{
    bool utf8 = true;
    for (const char *t = name; *t != '\0' && utf8;) {
        size_t length = utf8_character(t);
        utf8 = length != 0;
        t += length;
    }
    fputs("\"file\":", stdout);
    put_json_string(name);
    if (!utf8) {
        fputs(",\"file_hex\":\"", stdout);
        for (; *name != '\0'; name++)
            printf("%02x", (unsigned)(unsigned char)*name);
        putchar('"');
    }
}
