/* Draws in place of the system. Each draw of eight bytes is a line of the file DREW: their sixteen digits. With GIVEN it gives these digits, or is
   refused. */
#define _GNU_SOURCE
#include <errno.h>
#include <fcntl.h>
#include <stdio.h>
#include <stdlib.h>
#include <string.h>
#include <sys/syscall.h>
#include <unistd.h>

int getentropy(void *to, size_t length)
{
    const char *given = getenv("GIVEN"), *drew = getenv("DREW");
    unsigned long long number = 0;
    char line[64];
    int file;

    if (given && !strcmp(given, "refused")) {
        errno = EIO;
        return -1;
    }
    if (given) {
        memset(to, 0, length);
        number = strtoull(given, NULL, 16);
        memcpy(to, &number, length < 8 ? length : 8);
    } else if (syscall(SYS_getrandom, to, length, 0) != (long)length) {
        return -1;
    }
    memcpy(&number, to, length < 8 ? length : 8);
    file = drew ? open(drew, O_WRONLY | O_CREAT | O_APPEND, 0666) : -1;
    if (file >= 0) {
        length = sprintf(line, "%016llx\n", number);
        if (write(file, line, length) != (long)length) return -1;
        close(file);
    }
    return 0;
}
