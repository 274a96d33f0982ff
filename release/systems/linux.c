/* What compiled Rattle programs call on Linux beside the C library: errno, and the arguments. The toolchain has these
 * functions for glibc on x86-64; these do the same over musl, which lacks one of glibc's too. */
#include <errno.h>
#include <signal.h>
#include <stddef.h>
#include <stdint.h>
#include <unistd.h>

enum { NO_ARGUMENT = -1, NO_ROOM = -2 };

static int count;
static char **arguments;

/* musl passes no arguments to constructors, so that the linker calls the program's `main` from here. */
int __real_main(int argc, char **argv);
int __wrap_main(int argc, char **argv);

int __wrap_main(int argc, char **argv)
{
    count = argc;
    arguments = argv;
    return __real_main(argc, argv);
}

int rattle_errno(void)
{
    return errno;
}

void rattle_set_errno(int error)
{
    errno = error;
}

/* Copies the bytes of an argument, and returns how many they are. */
int64_t rattle_arg(size_t index, char *buffer, size_t size)
{
    size_t length = 0;
    const char *argument = index < (size_t)count ? arguments[index] : NULL;
    if (!argument)
        return NO_ARGUMENT;
    while (argument[length]) {
        if (length == size)
            return NO_ROOM;
        buffer[length] = argument[length];
        length++;
    }
    return (int64_t)length;
}

/* What a compiled `main` writes with if the processor lacks instructions. */
ssize_t __write(int file, const void *bytes, size_t size);

ssize_t __write(int file, const void *bytes, size_t size)
{
    return write(file, bytes, size);
}

/* The programs ignore SIGPIPE by it, which any form of `signal` does. */
typedef void Handler(int);
Handler *__sysv_signal(int number, Handler *handler);

Handler *__sysv_signal(int number, Handler *handler)
{
    return signal(number, handler);
}
