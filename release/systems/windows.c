/* What compiled Rattle programs call on Windows, over its C run-time: the functions of POSIX, with the numbers of Linux.
 * Input and output are binary, arguments and names of files are UTF-8, and a pipe whose reader has closed it is EPIPE. */
#include <errno.h>
#include <fcntl.h>
#include <io.h>
#include <stddef.h>
#include <stdint.h>
#include <stdio.h>
#include <stdlib.h>
#include <string.h>
#include <windows.h>

enum { NO_ARGUMENT = -1, NO_ROOM = -2, MOST = 1 << 30, LONGEST_NAME = 32768 };
enum { LINUX_ACCESS = 3, LINUX_EPIPE = 32, LINUX_ERANGE = 34 };

/* `cvss audit *.json` gets its words as they were typed, as from other programs that are not a shell's own. */
int _dowildcard = 0;

static int count;
static char **arguments;
static int last_error;

/* The linker calls the program's `main` from here, and the functions below in place of those of the C run-time. */
int __real_main(void);

/* Programs read an argument as a vector if it has a colon before its first slash. One that begins as C:\ does, or C:/, as no
 * vector does, is a path: "./" is put before it, which `open` takes off again. */
static int is_from_drive(const wchar_t *path)
{
    wchar_t letter = path[0] | 0x20;
    return letter >= 'a' && letter <= 'z' && path[1] == ':' && (path[2] == '\\' || path[2] == '/');
}

static char *to_utf8(const wchar_t *wide)
{
    size_t before = is_from_drive(wide) ? 2 : 0;
    int size = WideCharToMultiByte(CP_UTF8, 0, wide, -1, NULL, 0, NULL, NULL);
    char *made = malloc(before + (size_t)size);
    if (made) {
        memcpy(made, "./", before);
        WideCharToMultiByte(CP_UTF8, 0, wide, -1, made + before, size, NULL, NULL);
    }
    return made;
}

/* Whether there was memory for the arguments. */
static int keep_arguments(int argc, wchar_t **argv)
{
    arguments = malloc((size_t)argc * sizeof *arguments);
    while (arguments && count < argc) {
        arguments[count] = to_utf8(argv[count]);
        if (!arguments[count])
            return 0;
        count++;
    }
    return arguments != NULL;
}

int wmain(int argc, wchar_t **argv)
{
    UINT page = GetConsoleOutputCP();
    int file, status;
    if (!keep_arguments(argc, argv)) {
        fputs("out of memory\n", stderr);
        return 2;
    }
    for (file = 0; file < 3; file++)
        _setmode(file, _O_BINARY);
    SetConsoleOutputCP(CP_UTF8);
    status = __real_main();
    SetConsoleOutputCP(page);
    return status;
}

int rattle_errno(void)
{
    return last_error;
}

void rattle_set_errno(int error)
{
    last_error = error;
}

/* Copies the bytes of an argument, and returns how many they are. */
int64_t rattle_arg(size_t index, char *buffer, size_t size)
{
    const char *argument = index < (size_t)count ? arguments[index] : NULL;
    size_t length;
    if (!argument)
        return NO_ARGUMENT;
    length = strlen(argument);
    if (length > size)
        return NO_ROOM;
    memcpy(buffer, argument, length);
    return (int64_t)length;
}

/* The errors that programs distinguish have the same numbers in the C run-time and on Linux. */
static int64_t checked(int64_t result)
{
    if (result < 0)
        last_error = errno;
    return result;
}

static unsigned at_most(size_t size)
{
    return size < MOST ? (unsigned)size : MOST;
}

int64_t __wrap_read(int file, void *bytes, size_t size)
{
    int64_t length = _read(file, bytes, at_most(size));
    /* the other end of a pipe was closed: there is no more to read */
    if (length < 0 && GetLastError() == ERROR_BROKEN_PIPE)
        return 0;
    return checked(length);
}

int64_t __wrap_write(int file, const void *bytes, size_t size)
{
    int64_t length = checked(_write(file, bytes, at_most(size)));
    /* the C run-time has several numbers for it */
    if (length < 0 && GetFileType((HANDLE)_get_osfhandle(file)) == FILE_TYPE_PIPE)
        last_error = LINUX_EPIPE;
    return length;
}

/* What a compiled `main` writes with if the processor lacks instructions. */
int64_t __write(int file, const void *bytes, size_t size)
{
    return __wrap_write(file, bytes, size);
}

/* Programs open files to read them, and never otherwise. */
int __wrap_open(const char *name, int flags, int mode)
{
    wchar_t wide[LONGEST_NAME];
    const wchar_t *path;
    (void)mode;
    last_error = EINVAL;
    if (flags & LINUX_ACCESS)
        return -1;
    last_error = ENOENT;
    if (!MultiByteToWideChar(CP_UTF8, MB_ERR_INVALID_CHARS, name, -1, wide, LONGEST_NAME))
        return -1;
    path = wcsncmp(wide, L"./", 2) == 0 && is_from_drive(wide + 2) ? wide + 2 : wide;
    return (int)checked(_wopen(path, _O_RDONLY | _O_BINARY | _O_NOINHERIT));
}

int __wrap_close(int file)
{
    return (int)checked(_close(file));
}

int __xpg_strerror_r(int error, char *buffer, size_t size)
{
    const char *text = strerror(error);
    if (strlen(text) >= size)
        return LINUX_ERANGE;
    strcpy(buffer, text);
    return 0;
}

/* A write to a closed pipe sends no signal. */
void *__sysv_signal(int number, void *handler)
{
    (void)number;
    (void)handler;
    return NULL;
}
