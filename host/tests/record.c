/* Preloaded into a test's process on Linux: notes each write, cut, sync, rename and link of the files in a folder, in
 * order, and then makes it; of a rename or link it notes the new name. The environment names the folder and the list;
 * in RECORD_FAILS it may have a line of the list, such as "sync /log": then what is noted so is not made, and fails.
 * With RECORD_UNLOCKS each file that is removed or unlocked is noted too.
 * With RECORD_SIGXFSZ a write beyond the limit of a file's size kills the process, also if it was started by one that
 * ignores that signal. */
#define _GNU_SOURCE
#include <errno.h>
#include <fcntl.h>
#include <signal.h>
#include <stdio.h>
#include <stdlib.h>
#include <string.h>
#include <sys/file.h>
#include <sys/syscall.h>
#include <unistd.h>

__attribute__((constructor)) static void begin(void)
{
    if (getenv("RECORD_SIGXFSZ"))
        signal(SIGXFSZ, SIG_DFL);
}

/* Whether the call is to fail. */
static int note_name(const char *call, const char *name)
{
    char line[5000];
    const char *folder = getenv("RECORD_FOLDER"), *list = getenv("RECORD_LIST"), *fails = getenv("RECORD_FAILS");
    if (!folder || !list || strncmp(name, folder, strlen(folder)) != 0)
        return 0;
    int out = open(list, O_WRONLY | O_APPEND | O_CREAT, 0600);
    int bytes = snprintf(line, sizeof line, "%s %s\n", call, name + strlen(folder));
    if (syscall(SYS_write, out, line, (size_t)bytes) != bytes)
        abort();
    close(out);
    line[bytes - 1] = 0;
    errno = EIO;
    return fails && strcmp(line, fails) == 0;
}

static int note(const char *call, int file)
{
    char link[64], name[4096];
    snprintf(link, sizeof link, "/proc/self/fd/%d", file);
    ssize_t length = readlink(link, name, sizeof name - 1);
    if (length < 0)
        return 0;
    name[length] = 0;
    return note_name(call, name);
}

ssize_t write(int file, const void *bytes, size_t count)
{
    return note("write", file) ? -1 : syscall(SYS_write, file, bytes, count);
}

int ftruncate64(int file, off64_t length)
{
    return note("cut", file) ? -1 : (int)syscall(SYS_ftruncate, file, length);
}

int fsync(int file)
{
    return note("sync", file) ? -1 : (int)syscall(SYS_fsync, file);
}

int rename(const char *from, const char *to)
{
    return note_name("rename", to) ? -1 : (int)syscall(SYS_rename, from, to);
}

int linkat(int from_folder, const char *from, int to_folder, const char *to, int flags)
{
    return note_name("link", to) ? -1 : (int)syscall(SYS_linkat, from_folder, from, to_folder, to, flags);
}

int unlink(const char *name)
{
    return getenv("RECORD_UNLOCKS") && note_name("remove", name) ? -1 : (int)syscall(SYS_unlink, name);
}

int flock(int file, int operation)
{
    if (operation == LOCK_UN && getenv("RECORD_UNLOCKS") && note("unlock", file))
        return -1;
    return (int)syscall(SYS_flock, file, operation);
}
