// Gives a program, before its `main`, the stream that its argument names in place of one that it was started with.
#include <fcntl.h>
#include <string.h>
#include <unistd.h>

struct stream {
    const char *name;
    int descriptor;
    const char *path;
    int mode;
};

static const struct stream streams[] = {
    {"input-is-a-folder", STDIN_FILENO, "/", O_RDONLY},
    {"input-is-write-only", STDIN_FILENO, "/dev/null", O_WRONLY},
    {"output-is-full", STDOUT_FILENO, "/dev/full", O_WRONLY},
    {"errors-are-full", STDERR_FILENO, "/dev/full", O_WRONLY},
};

static void replace(const char *name) {
    for (size_t at = 0; at < sizeof streams / sizeof *streams; at++) {
        const struct stream *stream = &streams[at];
        if (strcmp(stream->name, name) == 0 && dup2(open(stream->path, stream->mode), stream->descriptor) >= 0) {
            return;
        }
    }
    _exit(99);
}

__attribute__((constructor)) static void replace_named(int count, char **arguments) {
    for (int at = 1; at < count; at++) {
        replace(arguments[at]);
    }
}
