/* Makes folders behave as disks that are slow. It is preloaded (LD_PRELOAD) into a program of which disks.py takes the time.
 *
 * Each first folder below SLOW_ROOT is a disk. It serves one reading at a time, at SLOW_RATE bytes a second, and needs SLOW_SEEK seconds
 * more where a reading does not begin where the last one ended. While it is idle it reads on behind a reading that did, 128 KiB far, and
 * twice as far in a file that is announced to be read in sequence: what Linux does with its defaults. Writing costs its bytes as well,
 * behind a buffer of 32 MiB, and a sync waits until that is empty. */
#define _GNU_SOURCE
#include <dlfcn.h>
#include <fcntl.h>
#include <pthread.h>
#include <stdarg.h>
#include <stdlib.h>
#include <string.h>
#include <sys/stat.h>
#include <time.h>
#include <unistd.h>

enum { DISKS = 64, FILES = 4096, NAME = 64 };
static const double AHEAD = 131072, BUFFER = 32 << 20;

struct disk {
    char name[NAME];
    pthread_mutex_t lock;
    ino_t inode;
    off_t end;
    double idle_since, written_until;
};
struct file {
    struct disk *disk;
    ino_t inode;
    off_t at;
    int in_sequence;
};

static struct disk disks[DISKS];
static int disk_count;
static struct file files[FILES];
static pthread_mutex_t naming = PTHREAD_MUTEX_INITIALIZER;
static const char *root;
static double rate, seek_time;

static double now(void) {
    struct timespec t;
    clock_gettime(CLOCK_MONOTONIC, &t);
    return (double)t.tv_sec + (double)t.tv_nsec * 1e-9;
}

static void wait_until(double when) {
    double left = when - now();
    if (left > 0) {
        struct timespec t = {(time_t)left, (long)((left - (double)(time_t)left) * 1e9)};
        nanosleep(&t, NULL);
    }
}

static double number(const char *name) {
    const char *text = getenv(name);
    return text ? atof(text) : 0;
}

__attribute__((constructor)) static void begin(void) {
    root = getenv("SLOW_ROOT");
    rate = number("SLOW_RATE");
    seek_time = number("SLOW_SEEK");
}

/* The disk of this absolute path, if it is one of a disk. */
static struct disk *disk_of(const char *path) {
    size_t length = root ? strlen(root) : 0;
    if (!length || strncmp(path, root, length) || path[length] != '/')
        return NULL;
    const char *name = path + length + 1, *slash = strchr(name, '/');
    if (!slash || slash - name >= NAME)
        return NULL;
    size_t letters = (size_t)(slash - name);
    struct disk *found = NULL;
    pthread_mutex_lock(&naming);
    for (int i = 0; i < disk_count && !found; i++)
        if (strlen(disks[i].name) == letters && !strncmp(disks[i].name, name, letters))
            found = &disks[i];
    if (!found && disk_count < DISKS) {
        found = &disks[disk_count++];
        memcpy(found->name, name, letters);
        pthread_mutex_init(&found->lock, NULL);
    }
    pthread_mutex_unlock(&naming);
    return found;
}

static int opened(int fd, const char *path) {
    struct stat seen;
    if (fd >= 0 && fd < FILES) {
        memset(&files[fd], 0, sizeof files[fd]);
        if (!fstat(fd, &seen) && S_ISREG(seen.st_mode)) {
            files[fd].inode = seen.st_ino;
            files[fd].disk = disk_of(path);
        }
    }
    return fd;
}

static struct file *file_of(int fd) {
    return fd >= 0 && fd < FILES && files[fd].disk ? &files[fd] : NULL;
}

static void serve_reading(int fd, off_t at, ssize_t bytes) {
    struct file *file = file_of(fd);
    if (!file || bytes <= 0)
        return;
    struct disk *disk = file->disk;
    pthread_mutex_lock(&disk->lock);
    double start = now(), cost = (double)bytes / rate;
    if (disk->inode == file->inode && disk->end == at) {
        double most = AHEAD * (file->in_sequence ? 2 : 1) / rate, ahead = start - disk->idle_since;
        cost -= ahead < most ? ahead : most;
    } else {
        cost += seek_time;
    }
    disk->inode = file->inode;
    disk->end = at + bytes;
    wait_until(start + cost);
    disk->idle_since = now();
    pthread_mutex_unlock(&disk->lock);
}

static void serve_writing(int fd, size_t bytes) {
    struct file *file = file_of(fd);
    if (!file)
        return;
    struct disk *disk = file->disk;
    pthread_mutex_lock(&disk->lock);
    if (disk->written_until < now())
        disk->written_until = now();
    disk->written_until += (double)bytes / rate;
    double until = disk->written_until - BUFFER / rate;
    pthread_mutex_unlock(&disk->lock);
    wait_until(until);
}

static void serve_sync(int fd) {
    struct file *file = file_of(fd);
    if (file)
        wait_until(file->disk->written_until);
}

#define NEXT(name) \
    static __typeof__(&name) next; \
    if (!next) next = (__typeof__(&name))dlsym(RTLD_NEXT, #name)
#define MODE \
    mode_t mode = 0; \
    if (flags & (O_CREAT | O_TMPFILE)) { va_list more; va_start(more, flags); mode = va_arg(more, mode_t); va_end(more); }

int open(const char *path, int flags, ...) { MODE NEXT(open); return opened(next(path, flags, mode), path); }
int open64(const char *path, int flags, ...) { MODE NEXT(open64); return opened(next(path, flags, mode), path); }
int openat(int dir, const char *path, int flags, ...) { MODE NEXT(openat); return opened(next(dir, path, flags, mode), path); }
int openat64(int dir, const char *path, int flags, ...) { MODE NEXT(openat64); return opened(next(dir, path, flags, mode), path); }
extern int __open_2(const char *path, int flags);
extern int __open64_2(const char *path, int flags);
int __open_2(const char *path, int flags) { NEXT(__open_2); return opened(next(path, flags), path); }
int __open64_2(const char *path, int flags) { NEXT(__open64_2); return opened(next(path, flags), path); }

int close(int fd) {
    NEXT(close);
    if (fd >= 0 && fd < FILES)
        files[fd].disk = NULL;
    return next(fd);
}

ssize_t pread(int fd, void *bytes, size_t most, off_t at) {
    NEXT(pread);
    ssize_t got = next(fd, bytes, most, at);
    serve_reading(fd, at, got);
    return got;
}

ssize_t pread64(int fd, void *bytes, size_t most, off64_t at) {
    NEXT(pread64);
    ssize_t got = next(fd, bytes, most, at);
    serve_reading(fd, at, got);
    return got;
}

ssize_t read(int fd, void *bytes, size_t most) {
    NEXT(read);
    ssize_t got = next(fd, bytes, most);
    struct file *file = file_of(fd);
    if (file && got > 0) {
        serve_reading(fd, file->at, got);
        file->at += got;
    }
    return got;
}

ssize_t pwrite(int fd, const void *bytes, size_t count, off_t at) { NEXT(pwrite); serve_writing(fd, count); return next(fd, bytes, count, at); }
ssize_t pwrite64(int fd, const void *bytes, size_t count, off64_t at) { NEXT(pwrite64); serve_writing(fd, count); return next(fd, bytes, count, at); }
ssize_t write(int fd, const void *bytes, size_t count) { NEXT(write); serve_writing(fd, count); return next(fd, bytes, count); }
int fsync(int fd) { NEXT(fsync); serve_sync(fd); return next(fd); }
int fdatasync(int fd) { NEXT(fdatasync); serve_sync(fd); return next(fd); }

int posix_fadvise(int fd, off_t at, off_t count, int advice) {
    NEXT(posix_fadvise);
    struct file *file = file_of(fd);
    if (file && advice == POSIX_FADV_SEQUENTIAL)
        file->in_sequence = 1;
    return next(fd, at, count, advice);
}
