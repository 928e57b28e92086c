/* Preloaded into the program: a lazy disk. All below the folder DISK is on it. The program sees at
   once what it writes and names. A power cut leaves what the folder KEPT has: of each file the
   synced bytes, in a file named by a number; and in `names` the names of each directory at its last
   sync: lines of the number of a file, or 0 for a directory, and the path below DISK. A file that
   moves into another directory leaves the earlier one once the other is synced, if that one's name
   is kept; a sync of the earlier one alone loses the file. The disk may keep more than it has to:
   after NAMES of 100 changes it keeps all names, and after BYTES of 100 writes some bytes, by SEED.

   Each sync takes DELAY microseconds, and each write to a journal HOLD. The sync number FAIL,
   from 1, fails, and loses what it was to keep; the rename number RENAME fails; right before the
   call number CUT, of syncs and changes of names, the program is killed. With a variable ARMED,
   they are counted from when the file of that name exists.

   The file TRACE gets a line for each event: a letter, the number of the thread, and a file's name.
   w: a journal was written. s: a sync begins. d: it is done. f: that of a journal failed, o: of
   another file, n: of a directory. m: a rename failed. r: a write to a socket begins. p: one to
   standard output or standard error begins. */
#define _GNU_SOURCE
#include <dirent.h>
#include <dlfcn.h>
#include <errno.h>
#include <fcntl.h>
#include <pthread.h>
#include <signal.h>
#include <stdarg.h>
#include <stdatomic.h>
#include <stdio.h>
#include <stdlib.h>
#include <string.h>
#include <sys/socket.h>
#include <sys/stat.h>
#include <unistd.h>

#define FILES 65536
#define PATH 4096
#define NEXT(name) ((__typeof__(&name))dlsym(RTLD_NEXT, #name))

/* A file: its number, its syncs that haven't ended or have failed, and the bytes not kept yet. */
struct file {
    dev_t device;
    ino_t inode;
    int number, syncs;
    off_t from, to;
};

/* Names below DISK, each with the number of its file, or 0 for a directory. */
struct names {
    int count;
    struct name {
        int number;
        char *path;
    } all[FILES];
};

static struct file files[FILES];
static int count, numbers, trace = -1;
static struct names kept_names, listed;
static const char *disk, *kept;
static pthread_mutex_t guard = PTHREAD_MUTEX_INITIALIZER, directories = PTHREAD_MUTEX_INITIALIZER;
static atomic_int syncs, renames, calls;
static unsigned chance;
static ssize_t (*next_write)(int, const void *, size_t);

static long number_of(const char *name) {
    const char *text = getenv(name);
    return text ? atol(text) : 0;
}

static int has_chance(const char *name) {
    return number_of(name) && rand_r(&chance) % 100 < number_of(name);
}

static const char *last_of(const char *path) {
    const char *slash = strrchr(path, '/');
    return slash ? slash + 1 : path;
}

static void tell(char letter, const char *path) {
    char line[PATH];
    int length = snprintf(line, sizeof line, "%c %d %s\n", letter, gettid(), last_of(path));
    if (trace >= 0 && next_write(trace, line, length) != length) abort();
}

/* Counts a call. Returns true if it is the one whose number is in a variable. */
static int is_turn(atomic_int *counted, const char *name) {
    const char *armed = getenv("ARMED");
    if (!number_of(name) || (armed && access(armed, F_OK))) return 0;
    return atomic_fetch_add(counted, 1) + 1 == number_of(name);
}

/* Counts a call that syncs, or that changes a name. */
static void step(void) {
    if (is_turn(&calls, "CUT")) kill(getpid(), SIGKILL);
}

static int is_on_disk(const char *path) {
    size_t length = disk ? strlen(disk) : 0;
    if (!length || strncmp(path, disk, length)) return 0;
    return path[length] == '/' || !path[length];
}

/* A journal, but neither the log nor the record of synced bytes next to it. */
static int is_journal(const char *path) {
    const char *name = last_of(path), *end = strrchr(name, '.');
    return !strncmp(name, "journal-", 8) && !(end && (!strcmp(end, ".who") || !strcmp(end, ".synced")));
}

static void find_path(int descriptor, char *path) {
    char link[64];
    snprintf(link, sizeof link, "/proc/self/fd/%d", descriptor);
    ssize_t length = readlink(link, path, PATH - 1);
    path[length < 0 ? 0 : length] = 0;
}

/* Returns the file of the disk, if it is one. */
static struct file *file_of(const struct stat *found) {
    for (int i = 0; i < count; i++)
        if (files[i].device == found->st_dev && files[i].inode == found->st_ino) return files + i;
    return NULL;
}

static int open_kept(int number, int flags) {
    char path[PATH];
    snprintf(path, sizeof path, "%s/%d", kept, number);
    int descriptor = NEXT(open)(path, flags | O_WRONLY | O_CLOEXEC, 0600);
    if (descriptor < 0) abort();
    return descriptor;
}

/* Begins a file without kept bytes. */
static struct file *begin_file(const struct stat *found) {
    struct file *file = file_of(found);
    if (!file && count == FILES) abort();
    if (!file) file = files + count++;
    *file = (struct file){found->st_dev, found->st_ino, ++numbers, 0, 0, 0};
    close(open_kept(file->number, O_CREAT | O_EXCL));
    return file;
}

/* Forgets a file that has lost its last name: its number is never another file's. */
static void forget(const struct stat *found) {
    struct file *file = file_of(found);
    if (file && S_ISREG(found->st_mode) && found->st_nlink == 1) *file = files[--count];
}

/* Reads a file's bytes, which the caller frees. The descriptor may be write-only. */
static char *read_bytes(int descriptor, off_t from, off_t to) {
    char path[64], *bytes = malloc(to - from + 1);
    snprintf(path, sizeof path, "/proc/self/fd/%d", descriptor);
    int reader = NEXT(open)(path, O_RDONLY | O_CLOEXEC);
    if (!bytes || reader < 0 || pread(reader, bytes, to - from, from) != to - from) abort();
    close(reader);
    return bytes;
}

static void keep_bytes(int number, const char *bytes, off_t from, off_t to) {
    int descriptor = open_kept(number, 0);
    if (NEXT(pwrite)(descriptor, bytes, to - from, from) != to - from) abort();
    close(descriptor);
}

/* Keeps a file's bytes up to a place, of those that aren't kept yet. */
static void keep_until(struct file *file, int descriptor, off_t to) {
    char *bytes = read_bytes(descriptor, file->from, to);
    keep_bytes(file->number, bytes, file->from, to);
    free(bytes);
    file->from = to;
}

/* Begins a file that another program has made: all of it is kept. */
static struct file *adopt(const char *path, const struct stat *found) {
    struct file *file = begin_file(found);
    int descriptor = NEXT(open)(path, O_RDONLY | O_CLOEXEC);
    keep_until(file, descriptor, file->to = found->st_size);
    close(descriptor);
    return file;
}

static void add_name(struct names *names, int number, char *path) {
    if (names->count == FILES) abort();
    names->all[names->count++] = (struct name){number, path};
}

/* Adds the names that a directory has, and those below it if `is_deep`. */
static void list(struct names *names, const char *directory, int is_deep) {
    DIR *opened = opendir(directory);
    if (!opened) return;
    for (struct dirent *entry; (entry = readdir(opened));) {
        char path[PATH + 256];
        struct stat found;
        snprintf(path, sizeof path, "%s/%s", directory, entry->d_name);
        if (!strcmp(entry->d_name, ".") || !strcmp(entry->d_name, "..") || lstat(path, &found))
            continue;
        if (S_ISDIR(found.st_mode)) add_name(names, 0, strdup(path));
        if (S_ISDIR(found.st_mode) && is_deep) list(names, path, 1);
        if (!S_ISREG(found.st_mode)) continue;
        struct file *file = file_of(&found);
        add_name(names, (file ? file : adopt(path, &found))->number, strdup(path));
    }
    closedir(opened);
}

/* Drops the kept names of a directory, and those of the file of a number, unless it is 0. */
static void drop_names(const char *directory, int number) {
    for (int i = kept_names.count - 1; i >= 0; i--) {
        struct name *name = kept_names.all + i;
        size_t length = last_of(name->path) - name->path - 1;
        int is_in = length == strlen(directory) && !strncmp(name->path, directory, length);
        if (!is_in && !(number && name->number == number)) continue;
        free(name->path);
        *name = kept_names.all[--kept_names.count];
    }
}

static void write_names(void) {
    char part[PATH], path[PATH];
    snprintf(part, sizeof part, "%s/names.part", kept);
    snprintf(path, sizeof path, "%s/names", kept);
    FILE *file = fopen(part, "we");
    for (struct name *name = kept_names.all; name < kept_names.all + kept_names.count; name++)
        fprintf(file, "%d %s\n", name->number, name->path + strlen(disk) + 1);
    if (fclose(file) || NEXT(rename)(part, path)) abort();
}

static void keep_all_names(void) {
    while (kept_names.count) free(kept_names.all[--kept_names.count].path);
    list(&kept_names, disk, 1);
    write_names();
}

static int is_kept(const char *directory) {
    for (int i = 0; i < kept_names.count; i++)
        if (!strcmp(kept_names.all[i].path, directory)) return 1;
    return !strcmp(directory, disk);
}

/* Keeps the names that a directory had when the sync began. */
static void sync_directory(const char *directory) {
    pthread_mutex_lock(&directories);
    pthread_mutex_lock(&guard);
    list(&listed, directory, 0);
    pthread_mutex_unlock(&guard);
    usleep(number_of("DELAY"));
    pthread_mutex_lock(&guard);
    drop_names(directory, 0);
    while (listed.count) {
        const struct name *name = listed.all + --listed.count;
        if (is_kept(directory)) drop_names("", name->number);
        add_name(&kept_names, name->number, name->path);
    }
    write_names();
    pthread_mutex_unlock(&guard);
    pthread_mutex_unlock(&directories);
}

/* Keeps the bytes that were written before the sync began; or loses them. */
static int sync_file(int descriptor, const struct stat *found, int fails) {
    pthread_mutex_lock(&guard);
    struct file *file = file_of(found), old = file ? *file : (struct file){0};
    char *bytes = file ? read_bytes(descriptor, old.from, old.to) : NULL;
    if (file) file->from = file->to = 0, file->syncs++;
    pthread_mutex_unlock(&guard);
    if (!file) return 0;
    usleep(number_of("DELAY"));
    if (!fails) keep_bytes(old.number, bytes, old.from, old.to);
    if (!fails) __atomic_fetch_sub(&file->syncs, 1, __ATOMIC_SEQ_CST);
    free(bytes);
    return 1;
}

int fsync(int descriptor) {
    char path[PATH];
    struct stat found;
    if (fstat(descriptor, &found)) return -1;
    find_path(descriptor, path);
    step();
    int fails = is_turn(&syncs, "FAIL"), is_directory = S_ISDIR(found.st_mode);
    tell('s', path);
    if (is_directory && is_on_disk(path)) {
        if (!fails) sync_directory(path);
    } else if (!sync_file(descriptor, &found, fails)) {
        if (is_journal(path)) usleep(number_of("DELAY"));
        else fails |= NEXT(fsync)(descriptor);
    }
    tell(!fails ? 'd' : is_directory ? 'n' : is_journal(path) ? 'f' : 'o', path);
    return fails ? errno = EIO, -1 : 0;
}
int fdatasync(int) __attribute__((alias("fsync")));

/* Notes bytes that aren't kept yet, or keeps some, unless earlier ones are being synced. */
static void note(struct file *file, int descriptor, off_t from, off_t to) {
    int is_first = file->from == file->to;
    if (is_first || from < file->from) file->from = from;
    if (is_first || file->to < to) file->to = to;
    if (!file->syncs && has_chance("BYTES"))
        keep_until(file, descriptor, from + 1 + rand_r(&chance) % (to - from));
}

/* Writes at an offset of a file, or at its current one if the offset is negative. */
static ssize_t write_to(int descriptor, const void *bytes, size_t size, off_t at) {
    struct stat found;
    pthread_mutex_lock(&guard);
    struct file *file = fstat(descriptor, &found) ? NULL : file_of(&found);
    if (!file) pthread_mutex_unlock(&guard);
    ssize_t done = at < 0 ? next_write(descriptor, bytes, size)
                          : NEXT(pwrite)(descriptor, bytes, size, at);
    if (!file) return done;
    off_t to = at < 0 ? lseek(descriptor, 0, SEEK_CUR) : at + done;
    if (done > 0) note(file, descriptor, to - done, to);
    pthread_mutex_unlock(&guard);
    return done;
}

ssize_t write(int descriptor, const void *bytes, size_t size) {
    char path[PATH];
    struct stat found;
    int is_socket = !fstat(descriptor, &found) && S_ISSOCK(found.st_mode);
    if (is_socket || descriptor == 1 || descriptor == 2) tell(is_socket ? 'r' : 'p', "");
    if (is_socket) return next_write(descriptor, bytes, size);
    find_path(descriptor, path);
    if (is_journal(path)) usleep(number_of("HOLD"));
    ssize_t done = write_to(descriptor, bytes, size, -1);
    if (is_journal(path)) tell('w', path);
    return done;
}

ssize_t pwrite(int descriptor, const void *bytes, size_t size, off_t at) {
    return write_to(descriptor, bytes, size, at);
}
ssize_t pwrite64(int, const void *, size_t, off_t) __attribute__((alias("pwrite")));

ssize_t send(int descriptor, const void *bytes, size_t size, int flags) {
    tell('r', "");
    return NEXT(send)(descriptor, bytes, size, flags);
}

/* After a change of a name, all are kept by chance. */
static int end_change(int result) {
    if (result >= 0 && has_chance("NAMES")) keep_all_names();
    pthread_mutex_unlock(&guard);
    return result;
}

/* A call that makes a file is counted only if there is none, and one that removes a file only if
   there is one. */
int open(const char *path, int flags, ...) {
    struct stat found;
    va_list rest;
    va_start(rest, flags);
    mode_t mode = flags & O_CREAT ? va_arg(rest, mode_t) : 0;
    va_end(rest);
    if (flags & O_TRUNC && is_on_disk(path)) abort();
    if (!(flags & O_CREAT) || !is_on_disk(path) || !lstat(path, &found))
        return NEXT(open)(path, flags, mode);
    step();
    pthread_mutex_lock(&guard);
    int opened = NEXT(open)(path, flags, mode);
    if (opened >= 0 && !fstat(opened, &found)) begin_file(&found);
    return end_change(opened);
}
int open64(const char *, int, ...) __attribute__((alias("open")));

int mkdir(const char *path, mode_t mode) {
    struct stat found;
    if (!is_on_disk(path) || !lstat(path, &found)) return NEXT(mkdir)(path, mode);
    step();
    pthread_mutex_lock(&guard);
    return end_change(NEXT(mkdir)(path, mode));
}

int unlink(const char *path) {
    struct stat found;
    if (!is_on_disk(path) || lstat(path, &found)) return NEXT(unlink)(path);
    step();
    pthread_mutex_lock(&guard);
    int result = NEXT(unlink)(path);
    if (!result) forget(&found);
    return end_change(result);
}

int rename(const char *from, const char *to) {
    struct stat found;
    if (!is_on_disk(to)) return NEXT(rename)(from, to);
    step();
    if (is_turn(&renames, "RENAME")) {
        tell('m', to);
        errno = EIO;
        return -1;
    }
    pthread_mutex_lock(&guard);
    int replaces = !lstat(to, &found), result = NEXT(rename)(from, to);
    if (replaces && !result) forget(&found);
    return end_change(result);
}

__attribute__((constructor)) static void begin(void) {
    next_write = NEXT(write);
    const char *path = getenv("TRACE");
    if (path) trace = NEXT(open)(path, O_WRONLY | O_APPEND | O_CREAT | O_CLOEXEC, 0600);
    disk = getenv("DISK"), kept = getenv("KEPT"), chance = number_of("SEED");
    if (disk) keep_all_names();
}
