// The calls, bytes and syncs of one command on DIR/etc, and nothing else: what the disk and the kernel
// cost. It takes the locks, reads login.defs and the six tables, changes those that are named by a copy
// of their last line, as a commit does (docs/OPERATING.md), and frees the lock; as a report it reads those
// that are named between two listings, without a lock; given DIR alone it only reads. bench/run sets its
// time beside that of the program. usage: floor DIR [report TABLE.. | lock [TABLE..]]
#define _GNU_SOURCE
#include <dirent.h>
#include <fcntl.h>
#include <stdio.h>
#include <stdlib.h>
#include <string.h>
#include <sys/file.h>
#include <sys/stat.h>
#include <unistd.h>

enum { TABLES = 6, FIRST_READ = 8192, UNSIZED = 512 };

struct text {
    char *bytes;
    size_t size;
};

static const char *names[TABLES] = {"passwd", "shadow", "group", "gshadow", "subuid", "subgid"};
static struct text tables[TABLES], changed[TABLES];
static int is_named[TABLES];
static int folder;

static void must(int is_done, const char *what) {
    if (!is_done) {
        perror(what);
        exit(1);
    }
}

// Into room for the file and a byte, by reads of a size that doubles, as the library of the program does.
static struct text load(int at, const char *name, int flags) {
    struct text text = {0};
    struct stat about = {0};
    if (at == folder && fstatat(at, name, &about, flags) < 0)
        return text;
    int file = openat(at, name, O_RDONLY | O_CLOEXEC);
    must(file >= 0, name);
    size_t room = about.st_size > 0 ? about.st_size + 1 : UNSIZED;
    text.bytes = malloc(room);
    ssize_t got = 1;
    for (size_t most = FIRST_READ; got > 0; most *= 2) {
        size_t left = room - text.size;
        got = read(file, text.bytes + text.size, left < most ? left : most);
        must(got >= 0, name);
        text.size += got;
    }
    close(file);
    return text;
}

static void list(void) {
    DIR *entries = fdopendir(openat(folder, ".", O_RDONLY | O_DIRECTORY | O_CLOEXEC));
    must(entries != NULL, "list");
    while (readdir(entries))
        ;
    closedir(entries);
}

static void put(int file, const char *bytes, size_t size) {
    while (size > 0) {
        ssize_t done = write(file, bytes, size);
        must(done > 0, "write");
        bytes += done;
        size -= done;
    }
}

static int make(const char *name, mode_t mode) {
    unlinkat(folder, name, 0);
    int file = openat(folder, name, O_WRONLY | O_CREAT | O_EXCL | O_CLOEXEC, mode);
    must(file >= 0 && fchmod(file, mode) == 0, name);
    return file;
}

static void take_on(const char *name, const char *table) {
    struct stat model;
    must(fstatat(folder, table, &model, AT_SYMLINK_NOFOLLOW) == 0, table);
    fchownat(folder, name, model.st_uid, -1, AT_SYMLINK_NOFOLLOW);
    fchownat(folder, name, -1, model.st_gid, AT_SYMLINK_NOFOLLOW);
    must(fchmodat(folder, name, model.st_mode & 07777, 0) == 0, name);
}

static void finish(int file, const char *from, const char *to) {
    must(fsync(file) == 0, from);
    close(file);
    must(renameat(folder, from, folder, to) == 0, to);
}

static void sync_folder(void) {
    int file = openat(folder, ".", O_RDONLY | O_CLOEXEC);
    must(file >= 0 && fsync(file) == 0, "folder");
    close(file);
}

static const char *with(const char *name, const char *end) {
    static char joined[64];
    snprintf(joined, sizeof joined, "%s%s", name, end);
    return joined;
}

// The token, which tells whether the kernel locks files in the folder.
static void begin(void) {
    char namespace[64];
    int file = openat(folder, ".", O_RDONLY | O_CLOEXEC);
    must(file >= 0 && flock(file, LOCK_SH | LOCK_NB) == 0, "folder");
    close(file);
    load(AT_FDCWD, "/proc/sys/kernel/random/boot_id", 0);
    load(AT_FDCWD, "/proc/self/stat", 0);
    must(readlink("/proc/self/ns/pid", namespace, sizeof namespace) > 0, "/proc");
}

// Whether the name is still that of the open file.
static int stands_at(int file, const char *name) {
    struct stat own, other;
    return fstat(file, &own) == 0 && fstatat(folder, name, &other, AT_SYMLINK_NOFOLLOW) == 0 &&
           own.st_ino == other.st_ino;
}

static int claim(char own[64]) {
    snprintf(own, 64, "accounts.held+%d", getpid());
    int file = openat(folder, own, O_WRONLY | O_CREAT | O_EXCL | O_CLOEXEC, 0600);
    must(file >= 0 && fchmod(file, 0600) == 0 && flock(file, LOCK_EX) == 0, own);
    must(stands_at(file, own), own);
    return file;
}

// The lock files of shadow-utils.
static int take_shadow_locks(void) {
    char own[64], text[64];
    int file = claim(own);
    put(file, text, snprintf(text, sizeof text, "%d%cflock", getpid(), 0));
    must(fsync(file) == 0, own);
    for (int i = 0; i < TABLES; i++)
        must(linkat(folder, own, folder, with(names[i], ".lock"), 0) == 0, names[i]);
    unlinkat(folder, own, 0);
    return file;
}

static void let_go(int file) {
    for (int i = 0; i < TABLES; i++)
        if (stands_at(file, with(names[i], ".lock")))
            unlinkat(folder, with(names[i], ".lock"), 0);
    close(file);
}

static int take_lock(void) {
    char own[64];
    int file = claim(own);
    must(fchmod(file, 0644) == 0, own);
    put(file, "held 00000000-0000-0000-0000-000000000000.10000.100000.4026531836.flock\n", 72);
    must(fsync(file) == 0, own);
    must(linkat(folder, own, folder, "accounts.lock.1", 0) == 0, "accounts.lock.1");
    unlinkat(folder, own, 0);
    list();
    return file;
}

static void read_tables(int are_all) {
    load(folder, "accounts.intent", AT_SYMLINK_NOFOLLOW);
    for (int i = 0; i < TABLES; i++)
        if (are_all || is_named[i])
            tables[i] = load(folder, names[i], AT_SYMLINK_NOFOLLOW);
    load(folder, "login.defs", 0);
}

// The table with its last line once more.
static struct text longer(struct text old) {
    size_t start = old.size > 0 ? old.size - 1 : 0;
    while (start > 0 && old.bytes[start - 1] != '\n')
        start--;
    struct text text = {malloc(old.size + (old.size - start)), old.size};
    memcpy(text.bytes, old.bytes, old.size);
    memcpy(text.bytes + old.size, old.bytes + start, old.size - start);
    text.size += old.size - start;
    return text;
}

static void back_up(int i) {
    int file = make("accounts.backup+", 0600);
    put(file, tables[i].bytes, tables[i].size);
    close(file);
    take_on("accounts.backup+", names[i]);
    file = openat(folder, "accounts.backup+", O_RDONLY | O_CLOEXEC);
    finish(file, "accounts.backup+", with(names[i], "-"));
}

static void commit(void) {
    size_t size = 0;
    for (int i = 0; i < TABLES; i++)
        size += changed[i].size;
    char *intent = malloc(size + 1);
    size = 0;
    for (int i = 0; i < TABLES; i++) {
        if (is_named[i])
            memcpy(intent + size, changed[i].bytes, changed[i].size);
        size += changed[i].size;
    }
    int file = make("accounts.intent+", 0600);
    put(file, intent, size);
    finish(file, "accounts.intent+", "accounts.intent");
    sync_folder();
}

static void install(int i) {
    int file = make(with(names[i], "+"), 0600);
    put(file, changed[i].bytes, changed[i].size);
    take_on(with(names[i], "+"), names[i]);
    finish(file, with(names[i], "+"), names[i]);
}

static void change(void) {
    for (int i = 0; i < TABLES; i++)
        if (is_named[i])
            back_up(i);
    commit();
    for (int i = 0; i < TABLES; i++)
        if (is_named[i])
            install(i);
    sync_folder();
    unlinkat(folder, "accounts.intent", 0);
}

static void free_lock(int lock, int shadow_locks) {
    int file = make("accounts.free+", 0644);
    put(file, "free\n", 5);
    must(fsync(file) == 0, "accounts.free+");
    close(file);
    let_go(shadow_locks);
    list();
    must(renameat(folder, "accounts.free+", folder, "accounts.lock.1") == 0, "accounts.free+");
    close(lock);
}

int main(int count, char **words) {
    char path[4096];
    if (count < 2)
        return 2;
    snprintf(path, sizeof path, "%s/etc", words[1]);
    folder = open(path, O_RDONLY | O_DIRECTORY);
    must(folder >= 0, path);
    if (count == 2) {
        read_tables(1);
        return 0;
    }
    for (int i = 0; i < TABLES; i++)
        for (int word = 3; word < count; word++)
            is_named[i] |= strcmp(words[word], names[i]) == 0;
    begin();
    list();
    if (strcmp(words[2], "report") == 0) {
        read_tables(0);
        list();
        return 0;
    }
    int shadow_locks = take_shadow_locks();
    int lock = take_lock();
    read_tables(1);
    for (int i = 0; i < TABLES; i++)
        if (is_named[i])
            changed[i] = longer(tables[i]);
    if (count > 3)
        change();
    free_lock(lock, shadow_locks);
    return 0;
}
