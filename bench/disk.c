/* Loaded into a site before the C library, this stands between it and the files of its folder, which DISK_FOLDER names, as a disk
 * that is full, that fails, or that is slow, and it notes what was asked of the files. What it is to do stands in the file that
 * DISK_STATE names, in words of 64 bits in the order of `struct state`; who tries the site has the same memory, and changes it
 * while the site runs. disk.py has the other side of it.
 *
 * Only calls on the folder, on `log` and on `log.next` are touched. One thread of a site makes them all, so nothing is locked here.
 * A note is a head of four words, kind, file, place and length, and for WRITE the bytes; for ZEROS there are none. Files have
 * numbers in the order in which they were made or found. It is written before the call returns, so whatever the site says after
 * a sync was said behind its note.
 */
typedef unsigned long word;
typedef __SIZE_TYPE__ size_t;

enum { OPENS = 1, READS, WRITES, SYNCS, TRUNCATES, RENAMES, UNLINKS, LOOKS, LOCKS, ADVISES, KINDS };
enum { WRITE = 1, ZEROS, SYNC, CUT, MADE, FOUND, RENAMED, REMOVED, FOLDER_SYNC };
enum { LOG, NEXT, NAMES };
enum { EINTR = 4, EIO = 5, ENOSPC = 28 };
enum { NOTHING = 0, FOLDER = 1, FIRST = 2, MOST_FILES = 4096 };
/* The system's numbers of its calls. */
enum { DO_READ = 0, DO_WRITE = 1, DO_CLOSE = 3, DO_STAT = 4, DO_FSTAT = 5, DO_MMAP = 9, DO_PWRITE = 18,
       DO_SLEEP = 35, DO_FLOCK = 73, DO_FSYNC = 74, DO_FDATASYNC = 75, DO_TRUNCATE = 77, DO_RENAME = 82, DO_UNLINK = 87,
       DO_ADVISE = 221, DO_OPENAT = 257, DO_STATX = 332 };

/* What is to be done: each 0 is nothing. */
struct state {
  word most;        /* how many bytes the log and the next file may have together, or fewer */
  word is_late;     /* whether that shows at a sync alone, which then loses what came since the last one */
  word kind, which; /* of which kind a call fails, and which one of them, from 1 */
  word error;       /* by which error */
  word delay;       /* how many microseconds a sync takes more */
  word piece;       /* how many bytes a read or a write does at most */
  word interrupts;  /* of so many opens, writes and syncs one is interrupted */
  word reads;       /* whether reads are interrupted too */
  word lies;        /* whether syncs of files do nothing, and are not noted */
  word notes;       /* whether notes are written */
  /* What has come. */
  word failed;      /* how many calls failed so */
  word later;       /* how many calls that change something were made after that */
  word noted;       /* how many notes were written */
  word begun, done; /* how many syncs of the log were begun, and were done */
  word counts[KINDS];
};

extern long syscall(long number, ...);
extern char *getenv(const char *name);
extern int *__errno_location(void);

static struct state *state;
static const char *folder;
static size_t folder_length;
static long notes = -1;
/* The number of the file behind a descriptor, and under a name; and how many there were. */
static word files[MOST_FILES];
static word named[NAMES];
static word last = FIRST - 1;
static word turns;

static size_t length_of(const char *text) {
  size_t length = 0;
  while (text[length]) length++;
  return length;
}

static int begins(const char *text, const char *with, size_t length) {
  for (size_t at = 0; at < length; at++)
    if (text[at] != with[at]) return 0;
  return 1;
}

static int is(const char *text, const char *other) {
  size_t length = length_of(other);
  return length_of(text) == length && begins(text, other, length);
}

__attribute__((constructor)) static void begin(void) {
  const char *path = getenv("DISK_STATE"), *notes_path = getenv("DISK_NOTES");
  folder = getenv("DISK_FOLDER");
  if (!path || !folder) return;
  folder_length = length_of(folder);
  long file = syscall(DO_OPENAT, -100, path, 2, 0);
  if (file < 0) return;
  long made = syscall(DO_MMAP, 0L, 4096L, 3L, 1L, file, 0L);
  if (made > 0) state = (struct state *)made;
  if (notes_path) notes = syscall(DO_OPENAT, -100, notes_path, 02001 | 0100 | 02000000, 0600);
}

/* Which name of the folder a path is: -1 where it is none, NAMES where it is the folder. */
static int name_of(const char *path) {
  if (!state || !path || length_of(path) < folder_length || !begins(path, folder, folder_length)) return -1;
  path += folder_length;
  return is(path, "") ? NAMES : is(path, "/log") ? LOG : is(path, "/log.next") ? NEXT : -1;
}

static word file_of(int descriptor) { return state && descriptor >= 0 && descriptor < MOST_FILES ? files[descriptor] : NOTHING; }

static int is_zero(const unsigned char *bytes, size_t count) {
  for (size_t at = 0; at < count; at++)
    if (bytes[at]) return 0;
  return 1;
}

static void write_all(const void *bytes, size_t count) {
  const char *at = bytes;
  while (count) {
    long done = syscall(DO_WRITE, notes, at, count);
    if (done <= 0) return;
    at += done;
    count -= (size_t)done;
  }
}

static void note(word kind, word file, word place, word length, const void *bytes) {
  if (!state->notes || notes < 0) return;
  word head[4] = {kind, file, place, length};
  write_all(head, sizeof head);
  if (kind == WRITE) write_all(bytes, length);
  __atomic_add_fetch(&state->noted, 1, __ATOMIC_SEQ_CST);
}

static long failed(int error) {
  *__errno_location() = error;
  return -1;
}

/* Whether this call is to fail: then errno has the reason. A kind that changes nothing is counted apart after a failure. */
static int fails(word kind, int changes) {
  if (state->failed && changes) __atomic_add_fetch(&state->later, 1, __ATOMIC_SEQ_CST);
  word count = __atomic_add_fetch(&state->counts[kind], 1, __ATOMIC_SEQ_CST);
  if (state->kind == kind && count == state->which) {
    __atomic_add_fetch(&state->failed, 1, __ATOMIC_SEQ_CST);
    failed((int)state->error);
    return 1;
  }
  int may = kind == OPENS || kind == WRITES || kind == SYNCS || (kind == READS && state->reads);
  if (state->interrupts && may && ++turns % state->interrupts == 0) {
    failed(EINTR);
    return 1;
  }
  return 0;
}

/* How many bytes a file of this path has. */
static word length_at(const char *name) {
  char path[4096], found[144];
  size_t at = 0;
  if (folder_length > 4000) return 0;
  for (; at < folder_length; at++) path[at] = folder[at];
  for (; *name; name++) path[at++] = *name;
  path[at] = 0;
  return syscall(DO_STAT, path, found) < 0 ? 0 : *(word *)(found + 48);
}

static word length_in(int descriptor) {
  char found[144];
  return syscall(DO_FSTAT, descriptor, found) < 0 ? 0 : *(word *)(found + 48);
}

/* How many of so many bytes at a place there is room for. */
static size_t room_for(int descriptor, size_t count, word place) {
  word has = length_in(descriptor), end = place + count;
  if (!state->most || end <= has) return count;
  word all = length_at("/log") + length_at("/log.next");
  word grows = end - has, left = all < state->most ? state->most - all : 0;
  if (grows <= left) return count;
  word lacks = grows - left;
  return lacks < count ? count - lacks : 0;
}

long pwrite(int descriptor, const void *bytes, size_t count, long place) {
  if (file_of(descriptor) < FIRST) return syscall(DO_PWRITE, descriptor, bytes, count, place);
  if (fails(WRITES, 1)) return -1;
  if (state->piece && count > state->piece) count = state->piece;
  if (!state->is_late && count && !(count = room_for(descriptor, count, (word)place))) return failed(ENOSPC);
  long done = syscall(DO_PWRITE, descriptor, bytes, count, place);
  if (done > 0) note(is_zero(bytes, (size_t)done) ? ZEROS : WRITE, files[descriptor], (word)place, (word)done, bytes);
  return done;
}

long read(int descriptor, void *bytes, size_t count) {
  if (file_of(descriptor) >= FIRST) {
    if (fails(READS, 0)) return -1;
    if (state->piece && count > state->piece) count = state->piece;
  }
  return syscall(DO_READ, descriptor, bytes, count);
}

/* The length that a file had at its last sync, by its number, where there is only room for that. */
static word synced[MOST_FILES];

static long synced_by(long number, int descriptor) {
  word file = file_of(descriptor);
  if (file == NOTHING) return syscall(number, descriptor);
  if (fails(SYNCS, 1)) return -1;
  if (file >= FIRST) __atomic_add_fetch(&state->begun, 1, __ATOMIC_SEQ_CST);
  if (state->delay) {
    long pause[2] = {(long)(state->delay / 1000000), (long)(state->delay % 1000000 * 1000)};
    while (syscall(DO_SLEEP, pause, pause) < 0) continue;
  }
  if (file >= FIRST && state->is_late && state->most && length_in(descriptor) > synced[file % MOST_FILES]
      && length_at("/log") + length_at("/log.next") > state->most) {
    word kept = synced[file % MOST_FILES];
    (void)syscall(DO_TRUNCATE, descriptor, kept);
    note(CUT, file, kept, 0, 0);
    return failed(ENOSPC);
  }
  long done = state->lies && file >= FIRST ? 0 : syscall(number, descriptor);
  if (done < 0) return done;
  if (file == FOLDER) {
    note(FOLDER_SYNC, file, 0, 0, 0);
    return done;
  }
  synced[file % MOST_FILES] = length_in(descriptor);
  if (!state->lies) note(SYNC, file, 0, 0, 0);
  __atomic_add_fetch(&state->done, 1, __ATOMIC_SEQ_CST);
  return done;
}

int fsync(int descriptor) { return (int)synced_by(DO_FSYNC, descriptor); }
int fdatasync(int descriptor) { return (int)synced_by(DO_FDATASYNC, descriptor); }

int ftruncate(int descriptor, long length) {
  word file = file_of(descriptor);
  if (file < FIRST) return (int)syscall(DO_TRUNCATE, descriptor, length);
  if (fails(TRUNCATES, 1)) return -1;
  long done = syscall(DO_TRUNCATE, descriptor, length);
  if (!done) note(CUT, file, (word)length, 0, 0);
  return (int)done;
}

/* The mode is read where there is none too, which does no harm on this machine. */
int open(const char *path, int flags, unsigned mode) {
  int name = name_of(path);
  if (name < 0) return (int)syscall(DO_OPENAT, -100, path, flags, mode);
  if (fails(OPENS, (flags & 0100) != 0)) return -1;
  int descriptor = (int)syscall(DO_OPENAT, -100, path, flags, mode);
  if (descriptor < 0 || descriptor >= MOST_FILES) return descriptor;
  if (name == NAMES) {
    files[descriptor] = FOLDER;
    return descriptor;
  }
  int is_made = (flags & 0300) == 0300;
  if (is_made || !named[name]) named[name] = ++last;
  files[descriptor] = named[name];
  synced[named[name] % MOST_FILES] = length_in(descriptor);
  note(is_made ? MADE : FOUND, named[name], (word)name, 0, 0);
  return descriptor;
}

int close(int descriptor) {
  if (file_of(descriptor)) files[descriptor] = NOTHING;
  return (int)syscall(DO_CLOSE, descriptor);
}

int rename(const char *from, const char *to) {
  int old = name_of(from), new = name_of(to);
  int is_here = old >= 0 && old < NAMES && new >= 0 && new < NAMES;
  if (is_here && fails(RENAMES, 1)) return -1;
  long done = syscall(DO_RENAME, from, to);
  if (!done && is_here) {
    note(RENAMED, named[old], (word)new, 0, 0);
    named[new] = named[old];
    named[old] = NOTHING;
  }
  return (int)done;
}

int unlink(const char *path) {
  int name = name_of(path);
  int is_here = name >= 0 && name < NAMES;
  if (is_here && fails(UNLINKS, named[name] != NOTHING)) return -1;
  long done = syscall(DO_UNLINK, path);
  if (!done && is_here) {
    note(REMOVED, named[name], (word)name, 0, 0);
    named[name] = NOTHING;
  }
  return (int)done;
}

/* What is known of a file, by its descriptor, where there is no path, or by its path. */
int statx(int at, const char *path, int flags, unsigned wanted, void *found) {
  int is_here = path && *path ? name_of(path) >= 0 : file_of(at) >= FIRST;
  if (is_here && fails(LOOKS, 0)) return -1;
  return (int)syscall(DO_STATX, at, path, flags, wanted, found);
}

int flock(int descriptor, int how) {
  if (file_of(descriptor) && fails(LOCKS, 0)) return -1;
  return (int)syscall(DO_FLOCK, descriptor, how);
}

/* It answers its error. */
int posix_fadvise(int descriptor, long from, long length, int how) {
  if (file_of(descriptor) && fails(ADVISES, 0)) return *__errno_location();
  return syscall(DO_ADVISE, descriptor, from, length, how) < 0 ? *__errno_location() : 0;
}
