"""A program whose growths are refused, one a run, or whose reads and writes fail: the lines before the C library that do it,
and which refusals may pass.

A refusal leaves a file, the mark, which says what asked and how much had been read by then. Growths are counted over all threads.
Reads of standard input and writes to standard output may be cut to some bytes, and one of them fail, or take nothing.
"""
import bisect
import concurrent.futures
import itertools
import os
import shutil
import struct
import subprocess

# (the kit's clang has no headers of the C library)
SHIM = r"""
typedef unsigned long size_t; typedef long ssize_t;
typedef struct { const char *file; void *base; const char *name; void *at; } Place;
extern void *dlsym(void *, const char *); extern int dladdr(const void *, Place *); extern char *getenv(const char *);
extern int open(const char *, int, ...); extern int close(int); extern int dprintf(int, const char *, ...);
extern unsigned long strtoul(const char *, char **, int); extern size_t malloc_usable_size(void *);
extern int *__errno_location(void);
#define NEXT(name) dlsym((void *)-1l, name)
static unsigned long calls, reads, writes;
static unsigned long number(const char *name) { const char *text = getenv(name); return text ? strtoul(text, 0, 10) : 0; }
static ssize_t fail(void) { *__errno_location() = 5; return -1; }
static size_t least(size_t size, unsigned long step) { return step && step < size ? step : size; }
ssize_t read(int end, void *to, size_t size) {
    static ssize_t (*real)(int, void *, size_t);
    if (!real) real = (ssize_t(*)(int, void *, size_t))NEXT("read");
    if (end != 0) return real(end, to, size);
    if (__atomic_add_fetch(&reads, 1, __ATOMIC_SEQ_CST) == number("READ_FAILS")) return fail();
    return real(end, to, least(size, number("READ_STEP")));
}
ssize_t write(int end, const void *from, size_t size) {
    static ssize_t (*real)(int, const void *, size_t);
    if (!real) real = (ssize_t(*)(int, const void *, size_t))NEXT("write");
    if (end != 1) return real(end, from, size);
    if (__atomic_add_fetch(&writes, 1, __ATOMIC_SEQ_CST) == number("WRITE_FAILS")) return number("WRITE_TAKES_NONE") ? 0 : fail();
    return real(end, from, least(size, number("WRITE_STEP")));
}
static int refused(void *caller, const char *why) {
    unsigned long wanted = number("REFUSE"), seen = __atomic_load_n(&reads, __ATOMIC_SEQ_CST);
    Place place;
    if (!wanted || seen < number("REFUSE_FROM")) return 0;
    if (__atomic_add_fetch(&calls, 1, __ATOMIC_SEQ_CST) != wanted) return 0;
    int mark = open(getenv("REFUSED"), 0101, 0600);
    if (dladdr(caller, &place)) dprintf(mark, "%lx %s %lu", (unsigned long)((char *)caller - (char *)place.base), why, seen);
    close(mark);
    return 1;
}
void *malloc(size_t size) {
    static void *(*real)(size_t);
    if (!real) real = (void *(*)(size_t))NEXT("malloc");
    return refused(__builtin_return_address(0), "new") ? 0 : real(size);
}
void *realloc(void *old, size_t size) {
    static void *(*real)(void *, size_t);
    if (!real) real = (void *(*)(void *, size_t))NEXT("realloc");
    const char *why = old && size <= malloc_usable_size(old) ? "smaller" : "larger";
    return refused(__builtin_return_address(0), why) ? 0 : real(old, size);
}
void *aligned_alloc(size_t align, size_t size) {
    static void *(*real)(size_t, size_t);
    if (!real) real = (void *(*)(size_t, size_t))NEXT("aligned_alloc");
    return refused(__builtin_return_address(0), "new") ? 0 : real(align, size);
}
int posix_memalign(void **place, size_t align, size_t size) {
    static int (*real)(void **, size_t, size_t);
    if (!real) real = (int (*)(void **, size_t, size_t))NEXT("posix_memalign");
    return refused(__builtin_return_address(0), "new") ? 12 : real(place, align, size);
}
"""
FLAGS = "-O1 -shared -fPIC -fuse-ld=lld -nostdinc".split()
# The functions by which a program's own allocator asks.
ALLOCATOR = ("rattle_alloc", "rattle_realloc")
SYMBOLS, FUNCTION = 2, 2
SIDE_BY_SIDE = len(os.sched_getaffinity(0))


def build_shim(folder):
    """Builds the shim by the kit's clang, and returns where it is."""
    kit = os.path.dirname(os.path.dirname(os.path.realpath(shutil.which("rt"))))
    source, library = os.path.join(folder, "refuses.c"), os.path.join(folder, "refuses.so")
    with open(source, "w", encoding="ascii") as file:
        file.write(SHIM)
    subprocess.run([os.path.join(kit, "toolchain", "bin", "clang"), *FLAGS, "-o", library, source], check=True)
    return library


def functions(program):
    """The functions of an ELF file of 64 bits, by where each begins."""
    with open(program, "rb") as file:
        data = file.read()
    offset, size, count = struct.unpack_from("<Q", data, 40)[0], *struct.unpack_from("<HH", data, 58)
    sections = [struct.unpack_from("<IIQQQQIIQQ", data, offset + number * size) for number in range(count)]
    found = []
    for _, kind, _, _, start, length, link, _, _, step in sections:
        if kind != SYMBOLS:
            continue
        names = sections[link][4]
        for at in range(start, start + length, step):
            name, info, _, _, value, _ = struct.unpack_from("<IBBHQQ", data, at)
            if info & 15 == FUNCTION:
                end = data.index(b"\0", names + name)
                found.append((value, data[names + name : end].decode("utf-8", "replace")))
    return sorted(found)


def may_pass(mark, named):
    """Whether what was refused, by its mark, may be done without: it didn't come from the program's own allocator, since threads
    and the C library ask too; it was to make a block smaller; or clap asked for it, before anything was read."""
    caller, why, seen = mark.split()
    name = named[max(bisect.bisect_right(named, (int(caller, 16), "\U0010ffff")) - 1, 0)][1]
    return name not in ALLOCATOR or why == "smaller" or seen == "0"


class Ran:
    """A program's run below the shim: its status, what it printed and complained, and the mark of what was refused, if it came so far."""

    def __init__(self, done, mark):
        self.status, self.printed, self.errors, self.mark = done.returncode, done.stdout, done.stderr, mark


class Shim:
    """Runs a program below the shim, with settings by their names."""

    def __init__(self, library, folder, program):
        self.library, self.folder, self.program, self.marks = library, folder, program, itertools.count()

    def run(self, words, given, **settings):
        mark = os.path.join(self.folder, f"mark{next(self.marks)}")
        environment = dict(os.environ, LD_PRELOAD=self.library, REFUSED=mark, **{name: str(it) for name, it in settings.items()})
        done = subprocess.run([self.program, *words], input=given, capture_output=True, env=environment, check=False, timeout=120)
        told = None
        if os.path.exists(mark):
            with open(mark, encoding="ascii") as file:
                told = file.read()
            os.remove(mark)
        return Ran(done, told)

    def all(self, words, given, settings):
        """The settings, and a run with each; several runs go side by side."""
        with concurrent.futures.ThreadPoolExecutor(SIDE_BY_SIDE) as pool:
            yield from zip(settings, pool.map(lambda it: self.run(words, given, **it), settings))

    def refused(self, words, given, first=0):
        """The runs in which growths 1, 2, .. are refused once so many reads were made, until one has no such growth, by their numbers."""
        for start in itertools.count(1, 2 * SIDE_BY_SIDE):
            settings = [{"REFUSE": number, "REFUSE_FROM": first} for number in range(start, start + 2 * SIDE_BY_SIDE)]
            for its, ran in self.all(words, given, settings):
                if ran.mark is None:
                    return
                yield its["REFUSE"], ran
