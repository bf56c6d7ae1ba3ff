"""Packets for run_socket_script, whose checksum is the sum of a packet's bytes, and what one costs its socket b: the processor time and
the instructions of the call, and the bytes that are on the heap behind it and weren't before. For `attack` and `fuzz`."""
import itertools, os, re, struct, subprocess, sys, tempfile

TOP = os.path.dirname(os.path.dirname(os.path.abspath(__file__)))
RT = os.environ.get("RT", "rt")
PROGRAM = f"{TOP}/crates/run_socket_script/out/run_socket_script"
HEADER = 12
SMALL, LARGE = 1500, 65532
SACKS = 4  # a packet of more of these and of COOKIE ECHOs is refused
# With COUNTS it counts what is on the heap, which takes time of its own. Of the function at WATCHED it tells, as each call begins and
# ends, the processor time and the bytes there: an int3 stands at its first byte, and during a call at the one to which it returns.
WATCH = r"""
#define _GNU_SOURCE
#include <dlfcn.h>
#include <link.h>
#include <malloc.h>
#include <signal.h>
#include <stdio.h>
#include <stdlib.h>
#include <sys/mman.h>
#include <time.h>
#include <ucontext.h>
#include <unistd.h>
static long live;
#ifdef COUNTS
void *malloc(size_t size) {
    static void *(*real)(size_t);
    if (!real) real = (void *(*)(size_t))dlsym(RTLD_NEXT, "malloc");
    void *made = real(size);
    if (made) live += malloc_usable_size(made) + 8;
    return made;
}
void free(void *old) {
    static void (*real)(void *);
    if (!real) real = (void (*)(void *))dlsym(RTLD_NEXT, "free");
    if (old) live -= malloc_usable_size(old) + 8;
    real(old);
}
void *realloc(void *old, size_t size) {
    static void *(*real)(void *, size_t);
    if (!real) real = (void *(*)(void *, size_t))dlsym(RTLD_NEXT, "realloc");
    long before = old ? malloc_usable_size(old) + 8 : 0;
    void *made = real(old, size);
    if (made) live += malloc_usable_size(made) + 8 - before;
    return made;
}
#endif
static unsigned char *entry, at_entry, *back, at_back;
static void tell(void) {
    struct timespec now;
    char text[80];
    clock_gettime(CLOCK_PROCESS_CPUTIME_ID, &now);
    int size = snprintf(text, sizeof text, "%lld %ld\n", now.tv_sec * 1000000000ll + now.tv_nsec, live);
    if (write(2, text, size) != size) abort();
}
static void on_trap(int number, siginfo_t *info, void *state) {
    greg_t *registers = ((ucontext_t *)state)->uc_mcontext.gregs;
    unsigned char *at = (unsigned char *)registers[REG_RIP] - 1;
    registers[REG_RIP] = (greg_t)at;
    if (at == entry) {
        back = *(unsigned char **)registers[REG_RSP];
        at_back = *back;
        *entry = at_entry;
        *back = 0xCC;
        tell();
    } else {
        tell();
        *back = at_back;
        *entry = 0xCC;
    }
}
static int open_code(struct dl_phdr_info *program, size_t size, void *data) {
    for (int i = 0; i < program->dlpi_phnum; i++) {
        const ElfW(Phdr) *part = &program->dlpi_phdr[i];
        unsigned long start = (program->dlpi_addr + part->p_vaddr) & -4096ul;
        if (part->p_type == PT_LOAD && part->p_flags & PF_X)
            mprotect((void *)start, program->dlpi_addr + part->p_vaddr + part->p_memsz - start, PROT_READ | PROT_WRITE | PROT_EXEC);
    }
    entry = (unsigned char *)program->dlpi_addr + strtoul(getenv("WATCHED"), 0, 16);
    return 1;
}
__attribute__((constructor)) static void watch(void) {
    struct sigaction action = {.sa_sigaction = on_trap, .sa_flags = SA_SIGINFO};
    dl_iterate_phdr(open_code, 0);
    sigaction(SIGTRAP, &action, 0);
    at_entry = *entry;
    *entry = 0xCC;
}
"""


def be16(n):
    return struct.pack(">H", n & 0xFFFF)


def be32(n):
    return struct.pack(">I", n & 0xFFFFFFFF)


def padded(bytes_):
    return bytes_ + b"\0" * (-len(bytes_) % 4)


def chunk(kind, flags, value):
    return padded(bytes([kind, flags]) + be16(4 + len(value)) + value)


def data(tsn, stream=0, ssn=0, payload=b"x", flags=3):
    return chunk(0, flags, be32(tsn) + be16(stream) + be16(ssn) + be32(53) + payload)


def idata(tsn, stream=0, mid=0, fsn=0, payload=b"x", flags=3):
    return chunk(64, flags, be32(tsn) + be16(stream) + be16(0) + be32(mid) + be32(53 if flags & 2 else fsn) + payload)


def sack(tsn, window, gaps=(), again=()):
    blocks = b"".join(be16(first) + be16(last) for first, last in gaps)
    return chunk(3, 0, be32(tsn) + be32(window) + be16(len(gaps)) + be16(len(again)) + blocks + b"".join(map(be32, again)))


def cookie_echo(peer_tag, my_tag, peer_tsn, my_tsn):
    """A cookie that can be read (docs/FORMATS.md), of an end that announced a window of 131,072 bytes, 65,535 streams and no more."""
    numbers = be32(peer_tag) + be32(my_tag) + be32(peer_tsn) + be32(my_tsn) + be32(131_072)
    return chunk(10, 0, b"dcSCTPr0" + numbers + bytes(8) + bytes(8) + be16(65_535) + be16(65_535))


def forward(tsn, skipped=()):
    return chunk(192, 0, be32(tsn) + b"".join(be16(stream) + be16(ssn) for stream, ssn in skipped))


def iforward(tsn, skipped=()):
    return chunk(194, 0, be32(tsn) + b"".join(be16(s) + be16(u) + be32(mid) for s, u, mid in skipped))


def parameter(kind, value):
    return padded(be16(kind) + be16(4 + len(value)) + value)


def reset(number, last, streams):
    value = be32(number) + be32(0) + be32(last) + b"".join(map(be16, streams))
    return chunk(130, 0, be16(13) + be16(4 + len(value)) + value)


def response(number, result):
    """The answer to b's request of this number to reset streams (RFC 6525 section 4.4)."""
    return chunk(130, 0, parameter(16, be32(number) + be32(result)))


def packet(tag, *chunks):
    body = b"".join(chunks)
    head = be16(5000) + be16(5000) + be32(tag)
    return head + be32(sum(head) + sum(body)) + body


def cut(chunks, size):
    """The first of the chunks, as many as there may be in a packet of this size."""
    kept, room, sacks = [], size - HEADER, 0
    for one in chunks:
        room -= len(one)
        sacks += one[0] in (3, 10)
        if room < 0 or sacks > SACKS:
            return kept
        kept.append(one)
    return kept


def fill(size, one):
    """As many of one(0), one(1), .. as there may be in a packet of this size."""
    return cut(map(one, itertools.count()), size)


# With these lines b is connected when the packet comes. Tags and first TSNs are those of the script's words.
TAG, FIRST = 17, 456  # b's tag, and the first TSN of a
SENDER = 5  # the first TSN of b
OPEN = "connect a\ngive a 0 b\ngive b 0 a\ngive a 1 b\ngive b 1 a\n"


def take(*chunks):
    return f"take b {packet(TAG, *chunks).hex()}\n"


def many(count, one):
    """`take` lines with one(0) up to one(count - 1), in packets as large as can be."""
    lines, chunks, room = [], [], LARGE - HEADER
    for number in range(count):
        next_ = one(number)
        if len(next_) > room:
            lines.append(take(*chunks))
            chunks, room = [], LARGE - HEADER
        chunks.append(next_)
        room -= len(next_)
    return "".join(lines) + take(*chunks)


def build():
    ran = subprocess.run([RT, "run"], cwd=f"{TOP}/crates/run_socket_script", stdin=subprocess.DEVNULL, capture_output=True, text=True)
    if ran.returncode or not os.path.exists(PROGRAM):
        sys.exit(ran.stdout + ran.stderr)


class Watch:
    """Runs a script and tells what the last call of a function cost."""

    def __init__(self, room, function):
        open(f"{room}/watch.c", "w").write(WATCH)
        self.libraries = []
        for flag in ("-DTIMES", "-DCOUNTS"):
            self.libraries.append(f"{room}/watch{flag}.so")
            words = ["gcc", "-O1", "-shared", "-fPIC", flag, "-o", self.libraries[-1], f"{room}/watch.c", "-ldl"]
            subprocess.run(words, check=True)
        names = subprocess.run(["nm", PROGRAM], capture_output=True, text=True, check=True).stdout.splitlines()
        (self.watched,) = [name.split()[0] for name in names if function in name]

    def told(self, row, library):
        """What is told as the last call begins and ends; the process."""
        env = {**os.environ, "LD_PRELOAD": library, "WATCHED": self.watched}
        ran = subprocess.run([PROGRAM], input=f"# one\n{row}".encode(), capture_output=True, env=env)
        told = [tuple(map(int, line.split())) for line in ran.stderr.decode().splitlines()]
        return told[-2:] if len(told) > 1 else [(0, 0), (0, 0)], ran

    def run(self, row):
        """Processor nanoseconds of the call, and bytes that it leaves on the heap; what is printed; the status."""
        (start, _), (end, _) = self.told(row, self.libraries[0])[0]
        ((_, before), (_, after)), ran = self.told(row, self.libraries[1])
        return (end - start, after - before), ran.stdout.decode(), ran.returncode


def instructions(row, function):
    """How many instructions all calls of the function take in a row, by callgrind."""
    with tempfile.NamedTemporaryFile() as found:
        words = ["valgrind", "--tool=callgrind", f"--callgrind-out-file={found.name}", f"--toggle-collect={function}", PROGRAM]
        ran = subprocess.run(words, input=f"# one\n{row}".encode(), capture_output=True)
        collected = re.findall(r"Collected : (\d+)", ran.stderr.decode())
        return int(collected[0]) if collected else None


def beside(row, last, function):
    """How many instructions the last line takes in the function, by callgrind."""
    return instructions(row + last, f"*{function}*") - (instructions(row, f"*{function}*") or 0)
