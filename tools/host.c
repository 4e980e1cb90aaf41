/* What the programs for 64-bit ARM need of C beside the C library: the heap, the words of the command line, errno, and
   folders. For x86-64 the toolchain has archives of its own for this; for other processors it has none. Rattle declares
   these functions with contracts. Nothing proves that this file meets them. It includes no header: the toolchain's clang has
   none. */
typedef __SIZE_TYPE__ size_t;
typedef __PTRDIFF_TYPE__ ssize_t;

_Static_assert(sizeof(size_t) == 8 && sizeof(void *) == 8, "a usize and a pointer have 64 bits");
_Static_assert(sizeof(int) == 4, "an i32 is an int");
_Static_assert(__BYTE_ORDER__ == __ORDER_LITTLE_ENDIAN__, "Rattle's targets are little-endian");

void *malloc(size_t n);
void *realloc(void *p, size_t n);
void free(void *p);
int *__errno_location(void); /* the address of errno, in glibc and in musl */
int openat(int folder, const char *name, int flags, ...);

/* Rattle's `Tried`: whether there is memory, and a pointer to it, which is never null. */
struct tried {
    _Bool ok;
    unsigned char *p;
};

/* What the pointer points to if there is no memory. */
static unsigned char nothing;

static struct tried tried(void *p)
{
    return p ? (struct tried){1, p} : (struct tried){0, &nothing};
}

/* Allocates n bytes, aligned to a. a divides 16, and malloc aligns to 16. No bytes take a block too. */
struct tried rattle_alloc(size_t n, size_t a)
{
    return tried(malloc(n ? n : a));
}

/* Makes the block at p one of n bytes. Its first `kept` bytes stay as they were. */
struct tried rattle_realloc(void *p, size_t kept, size_t n, size_t a)
{
    (void)kept;
    return tried(realloc(p, n ? n : a));
}

void rattle_dealloc(void *p)
{
    free(p);
}

int rattle_errno(void)
{
    return *__errno_location();
}

void rattle_set_errno(int error)
{
    *__errno_location() = error;
}

/* The words of the command line. glibc calls each function in .init_array with them. */
static int count;
static char **words;

static void keep(int argc, char **argv)
{
    count = argc;
    words = argv;
}

__attribute__((section(".init_array"), used)) static void (*const at_start)(int, char **) = keep;

size_t rattle_arg_count(void)
{
    return (size_t)count;
}

/* Copies word i to buf and returns its length. Returns -1 if there is no such word, -2 if it is longer than len. */
ssize_t rattle_arg(size_t i, unsigned char *buf, size_t len)
{
    size_t n = 0;
    if (i >= (size_t)count || !words[i]) {
        return -1;
    }
    for (; words[i][n]; n++) {
        if (n == len) {
            return -2;
        }
        buf[n] = (unsigned char)words[i][n];
    }
    return (ssize_t)n;
}

/* The flags of openat on 64-bit ARM: for a folder alone, not through a last link, and closed by exec. */
enum { DIRECTORY = 0x4000, NOFOLLOW = 0x8000, CLOEXEC = 0x80000 };

/* Opens the folder that the name reaches from another one, to be read. Returns a descriptor, or -1. */
int rattle_open_dir_at(int folder, const char *name)
{
    return openat(folder, name, DIRECTORY | NOFOLLOW | CLOEXEC);
}
