/* A library that is loaded before the C library, for the scripts beside this file. The program runs once, without harm.
   At each point where something may go wrong the process makes a child of itself, in which it does go wrong; it waits for
   the child, judges its answer, and goes on. What is written is kept in memory that the two share, so a case costs a fork
   and no more.

   HARM says what goes wrong:
     growths  each growth of memory is refused, one in each child
     texts    the file HARM_FILE is cut, or has a byte changed, at each HARM_STEPth place; HARM_VALUES tells to which
              values: `all`, or the `signs` that mean something; without it two of four
     streams  each call that opens, reads or writes fails or does less than was asked; standard output takes at most
              HARM_TAKES bytes, or 300
     count    nothing: how often memory grew is told
   HARM_EXPLAINED tells that the command has `--explain`. HARM_NAME begins a message about a wrong answer, which goes to
   standard error. The sums go to the end of the file HARM_TOLD: children, wrong answers, how often memory grew, and the
   name. */
#define _GNU_SOURCE
#include <ctype.h>
#include <errno.h>
#include <fcntl.h>
#include <stdarg.h>
#include <stdio.h>
#include <stdlib.h>
#include <string.h>
#include <sys/mman.h>
#include <sys/syscall.h>
#include <sys/uio.h>
#include <sys/wait.h>
#include <unistd.h>

extern void *__libc_malloc(size_t);
extern void *__libc_calloc(size_t, size_t);
extern void *__libc_realloc(void *, size_t);
extern void *__libc_memalign(size_t, size_t);
extern void __libc_free(void *);

enum { OUT_ROOM = 1 << 26, ERR_ROOM = 1 << 16, SECONDS = 30 };

/* What a child answered. */
struct answer {
    size_t out_length, err_length;
    long live;   /* pieces of memory that it was given since `main` began and hasn't given back */
    long writes; /* calls that write to standard output */
    int status;
    char err[ERR_ROOM + 1];
    char out[OUT_ROOM];
};

static enum { NONE, GROWTHS, TEXTS, STREAMS, COUNT } harm;
static enum { FIRST, JUDGE, CHILD } role; /* before `main`; the process that judges; a child */
static struct answer *usual, *tried, *mine;
static long runs, wrong, growths;
static size_t out_here, err_here; /* what the process that judges has written, and how many pieces of memory it has */
static long live_here;
static const char *name;

/* ---- children ---- */

static void complain(const char *form, ...)
{
    char text[700];
    va_list list;
    va_start(list, form);
    int length = vsnprintf(text, sizeof text, form, list);
    va_end(list);
    syscall(SYS_write, 2, text, length < (int)sizeof text ? length : (int)sizeof text - 1);
}

/* Makes a child, which gets 1. The other gets 0 as soon as the child's answer is there. What was done before, which is
   the usual, stands in the answer already. */
static int in_child(struct answer *answer)
{
    answer->out_length = out_here;
    answer->err_length = err_here;
    memcpy(answer->out, usual->out, out_here);
    memcpy(answer->err, usual->err, err_here);
    answer->live = live_here;
    answer->writes = 0;
    pid_t child = fork();
    if (child < 0) {
        complain("%s: no child could be made\n", name);
        _exit(99);
    }
    if (child == 0) {
        role = CHILD;
        mine = answer;
        alarm(SECONDS);
        return 1;
    }
    int state;
    while (waitpid(child, &state, 0) < 0 && errno == EINTR)
        ;
    answer->status = WIFEXITED(state) ? WEXITSTATUS(state) : 1000 + WTERMSIG(state);
    answer->err[answer->err_length] = 0;
    runs++;
    return 0;
}

static void judge(int is_right, const char *form, long at, long value)
{
    char what[100];
    if (is_right)
        return;
    wrong++;
    snprintf(what, sizeof what, form, at, value);
    complain("%s: %s: status %d, %zu bytes, kept %ld: %.200s\n", name, what, tried->status, tried->out_length,
             tried->live, tried->err);
}

static int says(const char *line) { return strcmp(tried->err, line) == 0; }

static int begins_usual(void)
{
    return tried->out_length <= usual->out_length && memcmp(tried->out, usual->out, tried->out_length) == 0;
}

static int is_usual(void)
{
    return tried->status == usual->status && tried->out_length == usual->out_length && begins_usual() && says(usual->err);
}

static int is_refused(const char *line) { return tried->status == 1 && tried->out_length == 0 && says(line); }

/* ---- growths ---- */

static void count_live(long by)
{
    if (role == CHILD)
        mine->live += by;
    else
        live_here += by;
}

/* Whether the usual answer was given, of whose explanation memory may not have been enough for the end. */
static int is_usual_but_explained(void)
{
    return getenv("HARM_EXPLAINED") && tried->status == usual->status && tried->out_length == usual->out_length
           && begins_usual() && strncmp(usual->err, tried->err, tried->err_length) == 0
           && (usual->status != 1 || strchr(tried->err, '\n'));
}

/* Whether the usual answer was given where that may be: of a line that is refused, the text of which is put together as far
   as memory goes; and once while the words of the line are taken over, before any file is opened. */
static int is_passed_over(void)
{
    enum { WORDS_TAKEN = 40 };
    static int passed_over;
    if (!is_usual())
        return 0;
    return usual->status == 2 || (growths <= WORDS_TAKEN && passed_over++ == 0);
}

static int refused(void)
{
    if (role != JUDGE)
        return 0;
    growths++;
    if (harm != GROWTHS)
        return 0;
    if (in_child(tried))
        return 1;
    judge((is_refused("memory\n") || is_usual_but_explained() || is_passed_over()) && tried->live == 0, "growth %ld",
          growths, 0);
    return 0;
}

static void *none(void)
{
    errno = ENOMEM;
    return 0;
}

static void *given(void *place)
{
    if (place)
        count_live(1);
    return place;
}

void *malloc(size_t size) { return refused() ? none() : given(__libc_malloc(size)); }

void *calloc(size_t count, size_t size) { return refused() ? none() : given(__libc_calloc(count, size)); }

void *realloc(void *place, size_t size)
{
    if (refused())
        return none();
    void *moved = __libc_realloc(place, size);
    if (!place)
        return given(moved);
    if (!moved && size == 0)
        count_live(-1);
    return moved;
}

void *aligned_alloc(size_t align, size_t size) { return refused() ? none() : given(__libc_memalign(align, size)); }

int posix_memalign(void **place, size_t align, size_t size)
{
    if (refused())
        return ENOMEM;
    *place = given(__libc_memalign(align, size));
    return *place ? 0 : ENOMEM;
}

void free(void *place)
{
    if (place)
        count_live(-1);
    __libc_free(place);
}

#include "hostile_texts.h"
#include "hostile_streams.h"

/* ---- begin and end ---- */

__attribute__((constructor)) static void begin(void)
{
    const char *word = getenv("HARM");
    name = getenv("HARM_NAME");
    if (!word || !name)
        return;
    harm = !strcmp(word, "growths")   ? GROWTHS
           : !strcmp(word, "texts")   ? TEXTS
           : !strcmp(word, "streams") ? STREAMS
                                      : COUNT;
    usual = mmap(0, 2 * sizeof *usual, PROT_READ | PROT_WRITE, MAP_SHARED | MAP_ANONYMOUS | MAP_NORESERVE, -1, 0);
    if (usual == MAP_FAILED)
        _exit(99);
    live_here = 0;
    tried = usual + 1;
    if (in_child(usual))
        return;
    runs = 0;
    role = JUDGE;
    if (usual->status > 6 || usual->live != 0) {
        wrong++;
        complain("%s: status %d, kept %ld\n", name, usual->status, usual->live);
    }
}

__attribute__((destructor)) static void end(void)
{
    char line[600];
    const char *told = getenv("HARM_TOLD");
    if (role != JUDGE)
        return;
    int file = told ? syscall(SYS_openat, AT_FDCWD, told, O_WRONLY | O_CREAT | O_APPEND, 0600) : -1;
    int length = snprintf(line, sizeof line, "%ld %ld %ld %.500s\n", runs, wrong, growths, name);
    if (file < 0 || syscall(SYS_write, file, line, length) != length)
        _exit(99);
    _exit(wrong > 0);
}
