/* The deepest stack that a call uses: texts nested to the limit and around it, one for every place of a value or type, every level and
 * every innermost value or type below, are read in full and read again as edits of a short function, each on a thread whose stack was
 * filled with a pattern first. Prints the most bytes that were touched, and the text.
 * cc -Iinclude examples/stack.c target/staticlib/libzimlokur.a -lpthread -o stack */
#define _POSIX_C_SOURCE 200112L
#include "zimlokur.h"

#include <pthread.h>
#include <stdio.h>
#include <stdlib.h>
#include <string.h>

#define STACK ((size_t)1 << 17)
#define FILL 0xA5

enum { WORDS = 4096, DIRECTORY_WORDS = 64, TEXT_BYTES = 8192 };

/* What stands around a value or type: where it is read, or one level of nesting. A list ends in NULL. */
struct around {
  const char *before, *behind;
};

static const struct around value_places[] = {
    {"void @f(){ret i8 ", "}"},
    {"void @f(){br i1 ", ",label %a,label %b}"},
    {"void @f(){switch i8 ", ",label %a[]}"},
    {"void @f(){switch i8 1,label %a[i8 ", ",label %b]}"},
    {"void @f(){%x=add i8 1,", " ret void}"},
    {"void @f(){%x=fneg i8 ", " ret void}"},
    {"void @f(){%x=icmp eq i8 1,", " ret void}"},
    {"void @f(){%x=trunc i8 ", " to i8 ret void}"},
    {"void @f(){%x=select i1 1,i8 1,i8 ", " ret void}"},
    {"void @f(){%x=phi i8[", ",%a]ret void}"},
    {"void @f(){%x=extractvalue i8 ", ",1 ret void}"},
    {"void @f(){%x=alloca i8,i8 ", " ret void}"},
    {"void @f(){%x=load i8,ptr ", " ret void}"},
    {"void @f(){store i8 ", ",ptr null ret void}"},
    {"void @f(){%x=getelementptr i8,ptr null,i8 ", " ret void}"},
    {"void @f(){%x=cmpxchg ptr ", ",i8 1,i8 1 seq_cst seq_cst ret void}"},
    {"void @f(){%x=cmpxchg ptr null,i8 ", ",i8 1 seq_cst seq_cst ret void}"},
    {"void @f(){%x=cmpxchg ptr null,i8 1,i8 ", " seq_cst seq_cst ret void}"},
    {"void @f(){%x=atomicrmw add ptr ", ",i8 1 seq_cst ret void}"},
    {"void @f(){%x=atomicrmw add ptr null,i8 ", " seq_cst ret void}"},
    {"void @f(){call void ", "()ret void}"},
    {"void @f(){%x=call i8(i8,...)@g(i8 1,i8 ", ")ret void}"},
    {NULL, NULL},
};

static const struct around value_levels[] = {
    {"[i8 ", "]"},
    {"{i8 ", "}"},
    {"<{i8 ", "}>"},
    {"trunc(i8 ", " to i8)"},
    {"add(i8 1,i8 ", ")"},
    {"getelementptr(i8,ptr ", ")"},
    {"getelementptr(i8,ptr null,i8 ", ")"},
    {NULL, NULL},
};

static const char *const values[] = {
    "1",           "-1.5e3",          "0x7FF0000000000000", "f0x7F800001", "170141183460469231731687303715884105727",
    "true",        "zeroinitializer", "%\"a\"",             "@\"a\"",      "c\"\\41\"",
    "[{i8}undef]", "{i8(i8)* undef}", "<{[1 x i8]undef}>",  NULL,
};

static const struct around type_places[] = {
    {"", " @f(){ret void}"},
    {"void @f(", " %x){ret void}"},
    {"void @f(){ret ", " undef}"},
    {"void @f(){switch i8 1,label %a[", " 1,label %b]}"},
    {"void @f(){%x=trunc i8 1 to ", " ret void}"},
    {"void @f(){%x=phi ", "[1,%a]ret void}"},
    {"void @f(){%x=alloca ", " ret void}"},
    {"void @f(){%x=alloca i8,", " 1 ret void}"},
    {"void @f(){%x=load ", ",ptr null ret void}"},
    {"void @f(){%x=getelementptr ", ",ptr null ret void}"},
    {"void @f(){%x=getelementptr i8,ptr null,", " 1 ret void}"},
    {"void @f(){%x=cmpxchg ptr null,i8 1,", " 1 seq_cst seq_cst ret void}"},
    {"void @f(){%x=atomicrmw add ", " null,i8 1 seq_cst ret void}"},
    {"void @f(){%x=atomicrmw add ptr null,", " 1 seq_cst ret void}"},
    {"void @f(){call ", " @g()ret void}"},
    {"void @f(){call void(", ")@g()ret void}"},
    {"void @f(){call void @g(", " 1)ret void}"},
    {NULL, NULL},
};

static const struct around type_levels[] = {
    {"[1 x ", "]"}, {"<1 x ", ">"}, {"{i8,", "}"}, {"<{i8,", "}>"}, {"i8(i8,", ")*"}, {NULL, NULL},
};

static const char *const types[] = {"i8", "%\"a\"", "i8 addrspace(1)*", "void()*", NULL};

static const char older[] = "void @f(){ret void}";
static char text[TEXT_BYTES], deepest[TEXT_BYTES];
static uint64_t words[WORDS], directory[DIRECTORY_WORDS], place, entries, first, count;
static size_t unused_bytes, most;

static void read_full(const char *given) {
  zimlokur_parse_define((const uint8_t *)given, strlen(given), words, WORDS, directory, DIRECTORY_WORDS, &place, &entries);
}

static void *nothing(void *argument) { return argument; }

static void *reads(void *argument) {
  read_full(text);
  return argument;
}

static void *rereads(void *argument) {
  zimlokur_reparse_define((const uint8_t *)older, strlen(older), (const uint8_t *)text, strlen(text), words, WORDS, directory,
                          DIRECTORY_WORDS, entries, &place, &entries, &first, &count);
  return argument;
}

/* How many bytes of a thread's stack are touched. */
static size_t touched(void *(*run)(void *)) {
  void *stack;
  pthread_attr_t attr;
  pthread_t thread;
  if (posix_memalign(&stack, 4096, STACK))
    exit(2);
  memset(stack, FILL, STACK);
  pthread_attr_init(&attr);
  pthread_attr_setstack(&attr, stack, STACK);
  if (pthread_create(&thread, &attr, run, NULL))
    exit(2);
  pthread_join(thread, NULL);
  size_t i = 0;
  while (i < STACK && ((unsigned char *)stack)[i] == FILL)
    i++;
  free(stack);
  return STACK - i;
}

static void measure(void *(*run)(void *)) {
  size_t used = touched(run) - unused_bytes;
  if (most < used) {
    most = used;
    strcpy(deepest, text);
  }
}

static void nest(struct around where, struct around level, const char *inner, int levels) {
  strcpy(text, where.before);
  for (int i = 0; i < levels; i++)
    strcat(text, level.before);
  strcat(text, inner);
  for (int i = 0; i < levels; i++)
    strcat(text, level.behind);
  strcat(text, where.behind);
}

/* Every place, level and innermost value or type with each other. */
static void measure_all(const struct around *places, const struct around *levels, const char *const *inner) {
  for (const struct around *where = places; where->before; where++)
    for (const struct around *level = levels; level->before; level++)
      for (const char *const *in = inner; *in; in++)
        for (int n = ZIMLOKUR_DEPTH_LIMIT - 2; n <= ZIMLOKUR_DEPTH_LIMIT + 1; n++) {
          nest(*where, *level, *in, n);
          measure(reads);
          read_full(older);
          measure(rereads);
        }
}

int main(void) {
  unused_bytes = touched(nothing);
  measure_all(value_places, value_levels, values);
  measure_all(type_places, type_levels, types);
  printf("%zu bytes of stack at most\n%s\n", most, deepest);
  if (fflush(stdout) || ferror(stdout)) {
    fputs("stack: standard output cannot be written\n", stderr);
    return 2;
  }
  return 0;
}
