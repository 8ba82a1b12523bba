/* For compilers that know no switches, as gcc and clang: an attribute is ignored, and each call does nothing and answers as where nothing is bound.
   `gcc -I include -fwrapv -funsigned-char FILE` compiles what `./multiverse run FILE` does, which needs no file for this header. */
#ifndef MULTIVERSE_H
#define MULTIVERSE_H

#if defined(__clang__)
#pragma clang diagnostic ignored "-Wunknown-attributes"
#elif defined(__GNUC__)
#pragma GCC diagnostic ignored "-Wattributes"
#endif

static inline int multiverse_commit(void) { return 0; }
static inline int multiverse_revert(void) { return 0; }
static inline int multiverse_poll(void) { return 0; }

/* The argument names a function or a switch, whatever its type. */
#define multiverse_commit_func(function) ((void)(function), multiverse_commit())
#define multiverse_revert_func(function) ((void)(function), multiverse_revert())
#define multiverse_commit_refs(reference) ((void)(reference), multiverse_commit())
#define multiverse_revert_refs(reference) ((void)(reference), multiverse_revert())

#endif
