/* Hostile texts: what mutate.c feeds the program. */
#ifndef MUTATE_H
#define MUTATE_H

#include "common.h"

/* The words that are put into a text of some kind. The last is NULL. */
extern const char *const script_words[], *const device_words[], *const change_words[], *const config_words[];

/* Changes bytes at random: flipped, cut, repeated, swapped, and words of a list put in. */
void mutate(struct random *random, struct bytes *bytes, const char *const *words);

/* A script by the grammar, with variables, devices and built-in commands. */
void make_script(struct random *random, struct bytes *script, int depth);

#endif
