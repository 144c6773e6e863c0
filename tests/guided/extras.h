/* The library's calls in plain C (c/restart_extra.c) beside a plain reading of what the header says. */
#ifndef EXTRAS_H
#define EXTRAS_H

#include "steps.h"

#include <restart.h>

/* Ends the program; says what was found and what is expected. */
void differs(const char *what, unsigned long found, unsigned long expected);

/* A report drafted by the step's bytes: view and members, then three words for each thing done. */
void draft_step(const struct step *step, const uint8_t *settings, size_t settings_len);

/* An order read shard by shard. */
void task_step(const struct step *step, const uint8_t *settings, size_t settings_len);

/* A leader's file: saved, changed as the step says, and taken up again. */
void file_step(const struct step *step, const uint8_t *settings, size_t settings_len,
               const uint8_t *state, const uint8_t *desk);

/* The marks that are owed. */
void owing_step(const uint8_t *state);

#endif
