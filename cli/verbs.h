/* What each verb does. */
#ifndef PLANBOOK_CLI_VERBS_H
#define PLANBOOK_CLI_VERBS_H

#include "arguments.h"

void run_keygen(const struct arguments *given);
void run_check(const struct arguments *given);
void run_seal(const struct arguments *given);
void run_open(const struct arguments *given);
void run_show(const struct arguments *given);
void run_labels(const struct arguments *given);
void run_find(const struct arguments *given);
void run_pack(const struct arguments *given);
void run_unpack(const struct arguments *given);
void run_page(const struct arguments *given);
void run_note(const struct arguments *given);

#endif
