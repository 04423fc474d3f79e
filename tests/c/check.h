/* What the parts of the check share. What a check tells is counted, and named if it is not so. */
#ifndef CHECK_H
#define CHECK_H

#include "tlx.h"

#define MAX_TEXT 65536

void tell(const char *name, int is_so);

/* The words of faults, those of a beat as docs/reference/faults.md has them. */
const char *words_of(enum tlx_fault fault);

/* The bytes of a file, with a zero after them; how many there are, which is 0 if it can't be read. */
size_t read_file(const char *folder, const char *name, char *text);

/* The library's requests for memory. */
extern size_t requests;
extern size_t refused;  /* the number of the request that is refused, from 1 on; 0 refuses none */
extern int asked_less;  /* the request that was refused was for no more than the block has */
extern long blocks;     /* that were taken and not given back */

/* The counts of handles, 0 after a fault, and the lengths of texts, SIZE_MAX after one. */
uint64_t system_ports_of(const struct tlx_system *system);
size_t image_name_of(const struct tlx_system *system, uint64_t port, char *text, size_t room);
uint64_t masters_of(const struct tlx_model *model);
uint64_t ports_of(const struct tlx_model *model);
uint64_t requests_of(const struct tlx_judge *judge);
uint64_t answered_of(const struct tlx_judge *judge);
uint64_t in_flight_of(const struct tlx_judge *judge);
size_t text_of(const struct tlx_judge *judge, char *text, size_t room);

/* Judges a beat, with each request for memory refused in turn: want of memory changes nothing, so the beat is given again. */
uint32_t step_refused(struct tlx_judge *judge, const struct tlx_beat *beat);

/* A script, which is a system file: two RAMs of 64 bytes, and a master with two sources. */
extern const char SYSTEM[];

/* A system file with resets: a memory that keeps its bytes, and registers that are loaded. */
extern const char RESETS[];

/* captures.c: judges each capture of a folder by calls */
void check_captures(const char *folder);

/* models.c: the calls of models */
void check_models(void);

/* judges.c: the calls of judges and of the systems that they are made of */
void check_files(void);
void check_images(void);
void check_judges(void);
void check_longest_line(void);
void check_buses(void);
void check_slaves(void);

/* arguments.c: each null, each number out of range, and calls after refused ones */
void check_arguments(void);

/* clones.c: copies of models and judges */
void check_clones(void);

/* cycles.c: the beats of a cycle, and arrays of beats */
void check_cycles(void);

/* resets.c: resets of the whole system */
void check_resets(void);

#endif
