/* What the tests share. They are written in what C and C++ have in common and run as both. */
#ifndef CHECK_H
#define CHECK_H

#include <stdio.h>
#include <string.h>

#include "../../include/zengilvar.h"
#include "../../include/zengilvar_standard.h"

#define PAINT 0xA5

typedef dm_coded coder(const uint8_t *, size_t, const uint8_t *, size_t, uint8_t *, size_t);

/* Counts a check, and shows it if it does not hold. */
void expect(bool held, const char *what, const char *of);

const uint8_t *bytes(const char *text);

/* Every byte is as it was lent. */
bool painted(const uint8_t *from, size_t length);

/* Document 01's small text S, and its plate. */
extern const char S[];
extern uint8_t plate[DM_PLATE_MOST];
extern size_t plate_len;

/* A text's plate, in a buffer of DM_PLATE_MOST bytes. */
size_t build(const char *text, bool folding, uint8_t *to);

/* A text's refusal, or 0, by number and line; a buffer of `room` bytes is lent. */
void build_refused(const char *text, size_t text_len, size_t room, uint64_t number, uint64_t line);

/* A name's answer under S in a buffer of `room` bytes: the codes, or a refusal where they are null. */
void coded(coder *call, const char *name, size_t name_len, size_t room, const char *codes, uint64_t number);

/* The same of a name whose fault begins at this byte. */
void refused_at(coder *call, const char *name, size_t name_len, uint64_t number, uint64_t place);

void examples(void);
void refusals(void);
void places(void);
void limits(void);
void plates(void);
void wards(void);
void pages(void);
void index_edges(void);
void words(void);

#endif
