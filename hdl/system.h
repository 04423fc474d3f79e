/* How judge.c and slave.c read a system file, with the images that it names. It is C and C++. */
#ifndef TLX_HDL_SYSTEM_H
#define TLX_HDL_SYSTEM_H

#include "tlx.h"

#include <stdio.h>
#include <stdlib.h>
#include <string.h>

#define MAX_NAME 4096 /* of a file */
#define MAX_SYSTEM (1 << 20)

/* A file's bytes, to its end or to more than `most`; null if there are none to read. */
static char *read_file(const char *path, size_t most, size_t *length) {
  FILE *file = fopen(path, "rb");
  char *bytes = NULL;
  size_t room = 0, count = 1;
  *length = 0;
  while (file && count > 0 && *length <= most) {
    room = room ? 2 * room : 4096;
    char *more = (char *)realloc(bytes, room);
    if (!more) break;
    bytes = more;
    count = fread(bytes + *length, 1, room - *length, file);
    *length += count;
  }
  if (file && (ferror(file) || (count > 0 && *length <= most))) {
    free(bytes);
    bytes = NULL;
  }
  if (file) fclose(file);
  return bytes;
}

/* The name of a file that a system file names, from the folder of that. */
static void place_name(char *whole, const char *path, const char *name) {
  const char *end = strrchr(path, '/');
  if (name[0] == '/' || !end)
    snprintf(whole, 2 * MAX_NAME, "%s", name);
  else
    snprintf(whole, 2 * MAX_NAME, "%.*s/%s", (int)(end - path), path, name);
}

/* Hands in the images that a system names. One that can't be read is not handed in, which the judge's maker then says. */
static uint32_t read_images(struct tlx_system *system, const char *path, char *why, size_t room) {
  uint64_t ports = 0;
  uint32_t fault = tlx_system_ports(system, &ports);
  for (uint64_t port = 0; port < ports && fault == TLX_OK; port++) {
    char name[MAX_NAME], whole[2 * MAX_NAME];
    size_t length;
    tlx_system_image_name(system, port, name, sizeof name, &length);
    if (!length) continue;
    place_name(whole, path, name);
    char *image = read_file(whole, SIZE_MAX / 4, &length);
    if (image) fault = tlx_system_image(system, port, image, length, why, room);
    free(image);
    if (!image) break;
  }
  return fault;
}

/* The system of a file, with its images. If there is none, the answer is null, and `why` says what is wrong. */
static struct tlx_system *read_system(const char *path, char *why, size_t room) {
  struct tlx_system *system = NULL;
  size_t length = 0;
  char *file = read_file(path, MAX_SYSTEM, &length);
  why[0] = 0;
  if (!file) {
    snprintf(why, room, "could not be read");
    return NULL;
  }
  uint32_t fault = tlx_system_read(file, length, TLX_VERSION, &system, why, room);
  free(file);
  if (fault == TLX_OK) fault = read_images(system, path, why, room);
  if (fault == TLX_OK) return system;
  if (!why[0]) tlx_fault_text(fault, why, room, NULL);
  tlx_system_free(system);
  return NULL;
}

#endif
