/* The core's memory, its calls, and the carrying out of its output sheets. */
#ifndef CORE_H
#define CORE_H

#include <stdbool.h>
#include <stddef.h>
#include <stdint.h>

/* Reads the farm sheet and starts the table. Gives false after saying what is wrong. */
bool core_start(const char *sheet_file);
size_t core_farms(void);
void core_echo(bool on);

void core_accepted(uint8_t farm, int socket);
/* Offers the core what it has not taken of the row, as far as it takes it, and tells it if the connection is gone. */
void core_pump(size_t row);
void core_datagram(uint8_t farm, int socket);
void core_tick(void);
void core_link_lost(uint8_t farm);
void core_meters(void);

/* An output sheet or a refusal that this host has not reckoned with: it was said, and the host should end. */
extern bool core_fault;

#endif
