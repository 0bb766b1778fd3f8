/* Whether what an endpoint sends keeps the rules for DATA, FORWARD-TSN and resets of its streams, told from its packets alone: so that a fault
 * of a peer is told from one of this side. Each breach is a fault (messages.h). */
#ifndef LEGAL_H
#define LEGAL_H

#include <stddef.h>
#include <stdint.h>

/* A packet that the endpoint sends. `first_tsn` is its initial TSN. */
void legal_sent(uint32_t first_tsn, const uint8_t *packet, size_t length);
/* A packet that comes to the endpoint: what its SACKs report, and its answer to a reset. */
void legal_came(const uint8_t *packet, size_t length);

#endif
