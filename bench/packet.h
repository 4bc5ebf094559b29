/* RADIUS packets (RFC 2865 section 3, RFC 2866 section 3) and their authenticators. */
#ifndef BENCH_PACKET_H
#define BENCH_PACKET_H

#include "md5.h"

#include <stdbool.h>

enum {
	PACKET_HEAD = 20, /* octets before the first attribute */
	PACKET_MOST = 4096,
	AUTHENTICATOR_AT = 4,
	AUTHENTICATOR_OCTETS = 16,
};

enum code { ACCOUNTING_REQUEST = 4, ACCOUNTING_RESPONSE = 5, STATUS_SERVER = 12 };

enum kind { USER_NAME = 1, PROXY_STATE = 33, ACCT_STATUS_TYPE = 40, ACCT_SESSION_ID = 44, CONNECT_INFO = 77 };

/* What stands for the authenticator where that of an Accounting-Request is made. */
extern const uint8_t packet_zeros[AUTHENTICATOR_OCTETS];

/* The length of the packet in these octets; 0 where there is none, or its attributes are not as they have to be. */
size_t packet_length(const uint8_t *octets, size_t count);

/* Adds an attribute, and answers the new length. There has to be room, and the value has 253 octets at most. */
size_t packet_add(uint8_t *packet, size_t length, enum kind kind, const void *value, size_t count);

/* Writes the length and the authenticator, which is made over `middle` in its place. */
void packet_sign(uint8_t *packet, size_t length, const uint8_t *middle, const char *secret);

/* Whether the authenticator is the one that is made over `middle`. */
bool packet_is_right(const uint8_t *packet, size_t length, const uint8_t *middle, const char *secret);

#endif
