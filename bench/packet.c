#include "packet.h"

#include <string.h>

const uint8_t packet_zeros[AUTHENTICATOR_OCTETS];

size_t packet_length(const uint8_t *octets, size_t count)
{
	size_t length, at;

	if (count < PACKET_HEAD)
		return 0;
	length = (size_t)octets[2] << 8 | octets[3];
	if (length < PACKET_HEAD || length > PACKET_MOST || length > count)
		return 0;
	for (at = PACKET_HEAD; at + 1 < length && octets[at + 1] >= 2; at += octets[at + 1])
		;
	return at == length ? length : 0;
}

size_t packet_add(uint8_t *packet, size_t length, enum kind kind, const void *value, size_t count)
{
	packet[length] = (uint8_t)kind;
	packet[length + 1] = (uint8_t)(count + 2);
	memcpy(packet + length + 2, value, count);
	return length + 2 + count;
}

static void make_authenticator(const uint8_t *packet, size_t length, const uint8_t *middle, const char *secret,
			       uint8_t made[AUTHENTICATOR_OCTETS])
{
	struct md5 md5;

	md5_start(&md5);
	md5_feed(&md5, packet, AUTHENTICATOR_AT);
	md5_feed(&md5, middle, AUTHENTICATOR_OCTETS);
	md5_feed(&md5, packet + PACKET_HEAD, length - PACKET_HEAD);
	md5_feed(&md5, secret, strlen(secret));
	md5_finish(&md5, made);
}

void packet_sign(uint8_t *packet, size_t length, const uint8_t *middle, const char *secret)
{
	uint8_t made[AUTHENTICATOR_OCTETS];

	packet[2] = (uint8_t)(length >> 8);
	packet[3] = (uint8_t)length;
	make_authenticator(packet, length, middle, secret, made);
	memcpy(packet + AUTHENTICATOR_AT, made, sizeof made);
}

bool packet_is_right(const uint8_t *packet, size_t length, const uint8_t *middle, const char *secret)
{
	uint8_t made[AUTHENTICATOR_OCTETS];

	make_authenticator(packet, length, middle, secret, made);
	return memcmp(packet + AUTHENTICATOR_AT, made, sizeof made) == 0;
}
