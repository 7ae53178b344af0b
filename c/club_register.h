/* The club register's calls for the front end, which is written in C.
 *
 * Link with libwire.a: `rt lib`, in crates/wire_c, makes it as out/libwire_c.a, and c/test.sh copies it to libwire.a.
 */
#ifndef CLUB_REGISTER_H
#define CLUB_REGISTER_H

#include <stddef.h>
#include <stdint.h>

/* The number of a refused message: the bytes are no well-formed body. */
#define CLUB_REGISTER_MALFORMED 10

/* The name of a transaction.
 *
 * message, length: the bytes of a body, its two length bytes included. message is not null, also where length is 0.
 * name: where the 32 bytes of the name go. It is not null and does not overlap the message.
 *
 * Answers 0 and writes the name, which is SHA-256 of all bytes after the length; or answers
 * CLUB_REGISTER_MALFORMED where the bytes are not the one writing of a well-formed body, and writes no byte.
 */
uint8_t club_register_name(const uint8_t *message, size_t length, uint8_t name[32]);

#endif
