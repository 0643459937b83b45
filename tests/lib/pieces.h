/* A session read in pieces by the second implementation, from the state that the call before left, as document 01 lets a program
 * with small buffers do: after number 2 with more input, after 9 with an emptied output and, inside a TK, a TK of the ticks that
 * remain. The reading and the log are those of one call on the whole. */
#ifndef PIECES_H
#define PIECES_H

#include "../second/second.h"

second_reading second_in_pieces(second_model *model, const uint8_t *session, size_t session_len, uint8_t *log, size_t log_len);

#endif
