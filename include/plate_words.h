/*
 * plate_words.h: the answers of plate.h in words, for a display or a log. C99 and C++.
 *
 * A header of its own, and not a part of libplate.a: the archive holds what is proved and nothing else, and a host that
 * shows no words carries none. There is nothing to build or to link.
 */
#ifndef PLATE_WORDS_H
#define PLATE_WORDS_H

#include "plate.h"

/* What an answer's number says. Every number has words, also one that no call gives. */
static inline const char *plate_words(uint32_t number)
{
    switch (number) {
    case PLATE_OK: return "success";
    case PLATE_CUT: return "a record is cut, of a wrong length, or stands after the end";
    case PLATE_KIND: return "a record's kind is unknown or out of order";
    case PLATE_BLOCK_SIZE: return "the block size is not 1 to 128";
    case PLATE_NODE: return "a node breaks a rule, or is one too many";
    case PLATE_WIRE: return "a wire leads from or to no node, has one node at both ends, or is one too many";
    case PLATE_SOURCES: return "no node 0, a bad input node, or a node with too few or too many sources";
    case PLATE_LENGTH: return "the bytes lent are not of the length needed";
    case PLATE_CELL: return "a value in the memory is not as it must be";
    case PLATE_BLOCKS: return "a block is not of the block size";
    case PLATE_INPUT: return "an input sample is infinite or NaN";
    case PLATE_TARGET: return "the node is missing or takes no number";
    case PLATE_VALUE: return "the value is outside its range";
    case PLATE_BLOCKS24: return "a packed block is not of the block size";
    case PLATE_ROOM: return "the bytes lent are too few for the change";
    case PLATE_NO_WIRE: return "there is no such wire to pull";
    default: return "a number that this version does not give";
    }
}

/* What a refusal's place counts; empty for success, whose place depends on the call. */
static inline const char *plate_place_words(uint32_t number)
{
    switch (number) {
    case PLATE_CUT:
    case PLATE_KIND:
    case PLATE_BLOCK_SIZE:
    case PLATE_NODE:
    case PLATE_WIRE: return "byte of the board";
    case PLATE_SOURCES:
    case PLATE_CELL:
    case PLATE_TARGET:
    case PLATE_VALUE:
    case PLATE_NO_WIRE: return "node";
    case PLATE_LENGTH:
    case PLATE_ROOM: return "bytes needed";
    case PLATE_BLOCKS:
    case PLATE_BLOCKS24: return "samples a block";
    case PLATE_INPUT: return "sample of the input block";
    default: return "";
    }
}

#endif
