/*
 * The inputs of the fuzzer over the cluster's messages: a byte, which says where the cluster is taken up,
 * and steps:
 *   byte 0       what is done, enum happening
 *   byte 1       to whom
 *   byte 2       who is said to have sent it
 *   byte 3       bit 0: an old message, else one on its way; bit 1: to another receiver than its own
 *   bytes 4-7    which one; milliseconds; a client's update
 *   bytes 8-9    how many bytes follow: a message, or changes of 8 bytes each
 */
#ifndef HAPPENINGS_H
#define HAPPENINGS_H

enum { HAPPENING_HEAD = 10, MOST_HAPPENINGS = 48 };

enum happening {
    DELIVER,
    DOUBLE,
    LOSE,
    CHANGED,
    RAW,
    TIME,
    TICK,
    CRASH,
    NEW_VIEW,
    UPDATE,
    HAPPENINGS
};

/* Changes of a message: one byte says which, one is not used, then a place (2 bytes) and a word. */
enum change {
    SET_WORD,
    ADD_WORD,
    FLIP_BIT,
    CUT_WORDS,    /* to so many */
    ADD_WORDS,    /* so many */
    RECEIVER_TAG, /* the tag becomes the receiver's */
    RIGHT_SUM,    /* of the update at this place, for this shard */
    CUT_BYTES,    /* so many, 1 to 3 */
    SET_KNOWN,    /* the word becomes one that the receiver goes by */
    SET_FROM,     /* another sender */
    CHANGES
};

#endif
