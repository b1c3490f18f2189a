/*
 * What the link layer of an IEEE 1394 node does with a signal that it receives: the reception chart
 * of the rehearsal bench as a constant, 25 modes by 14 classes of signals. The bench's
 * docs/TABLE.md tells how to use it, and what it leaves to the program around it.
 *
 * Made by firmware/make from the printed table; not to be edited by hand.
 */
#ifndef CHART_H
#define CHART_H

#include <stdint.h>

#define CHART_MODES   25
#define CHART_CLASSES 14
#define CHART_REPORTS 7

/* The modes of a node, by place. */
enum chart_mode {
    CHART_REST           =  0, /* waits for a Start */
    CHART_AWAIT_ACK      =  1, /* its packet is out: the Start of an acknowledgement is next */
    CHART_ACK_BODY       =  2, /* the Ack is next */
    CHART_ACK_END_GOOD   =  3, /* AckEnd, a good Ack is remembered: End or Prefix is next */
    CHART_ACK_END_NONE   =  4, /* AckEnd, no good Ack is remembered */
    CHART_OPENED         =  5, /* a packet begins: its Dhead is next */
    CHART_ADDRESSED      =  6, /* its Dest is next */
    CHART_HEAD_OWN       =  7, /* a packet to this node: its Header is next */
    CHART_HEAD_ALL       =  8, /* a packet to all nodes: its Header is next */
    CHART_BODY_OWN       =  9, /* to this node, its header is remembered: Data is next */
    CHART_BODY_ALL       = 10, /* to all nodes, its header is remembered: Data is next */
    CHART_TAIL_OWN_GOOD  = 11, /* TailOwn, header and good data are remembered: End or Prefix is next */
    CHART_TAIL_OWN_BAD   = 12, /* TailOwn, the header is remembered, the data were bad */
    CHART_TAIL_ALL_GOOD  = 13, /* TailAll, header and good data are remembered: End or Prefix is next */
    CHART_TAIL_ALL_BAD   = 14, /* TailAll, the header is remembered, the data were bad */
    CHART_WAIT           = 15, /* waits for the Gap */
    CHART_OWED           = 16, /* dropped a packet to this node: a grant is to come */
    CHART_SENDING        = 17, /* puts out a packet */
    CHART_TOLD           = 18, /* its user was told of a packet to this node: a grant is to come */
    CHART_ANSWERING      = 19, /* was granted the bus: its user is to respond */
    CHART_ACKING         = 20, /* puts out an acknowledgement */
    CHART_HOLDING        = 21, /* keeps the bus after its acknowledgement: its user is to reply */
    CHART_SPURIOUS       = 22, /* was granted the bus for a packet that it dropped */
    CHART_LISTENING      = 23, /* was acknowledged by a node that keeps the bus: a reply is to come */
    CHART_ASKED          = 24  /* has asked for the bus, and was not answered yet */
};

/* The classes of signals, as the receiver sees them. */
enum chart_class {
    CHART_ON_START       =  0,
    CHART_ON_END         =  1,
    CHART_ON_PREFIX      =  2,
    CHART_ON_GAP         =  3,
    CHART_ON_DHEAD       =  4,
    CHART_ON_DEST_OWN    =  5, /* Dest, this node's own number */
    CHART_ON_DEST_ALL    =  6, /* Dest 63, all nodes */
    CHART_ON_DEST_OTHER  =  7, /* Dest, another node's number */
    CHART_ON_HEADER_GOOD =  8, /* Header, its check is good */
    CHART_ON_HEADER_BAD  =  9, /* Header, its check is bad */
    CHART_ON_DATA_GOOD   = 10,
    CHART_ON_DATA_BAD    = 11,
    CHART_ON_ACK_GOOD    = 12,
    CHART_ON_ACK_BAD     = 13
};

/* What the receiver's user is told. */
enum chart_report {
    CHART_NONE           =  0, /* no report */
    CHART_MISS           =  1, /* miss: no acknowledgement of its packet came */
    CHART_ACK            =  2, /* ack a: its packet was acknowledged with a */
    CHART_GOOD           =  3, /* good h d: a packet to this node, header h, data d */
    CHART_DCRC           =  4, /* dcrc h: a packet to this node, header h, its data were bad */
    CHART_BROAD          =  5, /* broad h d: a packet to all nodes, header h, data d */
    CHART_DROP           =  6  /* drop: it gave up the packet that it was reading; the mode it left says where */
};

/* What a node in one mode does with a signal of one class. */
struct chart_cell {
    uint8_t next;   /* the mode after it: an enum chart_mode */
    uint8_t report; /* an enum chart_report */
    uint8_t pends;  /* 1 if the node is marked pending, else 0 */
};

extern const struct chart_cell chart[CHART_MODES][CHART_CLASSES];

#endif
