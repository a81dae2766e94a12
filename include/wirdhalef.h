/*
 * Receives and builds secured frames of IEEE Std 802.15.4-2011 over one lent
 * site. The functions are proved for every content and every length of what
 * they are lent, and ask nothing of their caller but what C asks of any
 * pointer: each pointer names as many octets as the length after it says
 * (with length 0 it is still no null pointer), a buffer that is written to
 * overlaps no other, and each length is at most PTRDIFF_MAX.
 *
 * Nothing is kept between calls, nothing is allocated, and a refusal changes
 * no octet that was lent.
 *
 * The file and the site: wirdhalef_load makes the site, a buffer of
 * WIRDHALEF_SITE_LEN octets with fixed places, from a site file. Receiving and
 * building are lent the site and raise counters in it.
 *
 * Over a restart, keep the site's octets: they hold the raised counters, and
 * they can be stored and lent again as they are, with no load. Loading the old
 * file again would take the counters back to the file's: frames that were
 * accepted already would be accepted again, and frames would be built under
 * counters that were used already.
 *
 * Link with libexport.a (x86-64 Linux).
 */
#ifndef WIRDHALEF_H
#define WIRDHALEF_H

#include <stddef.h>
#include <stdint.h>

#ifdef __cplusplus
extern "C" {
#endif

/* The statuses. Loading answers 0, 1, 2, receiving 0 to 15, building 0, 1, 2, 8, 11, 14, 16, 17. */
enum {
    WIRDHALEF_SUCCESS = 0,
    WIRDHALEF_SITE = 1,                        /* the site (loading: the file) breaks a site rule */
    WIRDHALEF_ROOM = 2,                        /* the output is shorter than 127 octets (or the answer than 48);
                                                  loading: the site has not its length */
    WIRDHALEF_LENGTH = 3,                      /* the frame has under 5 or over 127 octets */
    WIRDHALEF_FCS = 4,                         /* the last two octets are not the FCS of the others */
    WIRDHALEF_MALFORMED = 5,                   /* the frame cannot be divided */
    WIRDHALEF_FILTERED = 6,                    /* a filter rule drops it */
    WIRDHALEF_UNSUPPORTED_LEGACY = 7,          /* security on, version 0 */
    WIRDHALEF_UNSUPPORTED_SECURITY = 8,        /* security on with level 0, or disabled in the settings */
    WIRDHALEF_UNAVAILABLE_SECURITY_LEVEL = 9,  /* no level record matches */
    WIRDHALEF_IMPROPER_SECURITY_LEVEL = 10,    /* the level policy fails */
    WIRDHALEF_UNAVAILABLE_KEY = 11,            /* no lookup record matches */
    WIRDHALEF_IMPROPER_KEY_TYPE = 12,          /* no usage record of the key matches */
    WIRDHALEF_UNAVAILABLE_DEVICE = 13,         /* no device matches */
    WIRDHALEF_COUNTER_ERROR = 14,              /* the counter is spent, or below the device's */
    WIRDHALEF_SECURITY_ERROR = 15,             /* the tag is wrong */
    WIRDHALEF_FRAME_TOO_LONG = 16,             /* the built frame would pass 127 octets */
    WIRDHALEF_INVALID_PARAMETER = 17           /* the build request breaks a rule */
};

/* The shortest output buffer, the octets of an answer and of a request. */
enum {
    WIRDHALEF_OUT_LEN = 127,
    WIRDHALEF_ANSWER_LEN = 48,
    WIRDHALEF_REQUEST_LEN = 28
};

/*
 * Where the fields of an answer stand. Numbers are least octet first; an
 * address is mode 1, PAN 2, address 8. All are 0 beside a refusal's status,
 * and where the frame lacks the field.
 */
enum {
    WIRDHALEF_ANSWER_STATUS = 0,
    WIRDHALEF_ANSWER_KIND = 1,         /* 0 beacon, 1 data, 2 acknowledgment, 3 command */
    WIRDHALEF_ANSWER_SECURITY = 2,
    WIRDHALEF_ANSWER_PENDING = 3,
    WIRDHALEF_ANSWER_REQUEST = 4,      /* acknowledge request */
    WIRDHALEF_ANSWER_COMPRESSION = 5,
    WIRDHALEF_ANSWER_VERSION = 6,
    WIRDHALEF_ANSWER_SEQUENCE = 7,
    WIRDHALEF_ANSWER_DESTINATION = 8,  /* 11 octets */
    WIRDHALEF_ANSWER_SOURCE = 19,      /* 11 octets */
    WIRDHALEF_ANSWER_LEVEL = 30,
    WIRDHALEF_ANSWER_KEY_MODE = 31,    /* 0 at level 0 */
    WIRDHALEF_ANSWER_DEVICE = 32,      /* 2 octets; from 1, 0 at level 0 */
    WIRDHALEF_ANSWER_PRIVATE = 34,     /* 2 octets; the private payload's length */
    WIRDHALEF_ANSWER_START = 36,       /* 2 octets; where the open payload starts in the frame */
    WIRDHALEF_ANSWER_LEN_OPEN = 38     /* 2 octets; its length. Octets 40 to 47 are 0 */
};

/*
 * Where the fields of a request stand. Fields that the modes do not use are
 * ignored; the source's PAN and address come from the site's settings.
 */
enum {
    WIRDHALEF_REQUEST_KIND = 0,
    WIRDHALEF_REQUEST_VERSION = 1,
    WIRDHALEF_REQUEST_PENDING = 2,      /* any octet but 0 sets it */
    WIRDHALEF_REQUEST_REQUEST = 3,      /* acknowledge request; any octet but 0 sets it */
    WIRDHALEF_REQUEST_SEQUENCE = 4,
    WIRDHALEF_REQUEST_DESTINATION = 5,  /* mode 1, PAN 2, address 8 */
    WIRDHALEF_REQUEST_SOURCE_MODE = 16,
    WIRDHALEF_REQUEST_LEVEL = 17,
    WIRDHALEF_REQUEST_KEY_MODE = 18,
    WIRDHALEF_REQUEST_KEY_SOURCE = 19,  /* 8 octets; mode 2 uses the first 4 */
    WIRDHALEF_REQUEST_KEY_INDEX = 27
};

/* The octets of a site, and of the largest file. */
enum {
    WIRDHALEF_SITE_LEN = 3603,
    WIRDHALEF_FILE_MOST = 3613
};

/*
 * Where the parts of a site stand. Numbers are least octet first. The header
 * counts the records of each kind, 2 octets a count; then each kind has a
 * region with room for as many records as there may be, which stand at its
 * front. A record is as in the file. Free are octets 14 to 31 and, in each
 * region, those past its records: any content will do there, no function
 * reads them, and none but wirdhalef_load changes them.
 */
enum {
    WIRDHALEF_SITE_SETTINGS_COUNT = 0, /* always 1 */
    WIRDHALEF_SITE_DEVICES_COUNT = 2,
    WIRDHALEF_SITE_LEVELS_COUNT = 4,
    WIRDHALEF_SITE_KEYS_COUNT = 6,
    WIRDHALEF_SITE_LOOKUPS_COUNT = 8,
    WIRDHALEF_SITE_USAGES_COUNT = 10,
    WIRDHALEF_SITE_HANDLES_COUNT = 12,
    WIRDHALEF_SITE_SETTINGS = 32,      /* 1 record of 35 octets; the own counter is its octets 31 to 34 */
    WIRDHALEF_SITE_DEVICES = 67,       /* up to 64 of 17; a device's counter is its octets 12 to 15 */
    WIRDHALEF_SITE_LEVELS = 1155,      /* up to 16 of 5 */
    WIRDHALEF_SITE_KEYS = 1235,        /* up to 16 of 16 */
    WIRDHALEF_SITE_LOOKUPS = 1491,     /* up to 64 of 22 */
    WIRDHALEF_SITE_USAGES = 2899,      /* up to 64 of 3 */
    WIRDHALEF_SITE_HANDLES = 3091      /* up to 256 of 2 */
};

/*
 * Makes the site of a file and gives the status: 1 where the file breaks a
 * rule, else 2 where the site has not exactly 3603 octets, else 0. On success
 * all octets of the site are written, those that are free with 0. A refusal
 * changes nothing.
 */
uint8_t wirdhalef_load(const uint8_t *file, size_t file_len,
                       uint8_t *site, size_t site_len);

/* 1 if the site keeps its rules, else 0. Nothing changes. */
uint8_t wirdhalef_site_holds(const uint8_t *site, size_t site_len);

/*
 * Receives a frame with its FCS and gives the status. The whole answer stands
 * in the first 48 octets of `answer`. On success the plain private payload
 * stands in `out` from octet 0, later octets keep their content, and a secured
 * frame raises its device's counter in `site`. A refusal changes neither
 * `site` nor `out`. With an answer of less than 48 octets the status is 2 and
 * nothing at all changes.
 */
uint8_t wirdhalef_receive(uint8_t *site, size_t site_len,
                          const uint8_t *frame, size_t frame_len,
                          uint8_t *out, size_t out_len,
                          uint8_t *answer, size_t answer_len);

/*
 * Receives frames, each a length octet and its octets, one after the other up
 * to the first that is cut, and gives how many were accepted. `site` and `out`
 * are then as after as many calls of wirdhalef_receive. The site's rules are
 * checked once: where they are broken the number is 0 and nothing changes.
 */
uint64_t wirdhalef_receive_many(uint8_t *site, size_t site_len,
                                const uint8_t *frames, size_t frames_len,
                                uint8_t *out, size_t out_len);

/*
 * Where the open payload of a frame with its FCS stands: 65536 times its start
 * and its length; 0 where the frame cannot be divided. Nothing changes, and
 * neither site nor FCS is looked at.
 */
uint32_t wirdhalef_open_payload(const uint8_t *frame, size_t frame_len);

/*
 * Builds a frame and gives the status and 256 times the frame's length. On
 * success the frame with its FCS stands in `out` from octet 0, later octets
 * keep their content, and a secured frame raises the own counter in `site`. A
 * refusal has length 0 and changes nothing. Octets that a request of less than
 * 28 lacks count as 0.
 */
uint32_t wirdhalef_build(uint8_t *site, size_t site_len,
                         const uint8_t *request, size_t request_len,
                         const uint8_t *opens, size_t opens_len,
                         const uint8_t *private_payload, size_t private_len,
                         uint8_t *out, size_t out_len);

#ifdef __cplusplus
}
#endif

#endif
