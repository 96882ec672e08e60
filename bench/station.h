/* The proved board for C. Link out/libstation.a, which `rt lib` in crates/station writes, and the kit's c/liblibc_c.a.
 *
 * A whole list of requests is played on a new board, and each gets its answer. Numbers are as in docs/refusals.md. */
#ifndef STATION_H
#define STATION_H

#include <stddef.h>
#include <stdint.h>

enum station_kind { STATION_DRIVE = 0, STATION_SWITCH = 1 };

enum station_rule { STATION_NOW = 0, STATION_WARP = 1, STATION_HOME_NOW = 2, STATION_HOME_WARP = 3 };

enum station_op {
    STATION_ADMIT = 0,   /* seat, value: member 0, guest 1 */
    STATION_REVOKE = 1,  /* seat */
    STATION_BEGIN = 2,   /* seat, pass, value: reader 0, update 1 */
    STATION_READ = 3,    /* seat, pass, item */
    STATION_WRITE = 4,   /* seat, pass, item, value: the code */
    STATION_COMMIT = 5,  /* seat, pass */
    STATION_ABANDON = 6, /* seat, pass */
    STATION_SHOW = 7     /* item */
};

/* What a call has no use for is not looked at. An unknown op is answered by refusal 17, which names field 0;
 * an unknown class or mode by 17, which names field 4. */
struct station_request {
    uint32_t op;
    uint32_t seat;
    uint32_t pass;
    uint32_t item;
    uint32_t value;
};

struct station_answer {
    uint32_t refusal; /* 0 where the request was accepted */
    uint32_t first;
    uint32_t second;
};

enum station_status {
    STATION_PLAYED = 0,    /* every request has its answer */
    STATION_BAD_SETUP = 1, /* an unknown kind or rule, or a count out of range: no answer was written */
    STATION_UNEVEN = 2,    /* not as many answers as requests: no answer was written */
    STATION_NO_MEMORY = 3  /* no room for the versions: no answer was written */
};

uint32_t station_run(uint32_t kind, uint32_t rule, uint32_t items, uint32_t seats,
                     const struct station_request *requests, size_t request_count,
                     struct station_answer *answers, size_t answer_count);

/* Bytes of one version, and of a board without its versions; 0 for an unknown kind. */
size_t station_version_bytes(uint32_t kind);
size_t station_board_bytes(uint32_t kind);

#endif
