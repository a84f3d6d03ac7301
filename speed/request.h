// A request for status pages in plain C: whether it is refused, by the device and by the reader alike, and its fields.
#ifndef REQUEST_H
#define REQUEST_H
#include "../c/recorder.h"

// Filter 10b or 11b, a report type above 1, no pages, or a reserved bit (request 2026-05): FEATURE 13:12 and 7:0, LBA 47:32.
static inline int is_refused(struct recorder_request r)
{
    return r.feature >> 14 > 1 || (r.feature >> 8 & 15) > 1 || r.count == 0 || (r.feature & 0x30FF) || (r.lba & 0xFFFF00000000);
}

// The same filter, report type and start as a SCSI host has them.
static inline struct recorder_query query_of(struct recorder_request r)
{
    return (struct recorder_query){r.feature >> 14, r.feature >> 8 & 15, r.lba};
}

// Filter or report type due 4 (request 2026-03).
static inline int is_refused_query(struct recorder_query q)
{
    return q.filter > 1 || q.report > 1;
}

#endif
