/*
 * What a compiler warns of, a case at a time by -D. Without a case it compiles without a warning. library/test sees
 * that each case does not, and that every line with a call in UNUSED_ANSWERS is warned of. It is not run.
 */
#include "siljuvatt.h"

/* Bytes of some length, where a row is asked for: they may be too few. */
bool row_accepts(const uint8_t *bytes, const siljuvatt_row *row, uint16_t id);
bool row_accepts(const uint8_t *bytes, const siljuvatt_row *row, uint16_t id)
{
    (void)bytes;
#if defined(ROW_OF_BYTES)
    return siljuvatt_row_accepts(bytes, id);
#elif defined(ROW_WITH_LENGTH)
    return siljuvatt_row_accepts(row, 7, id);
#else
    return siljuvatt_row_accepts(row, id);
#endif
}

#ifdef UNUSED_ANSWERS
void ignore(uint8_t *bytes, size_t length, const siljuvatt_row *row, size_t *start);
void ignore(uint8_t *bytes, size_t length, const siljuvatt_row *row, size_t *start)
{
    siljuvatt_version();
    siljuvatt_piece_count(0, length);
    siljuvatt_write_piece(0, bytes, length, bytes, length, 0, bytes, length);
    siljuvatt_station_new(bytes, length, 0);
    siljuvatt_open(bytes, length, 0, bytes, length);
    siljuvatt_close(bytes, length, 0);
    siljuvatt_receive(bytes, length, bytes, length, 0, bytes, length);
    siljuvatt_read(bytes, length, bytes, length, 0, start);
    siljuvatt_filter_accepts(0, 0, 0);
    siljuvatt_row_accepts(row, 0);
    siljuvatt_master_new(bytes, length);
    siljuvatt_master_start(bytes, length, 0, 0);
    siljuvatt_master_reply(bytes, length, 0, 0, 0);
    siljuvatt_master_timeout(bytes, length);
    siljuvatt_watch_new(bytes, length, 0);
    siljuvatt_watch_heard(bytes, length, 0, 0);
    siljuvatt_watch_check(bytes, length, 0);
}
#endif
