#include "pieces.h"

/* An input piece holds any record, an output piece the events of any tick; both are small, to end in many places. */
enum { INPUT_PIECE = 23, TK_SIZE = 4, EV_SIZE = 10, AN_SIZE = 8 };

typedef struct {
    second_model *model;
    uint8_t *log;
    size_t log_len;
    second_reading so_far; /* offset and written: of the whole; ticks: of the TK at the offset */
} piecewise;

static size_t smaller(size_t a, size_t b)
{
    return a < b ? a : b;
}

static size_t output_piece(const piecewise *p)
{
    return AN_SIZE + EV_SIZE * (size_t)p->model->declared;
}

/* One call with an emptied output piece. */
static second_reading read_piece(piecewise *p, const uint8_t *bytes, size_t count)
{
    size_t log_left = p->log_len - (size_t)p->so_far.written;
    second_reading r = second_read(p->model, bytes, count, p->log + p->so_far.written, smaller(log_left, output_piece(p)));
    p->so_far.written += r.written;
    p->so_far.number = r.number;
    return r;
}

/* A TK from its first tick, or from where the piece before was full. */
static void read_rest_of_tk(piecewise *p, const uint8_t *record)
{
    unsigned count = ((unsigned)record[2] << 8 | record[3]) - (unsigned)p->so_far.ticks;
    uint8_t rest[TK_SIZE] = {'T', 'K', (uint8_t)(count >> 8), (uint8_t)count};
    second_reading r = read_piece(p, rest, TK_SIZE);
    p->so_far.ticks += r.ticks;
    if (r.number != 0) return;
    p->so_far.ticks = 0;
    p->so_far.offset += TK_SIZE;
}

static void read_records(piecewise *p, const uint8_t *bytes, size_t count)
{
    second_reading r = read_piece(p, bytes, count);
    p->so_far.offset += r.offset;
    p->so_far.ticks = r.ticks;
}

second_reading second_in_pieces(second_model *model, const uint8_t *session, size_t session_len, uint8_t *log, size_t log_len)
{
    piecewise p = {.model = model, .log = log, .log_len = log_len};
    bool goes_on = true;
    while (goes_on) {
        bool whole_log = p.log_len - p.so_far.written <= output_piece(&p);
        second_reading before = p.so_far;
        const uint8_t *at = session + p.so_far.offset;
        size_t left = session_len - (size_t)p.so_far.offset, count = smaller(left, INPUT_PIECE);
        if (p.so_far.ticks > 0) read_rest_of_tk(&p, at);
        else read_records(&p, at, count);
        bool more_input = p.so_far.number == 0 || (p.so_far.number == 2 && count < left);
        /* A wrong model may be refused with an emptied output for ever. */
        bool stuck = p.so_far.offset == before.offset && p.so_far.ticks == before.ticks;
        bool more_output = p.so_far.number == 9 && !whole_log && !stuck;
        goes_on = more_output || (more_input && p.so_far.offset < session_len);
    }
    return p.so_far;
}
