/* Mistakes in room files: room Q's file, read into columns and reported on. */
#include "mistakes.h"
#include "q.h"

#include <math.h>
#include <stdio.h>
#include <string.h>

enum { REPORT = 131072 };

/* The bytes of room Q's file: what they are, of whatever length. */
static uint8_t room[4096];
static size_t room_len;

struct file {
    struct bytes bytes;
    struct floats p, normals, albedo, area, direct, cluster_area;
    struct numbers first, count, member, starts, link_cluster;
    struct floats link_weight, probe_p, probe_normals;
    struct bytes text;
};

static struct file right_file(void)
{
    struct file c;
    c.bytes = bytes_of(room, room_len);
    c.p = blank_floats(3 * Q_SURFELS);
    c.normals = blank_floats(3 * Q_SURFELS);
    c.albedo = blank_floats(3 * Q_SURFELS);
    c.area = blank_floats(Q_SURFELS);
    c.direct = blank_floats(3 * Q_SURFELS);
    c.cluster_area = blank_floats(Q_CLUSTERS);
    c.first = blank_numbers(Q_CLUSTERS);
    c.count = blank_numbers(Q_CLUSTERS);
    c.member = blank_numbers(Q_MEMBERS);
    c.starts = blank_numbers(Q_SURFELS + 1);
    c.link_cluster = blank_numbers(Q_LINKS);
    c.link_weight = blank_floats(Q_LINKS);
    c.probe_p = blank_floats(3 * Q_PROBES);
    c.probe_normals = blank_floats(3 * Q_PROBES);
    c.text = blank_bytes(REPORT);
    return c;
}

static uint32_t room_read(const struct file *c)
{
    return interflect_room_read(
        LENT(c->bytes), LENT(c->p), LENT(c->normals), LENT(c->albedo), LENT(c->area), LENT(c->direct),
        LENT(c->cluster_area), LENT(c->first), LENT(c->count), LENT(c->member),
        LENT(c->starts), LENT(c->link_cluster), LENT(c->link_weight),
        LENT(c->probe_p), LENT(c->probe_normals),
        counts_out(6), blank_floats(8).at);
}

static uint32_t room_report(const struct file *c)
{
    return interflect_room_report(LENT(c->bytes), LENT(c->text), count_out());
}

/* Writes a number or a float as word number `word` of the file. */
static void put_word(struct file *c, size_t word, uint32_t x)
{
    size_t i;
    for (i = 0; i < 4; i++)
        c->bytes.at[4 * word + i] = (uint8_t)(x >> 8 * i);
}

static void put_float(struct file *c, size_t word, float x)
{
    uint32_t bits;
    memcpy(&bits, &x, sizeof bits);
    put_word(c, word, bits);
}

/* Words of the header, and of the blocks of room Q. */
enum { FORM = 0, COUNT_SURFELS = 1, LIMIT = 6, SPARE = 15, ALBEDO = 22, MEMBER = 32, HI_X = 40, CELL = 43 };

RIGHT(read_right, file, room_read)
CALL(read_form, file, room_read, put_word(&c, FORM, 2))
CALL(read_spare, file, room_read, put_word(&c, SPARE, 1))
CALL(read_surfels, file, room_read, put_word(&c, COUNT_SURFELS, UINT32_MAX))
CALL(read_cut, file, room_read, c.bytes = bytes_of(room, room_len - 1))
CALL(read_null, file, room_read, c.bytes = bytes_of(NULL, 0))
CALL(read_limit, file, room_read, put_word(&c, LIMIT, 4097))
CALL(read_cell, file, room_read, put_float(&c, CELL, 0.0f))
CALL(read_box, file, room_read, put_float(&c, HI_X, NAN))
CALL(read_starts, file, room_read, c.starts = blank_numbers(Q_SURFELS))
CALL(read_albedo, file, room_read, put_float(&c, ALBEDO, 1.5f))
CALL(read_member, file, room_read, put_word(&c, MEMBER, Q_SURFELS))
CALL(report_text, file, room_report, c.text = blank_bytes(REPORT - 1))

/* A file that is refused is reported: the call is done, and its number stands in the text. */
static uint32_t report_refused(void)
{
    static const char report[] = "refused 5\n";
    struct file c = right_file();
    size_t *length = count_out();
    uint32_t number;
    put_float(&c, ALBEDO, 1.5f);
    number = interflect_room_report(LENT(c.bytes), LENT(c.text), length);
    if (number == INTERFLECT_DONE && (*length != strlen(report) || memcmp(c.text.at, report, *length) != 0))
        mismatch("room_report of a room with an albedo of 1.5", "the text is not 'refused 5'");
    if (!patterned(c.text.at, *length, REPORT))
        mismatch("room_report of a room with an albedo of 1.5", "more than the report was written");
    return number;
}

static void load(const char *name)
{
    FILE *file = fopen(name, "rb");
    if (file == NULL)
        mismatch(name, "no such file");
    room_len = fread(room, 1, sizeof room, file);
    fclose(file);
    if (room_len == 0 || room_len == sizeof room)
        mismatch(name, "not the file of room Q");
}

void try_files(const char *name)
{
    static const struct mistake mistakes[] = {
        {"room_read", INTERFLECT_DONE, read_right},
        {"room_read of form 2", INTERFLECT_FILE_MALFORMED, read_form},
        {"room_read with a spare word", INTERFLECT_FILE_MALFORMED, read_spare},
        {"room_read of 4,294,967,295 surfels", INTERFLECT_FILE_MALFORMED, read_surfels},
        {"room_read of a file a byte short", INTERFLECT_FILE_MALFORMED, read_cut},
        {"room_read of null bytes", INTERFLECT_FILE_MALFORMED, read_null},
        {"room_read with a limit of 4,097", INTERFLECT_COUNT_TOO_LARGE, read_limit},
        {"room_read with a cell of 0", INTERFLECT_SIZE_OUT_OF_RANGE, read_cell},
        {"room_read with a box of NaN", INTERFLECT_SIZE_OUT_OF_RANGE, read_box},
        {"room_read with starts a number short", INTERFLECT_SLICE_TOO_SHORT, read_starts},
        {"room_read with an albedo of 1.5", INTERFLECT_FLOAT_OUT_OF_RANGE, read_albedo},
        {"room_read with a member past the surfels", INTERFLECT_NUMBERS_INCONSISTENT, read_member},
        {"room_report of a room that is refused", INTERFLECT_DONE, report_refused},
        {"room_report with text a byte short", INTERFLECT_SLICE_TOO_SHORT, report_text},
    };
    load(name);
    try_each(WHOLE(mistakes));
}
