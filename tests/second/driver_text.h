/*
 * The part of the driver that calls the entries of a chain's text; driver.c takes it in, and its rules hold here too.
 *
 * A file's text, kind 20: four numbers (file length, memory length, by how much the buffer is shorter than its room, by how much it is longer), then the
 * file, then the memory. A file of a text, kind 21: three numbers (text length, memory length, buffer length), then the text, then the memory. The reply
 * to both: five numbers (number, place, length, whether the file or the text is unchanged, whether what lies around the memory is), then the memory.
 *
 * The memory is what the buffer begins with: it is no longer than the buffer. Any other byte of the buffer, and some before it, hold what no text has.
 */

/* The names that the header has for them. */
#define TEXT_ROOM EGORSTREAM_SHOWN_ROOM
#define SHOWN egorstream_written

/* The longest text fits, and the room is no more than was asked for. */
_Static_assert(TEXT_ROOM >= 183707 && TEXT_ROOM <= 429272, "text room");

#define FILL 0xa5
#define BEFORE ((size_t)24)

/* All buffers end where this does. Between calls it holds FILL everywhere, so that few bytes are written for a call. */
static uint8_t *all_buffers;
#define MOST_BUFFER ((size_t)TEXT_ROOM + PAGE)

/* A buffer that begins with the memory. */
static uint8_t *lend_buffer(const struct lent *lent, size_t length)
{
    if (all_buffers == NULL) {
        all_buffers = room(BEFORE + MOST_BUFFER);
        memset(all_buffers, FILL, BEFORE + MOST_BUFFER);
    }
    if (lent->memory_length > length || length > MOST_BUFFER) {
        fputs("driver: a buffer has another length than any that is asked for\n", stderr);
        exit(1);
    }
    uint8_t *buffer = all_buffers + BEFORE + MOST_BUFFER - length;
    memcpy(buffer, lent->memory, lent->memory_length);
    return buffer;
}

/* Takes the memory back from the buffer; says whether all else there is as it was. */
static bool take_back(struct lent *lent, uint8_t *buffer, size_t length)
{
    memcpy(lent->memory, buffer, lent->memory_length);
    memset(buffer, FILL, lent->memory_length);
    uint8_t *first = buffer - BEFORE;
    bool filled = first[0] == FILL && memcmp(first, first + 1, BEFORE + length - 1) == 0;
    if (!filled) {
        memset(all_buffers, FILL, BEFORE + MOST_BUFFER);
    }
    return filled;
}

static void show_text(void)
{
    uint32_t request[4];
    take(request, sizeof request);
    struct lent lent = lend(request[0], request[1]);
    size_t length = request[2] > TEXT_ROOM ? 0 : (size_t)TEXT_ROOM - request[2] + request[3];
    uint8_t *buffer = lend_buffer(&lent, length);
    struct SHOWN shown = egorstream_show(file_of(&lent), lent.file_length, length == 0 ? NULL : buffer, length);
    uint32_t reply[5] = {shown.number, shown.place, in_four_bytes(shown.length), unchanged(&lent), take_back(&lent, buffer, length)};
    tell_lent(reply, 5, &lent);
}

static void make_file(void)
{
    uint32_t request[3];
    take(request, sizeof request);
    struct lent lent = lend(request[0], request[1]);
    size_t length = request[2];
    uint8_t *buffer = lend_buffer(&lent, length);
    struct egorstream_written made = egorstream_make(file_of(&lent), lent.file_length, length == 0 ? NULL : buffer, length);
    uint32_t reply[5] = {made.number, made.place, in_four_bytes(made.length), unchanged(&lent), take_back(&lent, buffer, length)};
    tell_lent(reply, 5, &lent);
}
