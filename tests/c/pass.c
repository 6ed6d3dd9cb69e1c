/*
 * The replay as one plain pass in C, a yardstick for traces without ties: each line is read once, checked, and played
 * in the order written directly on the lent images, and its reply is put down at once. It holds no stamp together and
 * tries no order, so it can't say 6 or 7: tied records are played as they stand, which is right wherever every order
 * agrees. It undoes nothing: at a bad line it answers 3, 4 or 5, with the result that is due, and leaves images, times
 * and replies as far as they got. What is timed are readable traces.
 */
#include "replays.h"

#include <string.h>

#include "hazelcrook.h"

enum { FLASH_PAGE = 256, EEPROM_PAGE = 64, ADDRESSES = 0x20000, PLACES = 0x8000 };

/* Where the EEPROM's entries begin in the table of page times. */
enum { EEPROM_TIMES = HAZELCROOK_TIME * HAZELCROOK_FLASH_PAGES };

/* The flash's status. */
enum { WPEN = 0x80, BP1 = 0x08, BP0 = 0x04, WRITE_ENABLE = 0x02, WRITTEN = WPEN | BP1 | BP0 };

/* Op-codes, their don't-care bit 0. No instruction has 00: it is none, and no cycle. */
enum {
    NONE = 0x00,
    WRSR = 0x01,
    PROGRAM = 0x02,
    READ = 0x03,
    WRDI = 0x04,
    RDSR = 0x05,
    WREN = 0x06,
    RDID = 0x15,
    SECTOR_ERASE = 0x52,
    CHIP_ERASE = 0x62,
    DONT_CARE = 0x08
};

enum event { F_SEL, F_X, F_CUT, F_DES, F_END, E_STA, E_B, E_CUT, E_STO, E_END, L_ON, L_OFF, L_LOCK, L_FREE };

struct record {
    uint32_t stamp;
    enum event event;
    uint8_t first, second; /* SI and SO, or the byte and its acknowledge bit */
};

enum flash_frame { F_IDLE, F_VOID, F_SELECTED, F_OPEN };

/* The page is that of a PROGRAM's frame, then of its cycle: no other PROGRAM is taken up in between. */
struct flash {
    uint8_t *values, *masks, *times;
    uint32_t watched;
    uint8_t status;
    enum flash_frame frame;
    int lock_off; /* WPEN was 1 and no cycle ran at `sel`, and the lock was off since */
    uint8_t op_code;
    uint32_t sent, address;
    uint8_t byte;             /* WRSR's */
    uint8_t page[FLASH_PAGE]; /* ff, which programs nothing, where none was sent */
    uint8_t cycle;            /* the op-code that started it */
    uint32_t cycle_address;
};

enum eeprom_frame { E_IDLE, E_VOID, E_STARTED, E_WRITING, E_READING };

/* The page is that of a write frame, then of its cycle: a frame begun in a cycle writes nothing. */
struct eeprom {
    uint8_t *values, *masks, *times;
    uint8_t own; /* the address byte of a write */
    enum eeprom_frame frame;
    int sta_in_cycle;
    uint32_t sent, next;
    uint8_t page[EEPROM_PAGE];
    uint64_t places; /* a bit for each place of the page that was sent */
    int in_cycle;
    int has_counter;
    uint32_t counter;
};

struct board {
    struct flash flash;
    struct eeprom eeprom;
    int supply, lock;
};

/* What each bus has open, for refusal 5. */
struct buses {
    int selected, flash_cut, started, eeprom_cut;
};

/* What is left of the text. */
struct text {
    const uint8_t *at, *end;
};

/* Reading. A line is given back as 0, or as the number of its first bad field (request 2/12). */

/* The bad field where something else than the end of this one was due: where it does end here it is good, and the next
   is missing or too many, or the LF is missing. */
static uint32_t bad_behind(const struct text *text, uint32_t field)
{
    int ends = text->at == text->end || *text->at == '\t' || *text->at == '\n';

    return ends ? field + 1 : field;
}

static int take_byte(struct text *text, char byte)
{
    if (text->at == text->end || *text->at != (uint8_t)byte)
        return 0;
    text->at++;
    return 1;
}

static int take_word(struct text *text, const char *word)
{
    size_t len = strlen(word);

    if ((size_t)(text->end - text->at) < len || memcmp(text->at, word, len) != 0)
        return 0;
    text->at += len;
    return 1;
}

static int hex_digit(uint8_t byte)
{
    if (byte >= '0' && byte <= '9')
        return byte - '0';
    if (byte >= 'a' && byte <= 'f')
        return byte - 'a' + 10;
    return -1;
}

static int take_hex(struct text *text, uint8_t *value)
{
    int high, low;

    if (text->end - text->at < 2)
        return 0;
    high = hex_digit(text->at[0]);
    low = hex_digit(text->at[1]);
    if (high < 0 || low < 0)
        return 0;
    *value = (uint8_t)(high << 4 | low);
    text->at += 2;
    return 1;
}

static int take_digit(struct text *text, uint8_t least, uint8_t most, uint8_t *value)
{
    if (text->at == text->end || *text->at < '0' + least || *text->at > '0' + most)
        return 0;
    *value = (uint8_t)(*text->at++ - '0');
    return 1;
}

static int take_stamp(struct text *text, uint32_t *stamp)
{
    const uint8_t *first = text->at;
    uint64_t value = 0;

    while (text->at < text->end && *text->at >= '0' && *text->at <= '9' && value <= UINT32_MAX)
        value = value * 10 + (uint64_t)(*text->at++ - '0');
    if (text->at == first || (*first == '0' && text->at != first + 1) || value > UINT32_MAX)
        return 0;
    *stamp = (uint32_t)value;
    return 1;
}

/* The LF behind a line's last field. */
static uint32_t take_end(struct text *text, uint32_t last)
{
    return take_byte(text, '\n') ? 0 : bad_behind(text, last);
}

static uint32_t take_board(struct text *text, struct board *board)
{
    uint8_t watched, address;

    if (!take_word(text, "board"))
        return 1;
    if (!take_byte(text, '\t'))
        return bad_behind(text, 1);
    if (!take_hex(text, &board->flash.status) || (board->flash.status & ~WRITTEN) != 0)
        return 2;
    if (!take_byte(text, '\t'))
        return bad_behind(text, 2);
    if (!take_digit(text, 1, 4, &watched))
        return 3;
    if (!take_byte(text, '\t'))
        return bad_behind(text, 3);
    if (!take_digit(text, 0, 7, &address))
        return 4;
    board->flash.watched = watched;
    board->eeprom.own = (uint8_t)(0xa0 | address << 1);
    return take_end(text, 4);
}

static uint32_t take_flash_event(struct text *text, struct record *record)
{
    if (take_word(text, "x")) {
        record->event = F_X;
        if (!take_byte(text, '\t'))
            return bad_behind(text, 3);
        if (!take_hex(text, &record->first))
            return 4;
        if (!take_byte(text, '\t'))
            return bad_behind(text, 4);
        return take_hex(text, &record->second) ? take_end(text, 5) : 5;
    }
    if (take_word(text, "sel"))
        record->event = F_SEL;
    else if (take_word(text, "des"))
        record->event = F_DES;
    else if (take_word(text, "end"))
        record->event = F_END;
    else if (take_word(text, "cut"))
        record->event = F_CUT;
    else
        return 3;
    return take_end(text, 3);
}

static uint32_t take_eeprom_event(struct text *text, struct record *record)
{
    if (take_word(text, "b")) {
        record->event = E_B;
        if (!take_byte(text, '\t'))
            return bad_behind(text, 3);
        if (!take_hex(text, &record->first))
            return 4;
        if (!take_byte(text, '\t'))
            return bad_behind(text, 4);
        return take_digit(text, 0, 1, &record->second) ? take_end(text, 5) : 5;
    }
    if (take_word(text, "sta"))
        record->event = E_STA;
    else if (take_word(text, "sto"))
        record->event = E_STO;
    else if (take_word(text, "end"))
        record->event = E_END;
    else if (take_word(text, "cut"))
        record->event = E_CUT;
    else
        return 3;
    return take_end(text, 3);
}

static uint32_t take_line_event(struct text *text, struct record *record)
{
    if (take_word(text, "on"))
        record->event = L_ON;
    else if (take_word(text, "off"))
        record->event = L_OFF;
    else if (take_word(text, "lock"))
        record->event = L_LOCK;
    else if (take_word(text, "free"))
        record->event = L_FREE;
    else
        return 3;
    return take_end(text, 3);
}

static uint32_t take_record(struct text *text, struct record *record)
{
    if (!take_stamp(text, &record->stamp))
        return 1;
    if (!take_byte(text, '\t'))
        return bad_behind(text, 1);
    if (take_word(text, "F\t"))
        return take_flash_event(text, record);
    if (take_word(text, "E\t"))
        return take_eeprom_event(text, record);
    if (take_word(text, "L\t"))
        return take_line_event(text, record);
    return take_byte(text, 'F') || take_byte(text, 'E') || take_byte(text, 'L') ? bad_behind(text, 2) : 2;
}

/* Whether the record can be; what it leaves open is taken down. */
static int allowed(struct buses *buses, enum event event)
{
    struct buses before = *buses;

    switch (event) {
    case F_SEL: buses->selected = 1; return !before.selected;
    case F_X: return before.selected && !before.flash_cut;
    case F_CUT: buses->flash_cut = 1; return before.selected && !before.flash_cut;
    case F_DES: buses->selected = buses->flash_cut = 0; return before.selected;
    case E_STA: buses->started = 1; buses->eeprom_cut = 0; return 1;
    case E_B: return before.started && !before.eeprom_cut;
    case E_CUT: buses->eeprom_cut = 1; return before.started && !before.eeprom_cut;
    case E_STO: buses->started = buses->eeprom_cut = 0; return before.started;
    default: return 1;
    }
}

/* Replies: kind, value, mask, match. */

static void put(uint8_t *reply, uint8_t kind, uint8_t value, uint8_t mask, uint8_t match)
{
    reply[0] = kind;
    reply[1] = value;
    reply[2] = mask;
    reply[3] = match;
}

static uint8_t agreement(int agrees)
{
    return agrees ? 1 : 2;
}

static void put_kind(uint8_t *reply, uint8_t kind)
{
    put(reply, kind, 0, 0, 0);
}

static void put_byte(uint8_t *reply, uint8_t value, uint8_t mask, uint8_t recorded)
{
    uint8_t match = mask == 0xff ? 0 : agreement(((recorded ^ value) & ~mask) == 0);

    put(reply, HAZELCROOK_BYTE, value, mask, match);
}

/* The time of a page (request 1/12): of the cycle that ends or is cut on it. */
static void touch(uint8_t *times, uint32_t page, uint32_t stamp)
{
    uint8_t *entry = times + HAZELCROOK_TIME * page;
    int byte;

    entry[0] = HAZELCROOK_WRITTEN;
    for (byte = 0; byte < 4; byte++)
        entry[1 + byte] = (uint8_t)(stamp >> 8 * byte);
}

/* The flash. */

static uint32_t sector_of(uint32_t address)
{
    return address / HAZELCROOK_IMAGE + 1;
}

static int locks_out(const struct flash *flash, uint32_t sector)
{
    switch (flash->status & (BP1 | BP0)) {
    case 0: return 0;
    case BP0: return sector == 4;
    case BP1: return sector >= 3;
    default: return 1;
    }
}

static void select_flash(struct flash *flash, int supply, int lock)
{
    flash->frame = supply ? F_SELECTED : F_VOID;
    flash->lock_off = (flash->status & WPEN) != 0 && flash->cycle == NONE && !lock;
}

static void open_flash(struct flash *flash, uint8_t op_code)
{
    op_code &= (uint8_t)~DONT_CARE;
    switch (op_code) {
    case RDSR: break;
    case WRSR: case PROGRAM: case READ: case WRDI: case WREN: case RDID: case SECTOR_ERASE: case CHIP_ERASE:
        if (flash->cycle == NONE)
            break;
        /* fallthrough */
    default: flash->frame = F_VOID; return;
    }
    flash->frame = F_OPEN;
    flash->op_code = op_code;
    flash->sent = 1;
    flash->address = 0;
    if (op_code == PROGRAM)
        memset(flash->page, 0xff, sizeof flash->page);
}

static void read_flash(const struct flash *flash, uint8_t recorded, uint8_t *reply)
{
    uint32_t address = (flash->address + flash->sent - 5) % ADDRESSES;
    uint32_t place = address % HAZELCROOK_IMAGE;

    if (sector_of(address) == flash->watched)
        put_byte(reply, flash->values[place], flash->masks[place], recorded);
}

static void exchange(struct flash *flash, const struct record *record, uint8_t *reply)
{
    uint8_t si = record->first, so = record->second;

    if (flash->frame == F_SELECTED) {
        open_flash(flash, si);
        return;
    }
    if (flash->frame != F_OPEN)
        return;
    flash->sent++;
    switch (flash->op_code) {
    case RDSR: put_byte(reply, flash->cycle != NONE ? 0xff : flash->status, 0, so); break;
    case RDID:
        if (flash->sent <= 3)
            put_byte(reply, flash->sent == 2 ? 0x1f : 0x60, 0, so);
        break;
    case WRSR: flash->byte = si; break;
    case READ: case PROGRAM: case SECTOR_ERASE:
        if (flash->sent <= 4)
            flash->address = (flash->address << 8 | si) % ADDRESSES;
        else if (flash->op_code == PROGRAM)
            flash->page[(flash->address + flash->sent - 5) % FLASH_PAGE] = si;
        else if (flash->op_code == READ)
            read_flash(flash, so, reply);
        break;
    default: break;
    }
}

/* Whether the frame's instruction may start its cycle. */
static int may_start(const struct flash *flash)
{
    if ((flash->status & WRITE_ENABLE) == 0)
        return 0;
    switch (flash->op_code) {
    case WRSR: return flash->sent == 2 && ((flash->status & WPEN) == 0 || flash->lock_off);
    case CHIP_ERASE: return flash->sent == 1 && !locks_out(flash, 1);
    case SECTOR_ERASE: return flash->sent == 4 && !locks_out(flash, sector_of(flash->address));
    case PROGRAM: return flash->sent >= 5 && !locks_out(flash, sector_of(flash->address));
    default: return 0;
    }
}

static void deselect(struct flash *flash, uint8_t *reply)
{
    if (flash->frame == F_OPEN) {
        if (flash->op_code == WREN && flash->sent == 1)
            flash->status |= WRITE_ENABLE;
        else if (flash->op_code == WRDI && flash->sent == 1)
            flash->status &= (uint8_t)~WRITE_ENABLE;
        else if (may_start(flash)) {
            flash->cycle = flash->op_code;
            flash->cycle_address = flash->address;
            put_kind(reply, HAZELCROOK_STARTS);
        }
    }
    flash->frame = F_IDLE;
}

/* The page's data on the image: by a whole PROGRAM, or by one that was cut. */
static void program(struct flash *flash, int cut, uint32_t stamp)
{
    uint32_t number = flash->cycle_address % HAZELCROOK_IMAGE / FLASH_PAGE;
    uint8_t *values = flash->values + FLASH_PAGE * number;
    uint8_t *masks = flash->masks + FLASH_PAGE * number;
    int place;

    if (sector_of(flash->cycle_address) != flash->watched)
        return;
    for (place = 0; place < FLASH_PAGE; place++) {
        masks[place] = cut ? masks[place] | (values[place] & ~flash->page[place]) : masks[place] & flash->page[place];
        values[place] &= flash->page[place];
    }
    touch(flash->times, number, stamp);
}

static void erase(struct flash *flash, uint8_t value, uint8_t mask, uint32_t stamp)
{
    int reached = flash->cycle == CHIP_ERASE ? !locks_out(flash, flash->watched)
                                             : sector_of(flash->cycle_address) == flash->watched;
    uint32_t number;

    if (!reached)
        return;
    memset(flash->values, value, HAZELCROOK_IMAGE);
    memset(flash->masks, mask, HAZELCROOK_IMAGE);
    for (number = 0; number < HAZELCROOK_FLASH_PAGES; number++)
        touch(flash->times, number, stamp);
}

static void end_flash(struct flash *flash, uint32_t stamp, uint8_t *reply)
{
    switch (flash->cycle) {
    case NONE: put_kind(reply, HAZELCROOK_NO_CYCLE); return;
    case PROGRAM: program(flash, 0, stamp); break;
    case WRSR: flash->status = flash->byte & WRITTEN; break;
    default: erase(flash, 0xff, 0x00, stamp); break;
    }
    flash->cycle = NONE;
    flash->status &= (uint8_t)~WRITE_ENABLE;
    put_kind(reply, HAZELCROOK_ENDS);
}

/* The supply falls, no WRSR's cycle running. */
static void lose_flash(struct flash *flash, uint32_t stamp)
{
    if (flash->cycle == PROGRAM)
        program(flash, 1, stamp);
    else if (flash->cycle != NONE)
        erase(flash, 0x00, 0xff, stamp);
    flash->cycle = NONE;
    flash->status &= (uint8_t)~WRITE_ENABLE;
    if (flash->frame != F_IDLE)
        flash->frame = F_VOID;
}

/* The EEPROM. */

static void start_frame(struct eeprom *eeprom, int supply)
{
    eeprom->frame = supply ? E_STARTED : E_VOID;
    eeprom->sta_in_cycle = eeprom->in_cycle;
}

static void put_ack(uint8_t *reply, uint8_t kind, int agrees)
{
    put(reply, kind, 0, 0, agreement(agrees));
}

static void address_eeprom(struct eeprom *eeprom, const struct record *record, uint8_t *reply)
{
    eeprom->frame = E_VOID;
    if ((record->first & 0xfe) != eeprom->own)
        return;
    if (eeprom->sta_in_cycle) {
        put_ack(reply, HAZELCROOK_NO_ACK, record->second == 1);
        return;
    }
    put_ack(reply, HAZELCROOK_ACK, record->second == 0);
    eeprom->frame = record->first & 1 ? E_READING : E_WRITING;
    eeprom->sent = 0;
    if (eeprom->frame == E_WRITING)
        eeprom->places = 0;
}

static void write_byte(struct eeprom *eeprom, const struct record *record, uint8_t *reply)
{
    uint32_t place = eeprom->next % EEPROM_PAGE;

    put_ack(reply, HAZELCROOK_ACK, record->second == 0);
    eeprom->sent++;
    if (eeprom->sent == 1) {
        eeprom->next = record->first;
        return;
    }
    if (eeprom->sent == 2)
        eeprom->next = (eeprom->next << 8 | record->first) % PLACES;
    else {
        eeprom->page[place] = record->first;
        eeprom->places |= (uint64_t)1 << place;
        eeprom->next = eeprom->next - place + (place + 1) % EEPROM_PAGE;
    }
    eeprom->counter = eeprom->next;
    eeprom->has_counter = 1;
}

static void read_byte(struct eeprom *eeprom, const struct record *record, uint8_t *reply)
{
    if (eeprom->has_counter) {
        put_byte(reply, eeprom->values[eeprom->counter], eeprom->masks[eeprom->counter], record->first);
        eeprom->counter = (eeprom->counter + 1) % PLACES;
    }
    if (record->second == 1)
        eeprom->frame = E_VOID;
}

static void take_eeprom_byte(struct eeprom *eeprom, const struct record *record, uint8_t *reply)
{
    switch (eeprom->frame) {
    case E_STARTED: address_eeprom(eeprom, record, reply); break;
    case E_WRITING: write_byte(eeprom, record, reply); break;
    case E_READING: read_byte(eeprom, record, reply); break;
    default: break;
    }
}

static void stop_frame(struct eeprom *eeprom, int lock, uint8_t *reply)
{
    if (eeprom->frame == E_WRITING && eeprom->sent > 2 && !lock) {
        eeprom->in_cycle = 1;
        put_kind(reply, HAZELCROOK_STARTS);
    }
    eeprom->frame = E_IDLE;
}

static uint32_t cycle_page(const struct eeprom *eeprom)
{
    return eeprom->next / EEPROM_PAGE;
}

/* The bytes sent. */
static void store(struct eeprom *eeprom)
{
    uint32_t first = EEPROM_PAGE * cycle_page(eeprom);
    uint32_t place;

    for (place = 0; place < EEPROM_PAGE; place++)
        if (eeprom->places >> place & 1) {
            eeprom->values[first + place] = eeprom->page[place];
            eeprom->masks[first + place] = 0x00;
        }
}

/* A cut cycle leaves nothing sure in its page, sent or not (request 3/12). */
static void doubt_page(struct eeprom *eeprom)
{
    uint32_t first = EEPROM_PAGE * cycle_page(eeprom);

    memset(eeprom->values + first, 0x00, EEPROM_PAGE);
    memset(eeprom->masks + first, 0xff, EEPROM_PAGE);
}

static void end_eeprom(struct eeprom *eeprom, uint32_t stamp, uint8_t *reply)
{
    if (eeprom->in_cycle) {
        store(eeprom);
        touch(eeprom->times, cycle_page(eeprom), stamp);
        put_kind(reply, HAZELCROOK_ENDS);
    } else
        put_kind(reply, HAZELCROOK_NO_CYCLE);
    eeprom->in_cycle = 0;
}

static void lose_eeprom(struct eeprom *eeprom, uint32_t stamp)
{
    if (eeprom->in_cycle) {
        doubt_page(eeprom);
        touch(eeprom->times, cycle_page(eeprom), stamp);
    }
    eeprom->in_cycle = 0;
    eeprom->has_counter = 0;
    if (eeprom->frame != E_IDLE)
        eeprom->frame = E_VOID;
}

/* The lines; the supply's fall. */
static void lose_supply(struct board *board, uint32_t stamp)
{
    if (board->supply) {
        lose_flash(&board->flash, stamp);
        lose_eeprom(&board->eeprom, stamp);
        board->supply = 0;
    }
}

static void play(struct board *board, const struct record *record, uint8_t *reply)
{
    put_kind(reply, HAZELCROOK_SILENT);
    switch (record->event) {
    case F_SEL: select_flash(&board->flash, board->supply, board->lock); break;
    case F_X: exchange(&board->flash, record, reply); break;
    case F_CUT: board->flash.frame = F_VOID; break;
    case F_DES: deselect(&board->flash, reply); break;
    case F_END: end_flash(&board->flash, record->stamp, reply); break;
    case E_STA: start_frame(&board->eeprom, board->supply); break;
    case E_B: take_eeprom_byte(&board->eeprom, record, reply); break;
    case E_CUT: board->eeprom.frame = E_VOID; break;
    case E_STO: stop_frame(&board->eeprom, board->lock, reply); break;
    case E_END: end_eeprom(&board->eeprom, record->stamp, reply); break;
    case L_ON: board->supply = 1; break;
    case L_OFF: lose_supply(board, record->stamp); break;
    case L_LOCK: board->lock = 1; board->flash.lock_off = 0; break;
    case L_FREE: board->lock = 0; break;
    }
}

/* The call. */

static int any_bit_in_both(const uint8_t *values, const uint8_t *masks)
{
    uint8_t both = 0;
    size_t place;

    for (place = 0; place < HAZELCROOK_IMAGE; place++)
        both |= values[place] & masks[place];
    return both != 0;
}

static uint32_t put_result(uint8_t *result, uint32_t answer, uint32_t place, uint32_t count, uint32_t field)
{
    int byte;

    for (byte = 0; byte < 4; byte++) {
        result[byte] = (uint8_t)(answer >> 8 * byte);
        result[4 + byte] = (uint8_t)(place >> 8 * byte);
        result[8 + byte] = (uint8_t)(count >> 8 * byte);
        result[12 + byte] = (uint8_t)(field >> 8 * byte);
    }
    return answer;
}

/* All replies from `reply` on are 0. */
static void clear_rest(uint8_t *replies, uint8_t *reply)
{
    memset(reply, 0, (size_t)(replies + HAZELCROOK_REPLIES - reply));
}

/* All records of the text. */
static uint32_t pass(struct text *text, struct board *board, uint8_t *replies, uint8_t *result)
{
    struct buses buses = {0, 0, 0, 0};
    struct record record;
    uint32_t before = 0, count = 0, line = 2, field;
    uint8_t *reply = replies;

    for (; text->at < text->end; line++, reply += 4) {
        field = take_record(text, &record);
        if (field != 0)
            return put_result(result, HAZELCROOK_BAD_LINE, line, 0, field);
        if (record.stamp < before)
            return put_result(result, HAZELCROOK_BACK_IN_TIME, line, 0, 0);
        if (!allowed(&buses, record.event))
            return put_result(result, HAZELCROOK_IMPOSSIBLE, line, 0, 0);
        if (record.event == L_OFF && board->supply && board->flash.cycle == WRSR) {
            clear_rest(replies, reply);
            return put_result(result, HAZELCROOK_STATUS_LOST, record.stamp, count, 0);
        }
        before = record.stamp;
        play(board, &record, reply);
        count += reply[3] == 2;
    }
    clear_rest(replies, reply);
    return put_result(result, HAZELCROOK_SETTLED, 0, count, 0);
}

uint32_t pass_replay(const uint8_t *text, size_t text_len, uint8_t *flash, size_t flash_len, uint8_t *flash_mask,
                     size_t flash_mask_len, uint8_t *eeprom, size_t eeprom_len, uint8_t *eeprom_mask,
                     size_t eeprom_mask_len, uint8_t *times, size_t times_len, uint8_t *replies, size_t replies_len,
                     uint8_t *result, size_t result_len)
{
    struct text left = {text, text + text_len};
    struct board board;
    uint32_t field;

    if (result_len != HAZELCROOK_RESULT)
        return HAZELCROOK_BAD_BUFFERS;
    if (flash_len != HAZELCROOK_IMAGE || flash_mask_len != HAZELCROOK_IMAGE || eeprom_len != HAZELCROOK_IMAGE ||
        eeprom_mask_len != HAZELCROOK_IMAGE || times_len != HAZELCROOK_TIMES || replies_len != HAZELCROOK_REPLIES ||
        any_bit_in_both(flash, flash_mask) || any_bit_in_both(eeprom, eeprom_mask))
        return put_result(result, HAZELCROOK_BAD_BUFFERS, 0, 0, 0);
    if (text_len > HAZELCROOK_TEXT)
        return put_result(result, HAZELCROOK_TOO_LONG, 0, 0, 0);
    memset(&board, 0, sizeof board);
    board.flash.values = flash;
    board.flash.masks = flash_mask;
    board.flash.times = times;
    board.eeprom.values = eeprom;
    board.eeprom.masks = eeprom_mask;
    board.eeprom.times = times + EEPROM_TIMES;
    board.supply = 1;
    field = take_board(&left, &board);
    if (field != 0)
        return put_result(result, HAZELCROOK_BAD_LINE, 1, 0, field);
    memset(times, HAZELCROOK_NEVER, times_len);
    return pass(&left, &board, replies, result);
}
