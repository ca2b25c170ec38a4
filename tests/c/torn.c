/* What docs/FIRMWARE.md says of a flush that the power ends. A flush brings an image over in steps, each from the last block to the
 * first, those of a keep in either order; here every block of every step is one to stop at. After the restart no address reads as what
 * another one held, the drive's parameters are the former ones, the new ones or none, and the command can be given again, which leaves
 * what it would have left. An assignment with keep promises something else: every address outside its alternate reads as before the
 * command. Two media are tried: one whose blocks come over whole or not at all, and one where of the block under way each byte is
 * either old or new. With them, what happens where the page is not followed. No theorem is about a flush; crates/model/specs/Power.antt
 * is about the writes of a keep. */
#include "lanthewg.h"

#include <stdio.h>
#include <string.h>

enum { LONGEST = 16 + 6 * 8840, LABEL = LANTHEWG_LABEL_SIZE, ID = 8, MARK = 10, BLOCK = 512, SECTORS = 32 };
enum { FORMAT_DRIVE = LANTHEWG_OPCODE_FORMAT_DRIVE, FORMAT_TRACK = LANTHEWG_OPCODE_FORMAT_TRACK };
enum { BAD_TRACK = LANTHEWG_OPCODE_FORMAT_BAD_TRACK, ASSIGN = LANTHEWG_OPCODE_ASSIGN_ALTERNATE, KEEP = LANTHEWG_CONTROL_KEEP };
enum { SECTOR = 4, FLAG = 5, PARTNER = 6, SOUND = 0, MOVED = 2, TAKEN = 3, UNKNOWN = 9 };

/* A disk: its drive, cylinders, heads and the byte for its sector size, with what follows from that byte. */
typedef struct { uint8_t drive, cylinders, heads, size; } shape;
static int sectors(shape s) { return s.size == 0 ? 16 : s.size == 1 ? SECTORS : 17; }
static int data(shape s) { return 128 << s.size; }
static int track(shape s) { return sectors(s) * (ID + data(s)); }
static int addresses(shape s) { return s.cylinders * s.heads * sectors(s); }
static uint8_t fill(shape s) { return s.drive < 2 ? 0x6C : 0xE5; }

/* A command on a disk of a shape: which track it names, the alternate, the shape that it gives the disk. A pair may be there before.
 * With keep the alternate's flag before it. */
typedef struct { const char *name; shape was, is; uint8_t pair_from, pair_to, opcode, track, alternate, interleave, control, flag; } test;

/* What an address reads as: the answer, the sense after it and the data area. */
typedef struct { lanthewg_answer answer; uint8_t sense[LANTHEWG_SENSE_SIZE], area[512]; } reading;

static lanthewg_controller card;
static uint8_t disk[LONGEST], before[LONGEST], after[LONGEST], step[LONGEST], none[1], area[512], given[512];
static reading readings[6 * SECTORS];
static int failed;
static long stops, strays, unsent, stuck, others;

static lanthewg_answer controlled(shape s, uint8_t opcode, int address, uint8_t extra, uint8_t control) {
    const uint8_t block[LANTHEWG_BLOCK_SIZE] = {opcode, (uint8_t)(s.drive << 5), 0, (uint8_t)address, extra, control};
    uint8_t *hard = s.drive == 0 ? disk : none, *floppy = s.drive == 2 ? disk : none;
    return lanthewg_execute(&card, block, sizeof block, given, sizeof given, area, sizeof area,
                            hard, hard == disk ? LONGEST : 0, none, 0, floppy, floppy == disk ? LONGEST : 0, none, 0);
}

static lanthewg_answer command(shape s, uint8_t opcode, int address, uint8_t extra) { return controlled(s, opcode, address, extra, 0); }

static void restart(shape s) {
    lanthewg_fresh(&card, disk, s.drive == 0 ? LONGEST : 0, none, 0, disk, s.drive == 2 ? LONGEST : 0, none, 0);
}

static void config_of(shape s, uint8_t config[LANTHEWG_CONFIG_SIZE]) {
    const uint8_t bytes[LANTHEWG_CONFIG_SIZE] = {0, s.cylinders, s.heads, s.drive < 2 ? 0 : 1, s.size};
    memcpy(config, bytes, sizeof bytes);
}

static bool configure(shape s) {
    config_of(s, given);
    return lanthewg_is_good(command(s, LANTHEWG_OPCODE_INITIALIZE, 0, 0));
}

/* The command; a Format Drive from track 0 with its parameters before it. */
static bool carry_out(const test *t) {
    const uint8_t to[LANTHEWG_ALTERNATE_SIZE] = {0, 0, (uint8_t)(t->alternate * sectors(t->is))};
    if (t->opcode == FORMAT_DRIVE && t->track == 0 && !configure(t->is)) return false;
    memcpy(given, to, sizeof to);
    return lanthewg_is_good(controlled(t->is, t->opcode, t->track * sectors(t->is), t->interleave, t->control));
}

static int front(shape s, int number) { return LABEL + number * track(s); }
static int tracks(shape s) { return s.cylinders * s.heads; }

/* The byte of an address's record: neither a fill nor a byte that an ID can have here, A1h or less than 32. */
static uint8_t record(int address) {
    int byte = address + 32;
    if (byte >= 0x6C) byte++;
    if (byte >= 0xA1) byte++;
    return (uint8_t)(byte >= 0xE5 ? byte + 1 : byte);
}

/* The ID of a track's slot 0 gets another flag, and a track number as its partner. */
static void flag(shape s, int number, uint8_t flag, uint8_t partner) {
    uint8_t *id = disk + front(s, number);
    id[FLAG] = flag;
    id[PARTNER] = 0;
    id[PARTNER + 1] = partner;
}

/* Before a keep, so that more can go wrong: slot 0 of its track does not hold sector 0, its alternate has the flag of the test, as an
 * earlier one that the power ended has left it; and the other tracks are sound, moved to the one or the other of the two, damaged. */
static void spoil(const test *t) {
    uint8_t *slot_0 = disk + front(t->was, t->track), *slot_1 = slot_0 + ID + data(t->was), sector = slot_0[SECTOR];
    slot_0[SECTOR] = slot_1[SECTOR];
    slot_1[SECTOR] = sector;
    flag(t->was, t->alternate, t->flag, t->flag == TAKEN ? t->track : t->flag == UNKNOWN ? t->alternate : 0);
    for (int i = 0, kind = t->alternate; i < tracks(t->was); i++) {
        if (i == t->track || i == t->alternate) continue;
        if (kind % 4 == 1) flag(t->was, i, MOVED, t->alternate);
        if (kind % 4 == 2) flag(t->was, i, MOVED, t->track);
        if (kind % 4 == 3) flag(t->was, i, UNKNOWN, t->alternate);
        kind++;
    }
}

static reading read_at(shape s, int address) {
    reading r;
    memset(area, 0, sizeof area);
    r.answer = command(s, LANTHEWG_OPCODE_READ, address, 1);
    memcpy(r.sense, card.drives[s.drive].sense, sizeof r.sense);
    memcpy(r.area, area, sizeof area);
    return r;
}

static bool same_answer(lanthewg_answer a, lanthewg_answer b) {
    return a.number == b.number && a.status == b.status && a.message == b.message && a.sectors == b.sectors && a.bytes == b.bytes;
}

/* The disk with a record at each address that takes one, in 'before'; and what the command makes of it, in 'after'. */
static void prepare(const test *t) {
    const test pair = {"", t->was, t->was, 0, 0, ASSIGN, t->pair_from, t->pair_to, 3, 0, 0};
    const test format = {"", t->was, t->was, 0, 0, FORMAT_DRIVE, 0, 0, 5, 0, 0};
    memset(disk, 0, sizeof disk);
    restart(t->was);
    bool made = carry_out(&format) && (t->pair_from == t->pair_to || carry_out(&pair));
    for (int address = 0; address < addresses(t->was); address++) {
        memset(given, record(address), sizeof given);
        command(t->was, LANTHEWG_OPCODE_WRITE, address, 1);
    }
    if (t->control == KEEP) spoil(t);
    for (int address = 0; address < addresses(t->was); address++) readings[address] = read_at(t->was, address);
    memcpy(before, disk, sizeof disk);
    if (!made || !carry_out(t)) { printf("torn: %s: not carried out\n", t->name); failed = 1; }
    memcpy(after, disk, sizeof disk);
    memcpy(disk, before, sizeof disk);
}

/* Bytes of other records that the addresses of a shape read as. Bytes of an ID, which a change of the sector size may show, are none. */
static void read_all(shape s) {
    for (int address = 0; address < addresses(s); address++) {
        if (!lanthewg_is_good(command(s, LANTHEWG_OPCODE_READ, address, 1))) continue;
        for (int i = 0; i < data(s); i++)
            strays += area[i] >= 32 && area[i] != 0xA1 && area[i] != fill(s) && area[i] != record(address);
    }
}

/* Addresses outside a keep's alternate that do not read as before it; and among them those that end well, with other data. */
static void compare_all(const test *t) {
    for (int address = 0; address < addresses(t->was); address++) {
        if (address / sectors(t->was) == t->alternate) continue;
        const reading *was = &readings[address], is = read_at(t->was, address);
        bool same_data = memcmp(was->area, is.area, sizeof is.area) == 0;
        others += !same_answer(was->answer, is.answer) || !same_data || memcmp(was->sense, is.sense, sizeof is.sense) != 0;
        strays += lanthewg_is_good(is.answer) && !same_data;
    }
}

/* The command is given again, with the same alternate, and leaves what it would have left. An assignment that was brought over, of a
 * keep so much of it that the track is moved, fails and changes nothing. */
static bool goes_on(const test *t) {
    static uint8_t kept[LONGEST];
    const lanthewg_drive *drive = &card.drives[t->is.drive];
    const uint8_t moved[LANTHEWG_SENSE_SIZE] = {LANTHEWG_SENSE_PAIRED + LANTHEWG_SENSE_ADDRESS, (uint8_t)(t->is.drive << 5), 0,
                                                (uint8_t)(t->track * sectors(t->is))};
    bool done = t->control == KEEP ? disk[front(t->is, t->track) + FLAG] == MOVED
                                   : t->opcode == ASSIGN && memcmp(disk, after, sizeof disk) == 0;
    memcpy(kept, disk, sizeof disk);
    bool good = carry_out(t);
    bool goes = done ? !good && memcmp(drive->sense, moved, sizeof moved) == 0 && memcmp(disk, kept, sizeof disk) == 0
                     : good && memcmp(disk, after, sizeof disk) == 0;
    memcpy(disk, kept, sizeof disk);
    return goes;
}

/* The power has gone: what a restart makes of the disk. */
static void look(const test *t) {
    uint8_t former[LANTHEWG_CONFIG_SIZE], new[LANTHEWG_CONFIG_SIZE];
    const lanthewg_drive *drive = &card.drives[t->was.drive];
    config_of(t->was, former);
    config_of(t->is, new);
    restart(t->was);
    stops++;
    bool is_former = drive->known && memcmp(drive->config, former, sizeof former) == 0;
    bool is_new = drive->known && memcmp(drive->config, new, sizeof new) == 0;
    unsent += drive->known && !is_former && !is_new;
    if (t->control == KEEP) compare_all(t);
    else if (is_former || is_new) read_all(is_former ? t->was : t->is);
    stuck += !goes_on(t);
}

/* Where to tear a block: at each byte of the label and of IDs, of the data at every 32nd. */
static bool worth(shape s, int at) { return at < LABEL + ID || (at - LABEL) % (ID + data(s)) <= ID || at % 32 == 0; }

/* The block under way: its front is new up to some byte and its end old, the other way round, and every other byte. */
static void tear(const test *t, int from, int to) {
    uint8_t old[4096];
    memcpy(old, disk + from, (size_t)(to - from));
    for (int cut = from; cut < to; cut++) {
        if (step[cut] == old[cut - from] || !(worth(t->was, cut) || worth(t->is, cut))) continue;
        for (int way = 0; way < 3; way++) {
            for (int at = from; at < to; at++)
                disk[at] = (way == 0 ? at <= cut : way == 1 ? at >= cut : (at ^ cut) & 1) ? step[at] : old[at - from];
            look(t);
        }
    }
    memcpy(disk + from, old, (size_t)(to - from));
}

/* Brings a step over, from its last block to its first or the other way. */
typedef enum { FROM_END, FROM_FRONT } way;
static void bring(const test *t, int block, way order, bool tears) {
    int blocks = (LONGEST + block - 1) / block;
    for (int i = 0; i < blocks; i++) {
        int from = (order == FROM_END ? blocks - 1 - i : i) * block, to = from + block < LONGEST ? from + block : LONGEST;
        if (memcmp(disk + from, step + from, (size_t)(to - from)) == 0) continue;
        if (tears) tear(t, from, to);
        memcpy(disk + from, step + from, (size_t)(to - from));
        look(t);
    }
}

static void take(int from, int to) { memcpy(step + from, after + from, (size_t)(to - from)); }
static void take_track(shape s, int number) { take(front(s, number), front(s, number + 1)); }

static bool formats(const test *t, int number) {
    return number == t->track || (t->opcode == FORMAT_DRIVE && number > t->track) || (t->opcode == ASSIGN && number == t->alternate);
}

static void begin(const test *t) {
    prepare(t);
    memcpy(step, before, sizeof step);
    stops = strays = unsent = stuck = others = 0;
}

static void expect(bool holds, const test *t, const char *how) {
    if (holds) return;
    printf("torn: %s, %s: %ld stops, %ld bytes of other records, %ld labels that nobody sent, %ld times stuck, %ld read otherwise\n",
           t->name, how, stops, strays, unsent, stuck, others);
    failed = 1;
}

static void expect_safe(const test *t, const char *how) {
    expect(stops > 1 && strays == 0 && unsent == 0 && stuck == 0 && others == 0, t, how);
    expect(memcmp(disk, after, sizeof disk) == 0, t, "not all was brought over");
}

/* Blocks that come over whole: of an assignment the alternate first; the tracks; the label. */
static void whole(const test *t, int block) {
    begin(t);
    if (t->opcode == ASSIGN) take_track(t->is, t->alternate);
    bring(t, block, FROM_END, false);
    take(LABEL, LONGEST);
    bring(t, block, FROM_END, false);
    take(0, LABEL);
    bring(t, block, FROM_END, false);
    expect_safe(t, "blocks whole");
}

/* Blocks that tear, and a Format Drive from track 0: the label made not valid; the tracks; the label but for that byte; this byte. */
static void marked_label(const test *t, way order) {
    begin(t);
    step[MARK] = 0xFF;
    bring(t, BLOCK, order, true);
    take(LABEL, LONGEST);
    bring(t, BLOCK, order, true);
    take(0, MARK);
    take(MARK + 1, LABEL);
    bring(t, BLOCK, order, true);
    take(0, LABEL);
    bring(t, BLOCK, order, true);
    expect_safe(t, "blocks torn");
}

/* Blocks that tear, and any other format: no A1h in slot 0 of the tracks; the rest of them; A1h again, the alternate's first. */
static void marked_tracks(const test *t, way order) {
    begin(t);
    for (int i = 0; i < tracks(t->is); i++) if (formats(t, i)) step[front(t->is, i)] = 0;
    bring(t, BLOCK, order, true);
    for (int i = 0; i < tracks(t->is); i++) if (formats(t, i)) take(front(t->is, i) + 1, front(t->is, i + 1));
    bring(t, BLOCK, order, true);
    if (t->opcode == ASSIGN) take_track(t->is, t->alternate);
    bring(t, BLOCK, order, true);
    take(0, LONGEST);
    bring(t, BLOCK, order, true);
    expect_safe(t, "blocks torn");
}

/* A keep, blocks that come over whole: the alternate; the block with the ID of the track's slot 0, or of it these 8 bytes alone; the
 * rest. */
static void whole_kept(const test *t, int block, way order, int slot_0) {
    int id = front(t->is, t->track);
    begin(t);
    take_track(t->is, t->alternate);
    bring(t, block, order, false);
    take(id, slot_0 == ID ? id + ID : (id / block + 1) * block);
    bring(t, block, order, false);
    take_track(t->is, t->track);
    bring(t, block, order, false);
    expect_safe(t, "blocks whole");
}

/* A keep, blocks that tear: no A1h in slot 0 of the alternate; the rest of it; A1h; then of the track's slot 0 the partner, which
 * nobody looks at while the flag is 0; the flag; and all other IDs. */
static void torn_kept(const test *t, way order) {
    int alternate = front(t->is, t->alternate), id = front(t->is, t->track);
    begin(t);
    step[alternate] = 0;
    bring(t, BLOCK, order, true);
    take(alternate + 1, front(t->is, t->alternate + 1));
    bring(t, BLOCK, order, true);
    take(alternate, alternate + 1);
    bring(t, BLOCK, order, true);
    take(id + PARTNER, id + ID);
    bring(t, BLOCK, order, true);
    take(id + FLAG, id + PARTNER);
    bring(t, BLOCK, order, true);
    take_track(t->is, t->track);
    bring(t, BLOCK, order, true);
    expect_safe(t, "blocks torn");
}

static void torn(const test *t, way order) {
    if (t->opcode == FORMAT_DRIVE && t->track == 0) marked_label(t, order);
    else marked_tracks(t, order);
}

#define HARD(c, h, s) {0, c, h, s}
#define FLOPPY(c, h) {2, c, h, 0}

static const test tests[] = {
    {"Format Drive", HARD(3, 1, 1), HARD(3, 1, 1), 0, 0, FORMAT_DRIVE, 0, 0, 1, 0, 0},
    {"Format Drive of 512 bytes a sector", HARD(3, 1, 2), HARD(3, 1, 2), 0, 0, FORMAT_DRIVE, 0, 0, 1, 0, 0},
    {"Format Drive of a floppy", FLOPPY(6, 1), FLOPPY(6, 1), 0, 0, FORMAT_DRIVE, 0, 0, 1, 0, 0},
    {"Format Drive, cylinders and heads exchanged", HARD(1, 6, 1), HARD(6, 1, 1), 0, 0, FORMAT_DRIVE, 0, 0, 1, 0, 0},
    {"Format Drive to larger sectors", HARD(6, 1, 1), HARD(5, 1, 2), 0, 0, FORMAT_DRIVE, 0, 0, 1, 0, 0},
    {"Format Drive to smaller sectors", HARD(6, 1, 2), HARD(6, 1, 1), 0, 0, FORMAT_DRIVE, 0, 0, 1, 0, 0},
    {"Format Drive from track 1, of a pair", HARD(3, 1, 1), HARD(3, 1, 1), 1, 2, FORMAT_DRIVE, 1, 0, 1, 0, 0},
    {"Format Drive from track 1, of a pair with the alternate in front", HARD(3, 1, 1), HARD(3, 1, 1), 2, 1, FORMAT_DRIVE, 1, 0, 1, 0, 0},
    {"Assign Alternate", HARD(3, 1, 1), HARD(3, 1, 1), 0, 0, ASSIGN, 1, 2, 3, 0, 0},
    {"Assign Alternate, the alternate in front", HARD(3, 1, 1), HARD(3, 1, 1), 0, 0, ASSIGN, 2, 1, 3, 0, 0},
    {"Assign Alternate of 512 bytes a sector", HARD(3, 1, 2), HARD(3, 1, 2), 0, 0, ASSIGN, 2, 1, 3, 0, 0},
    {"Format Track", HARD(3, 1, 1), HARD(3, 1, 1), 0, 0, FORMAT_TRACK, 1, 0, 7, 0, 0},
    {"Format Track of a floppy", FLOPPY(6, 1), FLOPPY(6, 1), 0, 0, FORMAT_TRACK, 1, 0, 7, 0, 0},
    {"Format Bad Track", HARD(3, 1, 1), HARD(3, 1, 1), 0, 0, BAD_TRACK, 1, 0, 7, 0, 0},
};

/* Sectors of both sizes, the alternate behind the track and in front, at the label and apart; sound, and taken by an earlier cut. */
static const test keeps[] = {
    {"keep", HARD(6, 1, 1), HARD(6, 1, 1), 0, 0, ASSIGN, 1, 2, 3, KEEP, SOUND},
    {"keep, the alternate in front", HARD(6, 1, 1), HARD(6, 1, 1), 0, 0, ASSIGN, 3, 2, 1, KEEP, SOUND},
    {"keep, the alternate taken", HARD(3, 2, 1), HARD(3, 2, 1), 0, 0, ASSIGN, 4, 1, 3, KEEP, TAKEN},
    {"keep, the alternate damaged", HARD(2, 2, 1), HARD(2, 2, 1), 0, 0, ASSIGN, 0, 1, 31, KEEP, UNKNOWN},
    {"keep of 512 bytes a sector", HARD(6, 1, 2), HARD(6, 1, 2), 0, 0, ASSIGN, 2, 1, 3, KEEP, SOUND},
    {"keep of 512 bytes a sector, the alternate behind and taken", HARD(2, 3, 2), HARD(2, 3, 2), 0, 0, ASSIGN, 3, 5, 2, KEEP, TAKEN},
};

/* Not as the page has it: each of these goes wrong, so that the tests above would see it. */
static void otherwise(const test *format, const test *exchanged, const test *pair, const test *behind, const test *in_front) {
    begin(exchanged);
    take(0, LONGEST);
    bring(exchanged, BLOCK, FROM_END, true);
    expect(strays > 0 && unsent > 0, exchanged, "torn and in one step: nothing went wrong");
    begin(format);
    take(0, LONGEST);
    bring(format, BLOCK, FROM_FRONT, false);
    expect(strays > 0, format, "from the front: nothing went wrong");
    begin(pair);
    take(0, LONGEST);
    bring(pair, BLOCK, FROM_END, true);
    expect(stuck > 0, pair, "torn and in one step: nothing went wrong");
    begin(in_front);
    take(0, LONGEST);
    bring(in_front, BLOCK, FROM_END, false);
    expect(stuck > 0, in_front, "the track before its alternate: nothing went wrong");
    begin(behind);
    take_track(behind->is, behind->track);
    bring(behind, BLOCK, FROM_END, false);
    expect(stuck > 0, behind, "the track before its alternate: nothing went wrong");
}

/* A keep, the alternate as it is to be, then these bytes of the track's slot 0, which tear. */
static void torn_slot_0(const test *t, int from, int end) {
    begin(t);
    take_track(t->is, t->alternate);
    bring(t, LONGEST, FROM_END, false);
    take(from, end);
    bring(t, BLOCK, FROM_END, true);
}

/* Not as the page has a keep. */
static void otherwise_kept(const test *t) {
    int alternate = front(t->is, t->alternate), middle = alternate + track(t->is) / 2, id = front(t->is, t->track);
    begin(t);
    take_track(t->is, t->track);
    bring(t, BLOCK, FROM_FRONT, false);
    expect(others > 0, t, "the track before its alternate: nothing went wrong");
    begin(t);
    take(alternate, middle);
    bring(t, BLOCK, FROM_FRONT, false);
    take(id, id + ID);
    bring(t, BLOCK, FROM_FRONT, false);
    expect(strays > 0, t, "the track's slot 0 in the middle: nothing went wrong");
    begin(t);
    take_track(t->is, t->alternate);
    bring(t, BLOCK, FROM_END, false);
    take_track(t->is, t->track);
    bring(t, BLOCK, FROM_END, false);
    expect(strays > 0, t, "in the order of other assignments: nothing went wrong");
    begin(t);
    step[alternate] = step[id] = 0;
    bring(t, BLOCK, FROM_END, true);
    expect(others > 0, t, "marked as other assignments are: nothing went wrong");
    begin(t);
    take_track(t->is, t->alternate);
    bring(t, BLOCK, FROM_END, true);
    expect(t->flag == TAKEN || stuck > 0, t, "the alternate torn and in one step: nothing went wrong");
    torn_slot_0(t, id, id + ID);
    expect(others > 0, t, "the track's slot 0 torn and in one step: nothing went wrong");
    torn_slot_0(t, id + SECTOR, id + FLAG);
    expect(strays > 0, t, "the sector of the track's slot 0 before its flag: nothing went wrong");
}

int main(void) {
    static const int blocks[] = {16, 512, 4096};
    long all = 0, kept = 0;
    for (size_t i = 0; i < sizeof tests / sizeof *tests; i++) {
        for (size_t b = 0; b < sizeof blocks / sizeof *blocks; b++) {
            whole(&tests[i], blocks[b]);
            all += stops;
        }
        for (way order = FROM_END; order <= FROM_FRONT; order++) {
            torn(&tests[i], order);
            all += stops;
        }
    }
    for (size_t i = 0; i < sizeof keeps / sizeof *keeps; i++) {
        for (way order = FROM_END; order <= FROM_FRONT; order++) {
            for (size_t b = 0; b < sizeof blocks / sizeof *blocks; b++) {
                whole_kept(&keeps[i], blocks[b], order, blocks[b]);
                kept += stops;
                whole_kept(&keeps[i], blocks[b], order, ID);
                kept += stops;
            }
            torn_kept(&keeps[i], order);
            kept += stops;
        }
        otherwise_kept(&keeps[i]);
    }
    otherwise(&tests[0], &tests[3], &tests[6], &tests[8], &tests[9]);
    if (failed) return 1;
    printf("torn: %ld flushes that stopped showed no other record, and the command could be given again;"
           " after %ld of a keep all read as before\n", all, kept);
    return 0;
}
