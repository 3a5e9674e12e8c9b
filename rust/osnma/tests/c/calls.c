/*
 * The calls of include/osnma.h from C: a start, words, sub-frames, what waits and its verdicts, reads,
 * and each refusal that they can give, but for those of a sub-frame that take a tree of public keys.
 * After every call all regions are compared with what they must hold, but after those questions of
 * `test_any_four` that are answered yes. Stops with a message and a status other than 0 at the first
 * difference. Compiles as C99 and as C++.
 *
 * Annex A of the specification gives the sub-frames that bring a root, a section and its tags. Before
 * them, and where the answers of reads and questions are tried, the test writes what only sub-frames
 * bring into the core itself (`wait_for`, `tag_waits`, `hold_sets`, `agree_before`, `mark` and `unmark`,
 * `note`, `hold_blocks`, `config[62]`).
 */
#include <osnma.h>

#include <stdio.h>
#include <stdlib.h>
#include <string.h>

/* the core under test, and what it must hold */
static struct osnma_core core, want;
static unsigned long calls, checks;

static void fail(const char *what, int line)
{
    fprintf(stderr, "calls.c:%d: %s\n", line, what);
    exit(1);
}

static void check(int holds, const char *what, int line)
{
    checks++;
    if (!holds)
        fail(what, line);
}

#define CHECK(condition) check((condition) != 0, #condition " does not hold", __LINE__)

static void check_regions(int line)
{
#define SAME(region)                                                                               \
    check(memcmp(core.region, want.region, sizeof core.region) == 0, #region " differs", line)
    SAME(config);
    SAME(clocks);
    SAME(words);
    SAME(stamps);
    SAME(blocks);
    SAME(headers);
    SAME(present);
    SAME(since);
    SAME(pubkeys);
    SAME(offer);
    SAME(chain);
    SAME(numbers);
    SAME(heldkey);
    SAME(waiting);
    SAME(sets);
    SAME(arrivals);
#undef SAME
}

static void check_answer(enum osnma_answer answer, enum osnma_answer right, int line)
{
    calls++;
    checks++;
    if (answer != right) {
        fprintf(stderr, "calls.c:%d: answered %d, not %d\n", line, (int)answer, (int)right);
        exit(1);
    }
    check_regions(line);
}

/* The call answers this number and leaves `want` in the core. */
#define ANSWERS(call, number) check_answer(call, number, __LINE__)

/* Every byte of both is the same, the padding between regions too. */
static void fill(int byte)
{
    memset(&core, byte, sizeof core);
    memset(&want, byte, sizeof want);
}

/* ---- start */

static struct osnma_settings settings;

static void settle(void)
{
    static const uint8_t list[14] = {
        0, OSNMA_FLEXIBLE, OSNMA_FLEXIBLE, 0, 12, 0, 0, 11, 15, 1, 2, 3, 4, 5};
    unsigned i;
    settings.ns = 36;
    settings.key_id = 3;
    settings.key_type = 1;
    settings.maclt = 11;
    memcpy(settings.marks, list, 14);
    memcpy(settings.marks + 14, list, 14);
    settings.marks[20] = 10;
    for (i = 0; i < OSNMA_TREE_ROOT; i++)
        settings.tree_root[i] = (uint8_t)(0x40 + i);
    for (i = 0; i < OSNMA_KEY; i++)
        settings.key[i] = (uint8_t)(0x81 + i);
}

/* What an accepted start leaves. */
static void want_fresh(void)
{
    static const unsigned length[4] = {29, 33, 49, 67};
    memset(&want, 0, sizeof want);
    want.config[0] = settings.ns;
    want.config[1] = settings.maclt;
    memcpy(want.config + 2, settings.marks, 28);
    memcpy(want.config + 30, settings.tree_root, 32);
    want.pubkeys[68 * settings.key_id] = (uint8_t)(settings.key_type + 1);
    memcpy(want.pubkeys + 68 * settings.key_id + 1, settings.key, length[settings.key_type]);
}

static void start(void)
{
    settle();
    want_fresh();
    ANSWERS(osnma_start(&core, &settings), OSNMA_DONE);
}

static void test_start(void)
{
    uint8_t type, mark;
    settle();
    fill(0xA5);
#define REFUSED(field, value)                                                                      \
    settle();                                                                                      \
    settings.field = value;                                                                        \
    ANSWERS(osnma_start(&core, &settings), OSNMA_OUT_OF_RANGE)
    REFUSED(ns, 0);
    REFUSED(ns, 37);
    REFUSED(ns, 255);
    REFUSED(key_id, 16);
    REFUSED(key_type, 4);
    REFUSED(marks[0], 1);
    REFUSED(marks[14], OSNMA_FLEXIBLE);
    REFUSED(marks[27], 16);
    for (mark = 16; mark < OSNMA_FLEXIBLE; mark++) {
        REFUSED(marks[1 + mark % 13], mark);
    }
#undef REFUSED
    /* An accepted start leaves nothing of what was there, and reads no more of a key than its type
     * has. */
    for (type = 0; type < 4; type++) {
        settle();
        settings.key_type = type;
        settings.key_id = (uint8_t)(15 - 5 * type);
        settings.ns = (uint8_t)(type == 0 ? 1 : 36);
        fill(0xFF);
        want_fresh();
        ANSWERS(osnma_start(&core, &settings), OSNMA_DONE);
    }
    start();
}

/* ---- words */

static uint8_t word[OSNMA_WORD];

/* A word of a type, with this SVID where it is a word 4. */
static void make_word(unsigned type, unsigned svid, unsigned seed)
{
    unsigned i;
    for (i = 0; i < OSNMA_WORD; i++)
        word[i] = (uint8_t)(seed + 37 * i);
    word[0] = (uint8_t)(type << 2 | 1);
    if (type == 4)
        word[2] = (uint8_t)(svid << 2 | 2);
}

static void want_word(unsigned prn, uint32_t time)
{
    unsigned place = (prn - 1) * 5 + (word[0] >> 2) - 1;
    memcpy(want.words + 16 * place, word, 16);
    want.stamps[place] = time + 1;
    want.clocks[36 + prn] = time + 1;
}

static void test_words(void)
{
    const uint32_t t = osnma_gst(947, 432000);
    unsigned type, prn;
    for (type = 1; type <= 5; type++) {
        make_word(type, 18, type);
        want_word(18, t);
        ANSWERS(osnma_word(&core, 18, t, word), OSNMA_DONE);
    }
    for (prn = 1; prn <= OSNMA_SATELLITES; prn++) {
        make_word(4, prn, prn);
        want_word(prn, t);
        ANSWERS(osnma_word(&core, (uint8_t)prn, t, word), OSNMA_DONE);
    }
    /* Types that are not held change nothing, no clock either. */
    for (type = 0; type < 64; type = type == 0 ? 6 : type + 1) {
        make_word(type, 0, type);
        ANSWERS(osnma_word(&core, 18, osnma_gst(947, 432030), word), OSNMA_DONE);
    }
    make_word(1, 0, 9);
    ANSWERS(osnma_word(&core, 0, t, word), OSNMA_OUT_OF_RANGE);
    ANSWERS(osnma_word(&core, 37, t, word), OSNMA_OUT_OF_RANGE);
    ANSWERS(osnma_word(&core, 255, t, word), OSNMA_OUT_OF_RANGE);
    ANSWERS(osnma_word(&core, 18, t + 1, word), OSNMA_OUT_OF_RANGE);
    ANSWERS(osnma_word(&core, 18, osnma_gst(947, 604800), word), OSNMA_OUT_OF_RANGE);
    ANSWERS(osnma_word(&core, 18, OSNMA_NO_TIME, word), OSNMA_OUT_OF_RANGE);
    ANSWERS(osnma_word(&core, 18, t - 30, word), OSNMA_OUT_OF_ORDER);
    ANSWERS(osnma_word(&core, 18, osnma_gst(946, 604770), word), OSNMA_OUT_OF_ORDER);
    make_word(4, 18, 9);
    ANSWERS(osnma_word(&core, 17, t, word), OSNMA_OUT_OF_RANGE);
    /* The same time again, then the ends of week and of time. */
    make_word(2, 0, 77);
    want_word(18, t);
    ANSWERS(osnma_word(&core, 18, t, word), OSNMA_DONE);
    want_word(18, osnma_gst(947, 604770));
    ANSWERS(osnma_word(&core, 18, osnma_gst(947, 604770), word), OSNMA_DONE);
    want_word(18, osnma_gst(4095, 604770));
    ANSWERS(osnma_word(&core, 18, osnma_gst(4095, 604770), word), OSNMA_DONE);
    ANSWERS(osnma_word(&core, 18, t, word), OSNMA_OUT_OF_ORDER);
    /* A first word may come at time 0. */
    start();
    make_word(3, 0, 5);
    want_word(36, 0);
    ANSWERS(osnma_word(&core, 36, 0, word), OSNMA_DONE);
}

/* ---- what waits */

static uint8_t message[OSNMA_MESSAGE], signature[OSNMA_SIGNATURE];

/* A message of a chain with KS 128, MS 12 and NMACK 2, and a signature of 64 bytes: A.1.4 of the
 * specification, with these fields. */
static void make_message(unsigned status, unsigned cid, unsigned cidkr, unsigned week,
                         unsigned hour)
{
    static const uint8_t rest[22] = {0xF1, 0xCA, 0x38, 0x56, 0xA9, 0x75, 0xEE, 0x67,
                                     0x72, 0xD9, 0xAB, 0x83, 0x96, 0x86, 0x6D, 0xC5,
                                     0x7E, 0xAD, 0xA1, 0xD2, 0x96, 0x37};
    memset(message, 0, sizeof message);
    memset(signature, 0, sizeof signature);
    message[0] = (uint8_t)(status << 6 | cid << 4 | 2);
    message[1] = (uint8_t)(cidkr << 6 | 0x20);
    message[2] = 0x41;
    message[3] = 11;
    message[4] = (uint8_t)(week >> 8);
    message[5] = (uint8_t)week;
    message[6] = (uint8_t)hour;
    memcpy(message + 7, rest, sizeof rest);
    memset(signature, (int)(0x10 + hour), 64);
}

static void want_offer(unsigned key_id)
{
    want.offer[0] = 1;
    want.offer[1] = (uint8_t)key_id;
    memcpy(want.offer + 2, message, OSNMA_MESSAGE);
    memcpy(want.offer + 47, signature, OSNMA_SIGNATURE);
}

/* What only a sub-frame does: the message now waits. */
static void wait_for(unsigned key_id)
{
    want_offer(key_id);
    memcpy(core.offer, want.offer, sizeof core.offer);
}

/* The same for a tag that came at `time`: entry `place` of the waiting tags. */
static void tag_waits(unsigned place, unsigned adkd, uint32_t time)
{
    uint8_t *entry = core.waiting + 84 * place;
    memset(entry, (int)(0x60 + place), 84);
    entry[2] = (uint8_t)adkd;
    entry[5] = (uint8_t)(time >> 24);
    entry[6] = (uint8_t)(time >> 16);
    entry[7] = (uint8_t)(time >> 8);
    entry[8] = (uint8_t)time;
    memcpy(want.waiting, core.waiting, sizeof want.waiting);
}

/* What only tags do: every satellite has an authentic set and a candidate. */
static void hold_sets(void)
{
    unsigned i;
    for (i = 0; i < OSNMA_SETS_COUNT; i++)
        core.sets[i] = want.sets[i] = (uint8_t)(i * 7 + i / 69);
    for (i = 0; i < OSNMA_ARRIVALS_COUNT; i++)
        core.arrivals[i] = want.arrivals[i] = osnma_gst(947, 30 * (i + 1)) + 1;
}

/* The candidates' stamps and totals go, their bytes and the authentic sets stay. */
static void want_no_candidates(void)
{
    memset(want.arrivals + OSNMA_SATELLITES, 0, 2 * OSNMA_SATELLITES * sizeof want.arrivals[0]);
}

static void want_no_offer(void)
{
    memset(want.offer, 0, sizeof want.offer);
}

/* What a verdict leaves that puts the message's root in force. */
static void want_in_force(void)
{
    want_no_offer();
    want.chain[0] = 1;
    memcpy(want.chain + 1, message + 1, 44);
    memset(want.heldkey, 0, sizeof want.heldkey);
    memcpy(want.heldkey, message + 13, 16);
    want.numbers[0] = 0;
    want.numbers[1] = 0;
}

static enum osnma_answer verdict(unsigned good, unsigned key_id)
{
    return osnma_verdict(&core, (uint8_t)good, (uint8_t)key_id, message, signature);
}

static void test_read_message(void)
{
    struct osnma_message got, right;
    memset(&got, 0x5A, sizeof got);
    memset(&right, 0x5A, sizeof right);
    right.key_id = 0;
    right.key_type = 0;
    ANSWERS(osnma_read_message(&core, &got), OSNMA_NOT_WAITING);
    CHECK(memcmp(&got, &right, sizeof got) == 0);
    make_message(1, 0, 0, 947, 120);
    wait_for(3);
    ANSWERS(osnma_read_message(&core, &got), OSNMA_DONE);
    CHECK(memcmp(got.message, message, sizeof message) == 0);
    CHECK(memcmp(got.signature, signature, sizeof signature) == 0);
    CHECK(memcmp(got.key, settings.key, 33) == 0);
    CHECK(got.key[33] == 0 && memcmp(got.key + 33, got.key + 34, 33) == 0);
    CHECK(got.key_id == 3 && got.key_type == 1);
    /* Handed back as it is, it is what waits. */
    want_no_offer();
    ANSWERS(osnma_verdict_on(&core, &got, 0), OSNMA_VERDICT_BAD);
}

static void test_named_otherwise(void)
{
    unsigned i;
    make_message(1, 0, 0, 947, 120);
    ANSWERS(verdict(1, 3), OSNMA_NOT_WAITING);
    wait_for(3);
    ANSWERS(verdict(2, 3), OSNMA_OUT_OF_RANGE);
    ANSWERS(verdict(255, 3), OSNMA_OUT_OF_RANGE);
    ANSWERS(verdict(1, 16), OSNMA_OUT_OF_RANGE);
    ANSWERS(verdict(1, 2), OSNMA_NOT_WAITING);
    ANSWERS(verdict(0, 2), OSNMA_NOT_WAITING);
    for (i = 0; i < OSNMA_MESSAGE; i++) {
        message[i] = (uint8_t)(message[i] ^ 1u << i % 8);
        ANSWERS(verdict(i % 2, 3), OSNMA_NOT_WAITING);
        message[i] = (uint8_t)(message[i] ^ 1u << i % 8);
    }
    for (i = 0; i < OSNMA_SIGNATURE; i++) {
        signature[i] = (uint8_t)(signature[i] ^ 1u << i % 8);
        ANSWERS(verdict(i % 2, 3), OSNMA_NOT_WAITING);
        signature[i] = (uint8_t)(signature[i] ^ 1u << i % 8);
    }
    want_no_offer();
    ANSWERS(verdict(0, 3), OSNMA_VERDICT_BAD);
}

static void test_verdicts(void)
{
    unsigned cid;
    start();
    /* A second key is held, of lower ID: it goes with a root under key 3. */
    core.pubkeys[68 * 2] = want.pubkeys[68 * 2] = 1;
    core.pubkeys[68 * 2 + 1] = want.pubkeys[68 * 2 + 1] = 77;
    /* No chain is in force: status 0 and 3, and a CIDKR that is not the CID. */
    make_message(0, 0, 0, 947, 120);
    wait_for(3);
    want_no_offer();
    ANSWERS(verdict(1, 3), OSNMA_NOT_IN_FORCE);
    make_message(3, 0, 0, 947, 120);
    wait_for(3);
    want_no_offer();
    ANSWERS(verdict(1, 3), OSNMA_NOT_IN_FORCE);
    for (cid = 1; cid < 4; cid++) {
        make_message(cid % 2 + 1, cid, 0, 947, 120);
        wait_for(3);
        want_no_offer();
        ANSWERS(verdict(1, 3), OSNMA_NOT_IN_FORCE);
    }
    /* The first root, and the lower key goes. No chain was in force, so candidates go. */
    hold_sets();
    make_message(1, 0, 0, 947, 120);
    wait_for(3);
    want_no_offer();
    ANSWERS(verdict(0, 3), OSNMA_VERDICT_BAD);
    wait_for(3);
    want_in_force();
    want_no_candidates();
    memset(want.pubkeys, 0, 68 * 3);
    ANSWERS(verdict(1, 3), OSNMA_DONE);
    /* The same contents again change nothing but the public keys. */
    hold_sets();
    core.numbers[0] = want.numbers[0] = 5000000000u;
    core.numbers[1] = want.numbers[1] = 3;
    core.pubkeys[68 * 1] = want.pubkeys[68 * 1] = 1;
    tag_waits(0, 12, osnma_gst(947, 435300 - 30));
    tag_waits(1, 12, osnma_gst(947, 435300));
    tag_waits(2, 11, osnma_gst(947, 435600));
    make_message(2, 0, 0, 947, 120);
    memset(signature, 9, 64);
    wait_for(3);
    want_no_offer();
    memset(want.pubkeys, 0, 68 * 3);
    ANSWERS(verdict(1, 3), OSNMA_DONE);
    /* Not newer: earlier, or the same hour with other contents. */
    make_message(1, 0, 0, 947, 119);
    wait_for(3);
    want_no_offer();
    ANSWERS(verdict(1, 3), OSNMA_NOT_NEWER);
    make_message(1, 0, 0, 946, 167);
    wait_for(3);
    want_no_offer();
    ANSWERS(verdict(1, 3), OSNMA_NOT_NEWER);
    make_message(1, 1, 1, 947, 120);
    wait_for(3);
    want_no_offer();
    ANSWERS(verdict(1, 3), OSNMA_NOT_NEWER);
    /* A later root of the same chain, at second 435600: candidates stay, and the tags whose keys do not lie
     * before it, which close up. */
    make_message(1, 0, 0, 947, 121);
    wait_for(3);
    want_in_force();
    memmove(want.waiting, want.waiting + 84, 84 * 2);
    want.numbers[1] = 2;
    ANSWERS(verdict(1, 3), OSNMA_DONE);
    /* Another chain: no tag and no candidate stays, but the bytes past the count do. */
    make_message(2, 1, 1, 947, 122);
    wait_for(3);
    want_in_force();
    want_no_candidates();
    ANSWERS(verdict(1, 3), OSNMA_DONE);
    /* Status 3: another CID, then the one in force. */
    hold_sets();
    make_message(3, 0, 0, 947, 123);
    wait_for(3);
    want_no_offer();
    ANSWERS(verdict(1, 3), OSNMA_NOT_IN_FORCE);
    core.numbers[0] = want.numbers[0] = 42;
    core.numbers[1] = 1;
    core.pubkeys[68 * 1] = want.pubkeys[68 * 1] = 1;
    make_message(3, 1, 2, 947, 1);
    wait_for(3);
    want_no_offer();
    want_no_candidates();
    want.chain[0] = 2;
    ANSWERS(verdict(1, 3), OSNMA_DONE);
    /* After a drop only a later root counts. */
    make_message(1, 1, 1, 947, 122);
    wait_for(3);
    want_no_offer();
    ANSWERS(verdict(1, 3), OSNMA_NOT_NEWER);
    make_message(1, 2, 2, 948, 0);
    wait_for(3);
    want_in_force();
    memset(want.pubkeys, 0, 68 * 3);
    ANSWERS(verdict(1, 3), OSNMA_DONE);
}

/* ---- authentic sets and a stopped core */

static void test_read_set(void)
{
    uint8_t set[OSNMA_SET], right[OSNMA_SET];
    uint16_t iodnav = 7;
    uint32_t time = 7;
    unsigned prn;
    memset(set, 0x5A, sizeof set);
    memset(right, 0x5A, sizeof right);
    start();
    /* Candidates alone: no read gives one. */
    hold_sets();
    memset(core.arrivals, 0, OSNMA_SATELLITES * sizeof core.arrivals[0]);
    memset(want.arrivals, 0, OSNMA_SATELLITES * sizeof want.arrivals[0]);
    for (prn = 0; prn < 256; prn++) {
        iodnav = 7;
        time = 7;
        ANSWERS(osnma_read_set(&core, (uint8_t)prn, set, &iodnav, &time),
                prn >= 1 && prn <= OSNMA_SATELLITES ? OSNMA_NO_SET : OSNMA_OUT_OF_RANGE);
        CHECK(memcmp(set, right, sizeof set) == 0 && iodnav == 0 && time == 0);
    }
    hold_sets();
    for (prn = 1; prn <= OSNMA_SATELLITES; prn++) {
        const uint8_t *place = core.sets + 69 * (prn - 1);
        ANSWERS(osnma_read_set(&core, (uint8_t)prn, set, &iodnav, &time), OSNMA_DONE);
        CHECK(memcmp(set, place, sizeof set) == 0);
        CHECK(iodnav == (place[0] << 2 | place[1] >> 6));
        CHECK(time == osnma_gst(947, 30 * prn));
    }
}

static void test_stopped(void)
{
    uint8_t set[OSNMA_SET];
    uint16_t iodnav;
    uint32_t time;
    struct osnma_message got;
    make_word(1, 0, 3);
    want_word(5, osnma_gst(947, 432000));
    ANSWERS(osnma_word(&core, 5, osnma_gst(947, 432000), word), OSNMA_DONE);
    make_message(1, 0, 0, 947, 120);
    wait_for(3);
    core.config[62] = want.config[62] = 1;
    ANSWERS(osnma_word(&core, 5, osnma_gst(947, 432000), word), OSNMA_STOPPED);
    ANSWERS(osnma_word(&core, 5, osnma_gst(947, 431970), word), OSNMA_STOPPED);
    ANSWERS(osnma_word(&core, 37, osnma_gst(947, 432000), word), OSNMA_OUT_OF_RANGE);
    make_word(63, 0, 3);
    ANSWERS(osnma_word(&core, 5, osnma_gst(947, 432000), word), OSNMA_STOPPED);
    ANSWERS(verdict(1, 3), OSNMA_STOPPED);
    ANSWERS(verdict(0, 5), OSNMA_STOPPED);
    ANSWERS(verdict(2, 3), OSNMA_OUT_OF_RANGE);
    ANSWERS(osnma_read_set(&core, 5, set, &iodnav, &time), OSNMA_DONE);
    ANSWERS(osnma_read_message(&core, &got), OSNMA_DONE);
    settle();
    settings.ns = 0;
    ANSWERS(osnma_start(&core, &settings), OSNMA_OUT_OF_RANGE);
    start();
}

/* ---- sub-frames */

static uint8_t hkroot[15], section[60], fields[OSNMA_FIELDS];
static uint8_t records[OSNMA_RECORDS], want_records[OSNMA_RECORDS];

/* Where 1, sub-frames are lent with these marks. */
static int with_marks;
static uint16_t marks = OSNMA_ALL_RECEIVED;

static struct osnma_halves lend_fields(unsigned prn, uint32_t time)
{
    return with_marks
               ? osnma_subframe_marked(&core, (uint8_t)prn, time, marks, fields, records)
               : osnma_subframe(&core, (uint8_t)prn, time, fields, records);
}

static void check_halves(struct osnma_halves answer, enum osnma_answer right_hkroot,
                         enum osnma_answer right_mack, unsigned right_count, int line)
{
    calls++;
    checks++;
    if (answer.hkroot != right_hkroot || answer.mack != right_mack ||
        answer.records != right_count) {
        fprintf(stderr, "calls.c:%d: answered %d and %d with %u records, not %d and %d with %u\n",
                line, (int)answer.hkroot, (int)answer.mack, (unsigned)answer.records,
                (int)right_hkroot, (int)right_mack, right_count);
        exit(1);
    }
    check(memcmp(records, want_records, sizeof records) == 0, "the record area differs", line);
    check_regions(line);
}

/* The sub-frame answers these numbers and this count, and leaves `want` and `want_records`. */
#define HALVES(prn, time, hkroot, mack, count)                                                     \
    check_halves(lend_fields(prn, time), hkroot, mack, count, __LINE__)

/* The fields of a sub-frame: a byte of HKROOT, then four of the section, fifteen times. */
static void join(void)
{
    unsigned i;
    for (i = 0; i < 15; i++) {
        fields[5 * i] = hkroot[i];
        memcpy(fields + 5 * i + 1, section + 4 * i, 4);
    }
}

/* Block k of a message of a DSM ID. */
static void make_block(unsigned header, unsigned id, unsigned k, const uint8_t *dsm)
{
    hkroot[0] = (uint8_t)header;
    hkroot[1] = (uint8_t)(id << 4 | k);
    memcpy(hkroot + 2, dsm + 13 * k, 13);
    join();
}

static void want_noted(unsigned prn, uint32_t time)
{
    want.clocks[0] = want.clocks[prn] = time + 1;
}

/* What a block leaves that is held. */
static void want_block(unsigned prn, uint32_t time)
{
    unsigned id = hkroot[1] >> 4, k = hkroot[1] & 15;
    want_noted(prn, time);
    memcpy(want.blocks + 208 * id + 13 * k, hkroot + 2, 13);
    want.headers[id] = hkroot[0];
    if (want.present[id] == 0)
        want.since[id] = time;
    want.present[id] = (uint16_t)(want.present[id] | 1u << k);
}

/* Block k of a message of a DSM ID comes from a satellite and is held. */
static void send_block(unsigned prn, uint32_t time, unsigned id, unsigned k, const uint8_t *dsm)
{
    make_block(0x82, id, k, dsm);
    want_block(prn, time);
    HALVES(prn, time, OSNMA_DONE, OSNMA_NOT_IN_FORCE, 0);
}

/* The last block of a message comes: the message is taken out, and this is the answer of the half. Where it
 * is 0, `message` then waits under key 0. */
static void send_last(unsigned prn, uint32_t time, unsigned id, unsigned k, const uint8_t *dsm,
                      enum osnma_answer answer)
{
    make_block(0x82, id, k, dsm);
    want_block(prn, time);
    want.present[id] = 0;
    if (answer == OSNMA_DONE)
        want_offer(0);
    HALVES(prn, time, answer, OSNMA_NOT_IN_FORCE, 0);
}

/* All blocks of a message, from satellite 1 on, at one time. */
static void send_message(uint32_t time, unsigned id, const uint8_t *dsm, unsigned count,
                         enum osnma_answer answer)
{
    unsigned k;
    for (k = 0; k + 1 < count; k++)
        send_block(k + 1, time, id, k, dsm);
    send_last(count, time, id, k, dsm, answer);
}

static void test_blocks(void)
{
    const uint32_t t = osnma_gst(947, 431760);
    uint8_t dsm[16 * 13];
    unsigned i;
    for (i = 0; i < sizeof dsm; i++)
        dsm[i] = (uint8_t)(i * 11 + 3);
    for (i = 0; i < sizeof section; i++)
        section[i] = (uint8_t)(i + 1);
    for (i = 0; i < sizeof records; i++)
        records[i] = want_records[i] = (uint8_t)(0xA5 ^ i);
    start();
    make_block(0x82, 2, 1, dsm);
    HALVES(0, t, OSNMA_OUT_OF_RANGE, OSNMA_OUT_OF_RANGE, 0);
    HALVES(37, t, OSNMA_OUT_OF_RANGE, OSNMA_OUT_OF_RANGE, 0);
    HALVES(18, t + 1, OSNMA_OUT_OF_RANGE, OSNMA_OUT_OF_RANGE, 0);
    HALVES(18, osnma_gst(947, 604800), OSNMA_OUT_OF_RANGE, OSNMA_OUT_OF_RANGE, 0);
    memset(fields, 0, sizeof fields);
    want_noted(18, t);
    HALVES(18, t, OSNMA_ALL_ZERO, OSNMA_ALL_ZERO, 0);
    HALVES(18, t, OSNMA_OUT_OF_ORDER, OSNMA_OUT_OF_ORDER, 0);
    HALVES(17, t - 30, OSNMA_OUT_OF_ORDER, OSNMA_OUT_OF_ORDER, 0);
    make_block(0x82, 2, 1, dsm);
    want_block(1, t);
    HALVES(1, t, OSNMA_DONE, OSNMA_NOT_IN_FORCE, 0);
    /* A reserved NB drops its block alone. */
    for (i = 0; i < 16; i += i == 0 ? 11 : 1) {
        dsm[0] = (uint8_t)(i << 4);
        make_block(0x82, 2, 0, dsm);
        want_noted(2 + i, t);
        HALVES(2 + i, t, OSNMA_BLOCK_UNFIT, OSNMA_NOT_IN_FORCE, 0);
    }
    /* Seven blocks: block 7 is too high, and another header drops the others. */
    dsm[0] = 0x10;
    make_block(0x82, 2, 0, dsm);
    want_block(3, t);
    HALVES(3, t, OSNMA_DONE, OSNMA_NOT_IN_FORCE, 0);
    make_block(0x82, 2, 7, dsm);
    want_noted(4, t);
    HALVES(4, t, OSNMA_BLOCK_UNFIT, OSNMA_NOT_IN_FORCE, 0);
    make_block(0x83, 2, 3, dsm);
    want.present[2] = 0;
    want_block(5, t + 30);
    HALVES(5, t + 30, OSNMA_DONE, OSNMA_NOT_IN_FORCE, 0);
    core.config[62] = want.config[62] = 1;
    HALVES(6, t + 30, OSNMA_STOPPED, OSNMA_STOPPED, 0);
    HALVES(37, t + 30, OSNMA_OUT_OF_RANGE, OSNMA_OUT_OF_RANGE, 0);
    HALVES(6, t, OSNMA_STOPPED, OSNMA_STOPPED, 0);
}

/* Annex A.1.4: a DSM-KROOT of eight blocks under key 0, of type 1. */
static const uint8_t annex_dsm[8 * 13] = {
    0x20, 0x20, 0x41, 0x0B, 0x03, 0xB3, 0x78, 0xF1, 0xCA, 0x38, 0x56, 0xA9, 0x75,
    0xEE, 0x67, 0x72, 0xD9, 0xAB, 0x83, 0x96, 0x86, 0x6D, 0xC5, 0x7E, 0xAD, 0xA1,
    0xD2, 0x96, 0x37, 0x15, 0xE8, 0x1E, 0xE2, 0x89, 0xC9, 0xF6, 0xF5, 0x48, 0x69,
    0x40, 0x5F, 0x5E, 0x11, 0x5E, 0x42, 0x47, 0x77, 0xD1, 0x1D, 0x59, 0x8D, 0x24,
    0x51, 0xCC, 0x57, 0x6C, 0x28, 0x37, 0xA3, 0x98, 0x47, 0x15, 0xB2, 0x2F, 0xD1,
    0x53, 0xEF, 0x85, 0x17, 0x9E, 0xA6, 0xD4, 0xBD, 0x01, 0x01, 0xDB, 0x1C, 0x0E,
    0x36, 0x3A, 0x19, 0xDC, 0xA1, 0x62, 0x50, 0x34, 0xF2, 0xCC, 0xF9, 0xD0, 0xE7,
    0x63, 0xE3, 0xA4, 0x42, 0xFF, 0x81, 0x99, 0xA7, 0xD3, 0xC8, 0xCE, 0xF9, 0xB2};

/* Table 26: words 1 to 5 of E18, and their set. */
static const uint8_t annex_words[5][OSNMA_WORD] = {
    {0x04, 0x50, 0x70, 0x80, 0xCD, 0x1C, 0x00, 0x34, 0x00, 0x00, 0x00, 0x02, 0xA8, 0x12, 0xD2, 0x92},
    {0x08, 0x50, 0xA1, 0xEF, 0xEA, 0x92, 0x27, 0xD2, 0x7D, 0x28, 0x00, 0x00, 0x00, 0x00, 0x00, 0x01},
    {0x0C, 0x50, 0x00, 0x00, 0x00, 0x00, 0x00, 0x00, 0x00, 0x00, 0x00, 0x00, 0x00, 0x00, 0x00, 0x19},
    {0x10, 0x50, 0x48, 0x00, 0x00, 0x00, 0x01, 0xC2, 0x00, 0x00, 0x00, 0x00, 0x00, 0x00, 0x00, 0x01},
    {0x14, 0xC8, 0x00, 0x00, 0x00, 0x00, 0x00, 0x00, 0x00, 0x1D, 0x9B, 0x4B, 0xCC, 0xAA, 0xAA, 0xAA}};
static const uint8_t annex_set[OSNMA_SET] = {
    0x14, 0x1C, 0x20, 0x33, 0x47, 0x00, 0x0D, 0x00, 0x00, 0x00, 0x00, 0xAA, 0x04, 0xB4,
    0xA4, 0x14, 0x28, 0x7B, 0xFA, 0xA4, 0x89, 0xF4, 0x9F, 0x4A, 0x00, 0x00, 0x00, 0x00,
    0x00, 0x00, 0x14, 0x00, 0x00, 0x00, 0x00, 0x00, 0x00, 0x00, 0x00, 0x00, 0x00, 0x00,
    0x00, 0x00, 0x06, 0x45, 0x04, 0x80, 0x00, 0x00, 0x00, 0x1C, 0x20, 0x00, 0x00, 0x00,
    0x00, 0x00, 0x00, 0x00, 0x0C, 0x80, 0x00, 0x00, 0x00, 0x00, 0x00, 0x00, 0x00};

/* A.1.5: E18's section at 947/432030. Tag0 and MACSEQ are the annex's, the keys are those of slots 90
 * and 126, hashed down from its seed; what it does not print is 0. */
static const uint8_t annex_section[60] = {
    0xE5, 0x8C, 0x24, 0x00, 0x00, 0xFF, 0x40, 0x00, 0x01, 0x2B, 0x00, 0x00, 0x00, 0x00, 0xA7,
    0xE1, 0x4E, 0xC9, 0x5C, 0xA7, 0x32, 0x03, 0xED, 0x68, 0xAA, 0x28, 0xE2, 0xBD, 0x02, 0xA2,
    0x00, 0x00, 0x00, 0x00, 0x00, 0x00, 0x00, 0x00, 0x00, 0x00, 0x00, 0x00, 0x00, 0x00, 0x33,
    0x32, 0x83, 0xCE, 0x9B, 0x04, 0xE0, 0xFE, 0x6A, 0xA2, 0x16, 0xDB, 0x56, 0x4B, 0x19, 0x1E};

/* The annex's root message can be taken, and `message` and `signature` are what then waits. */
static void start_for_annex(void)
{
    settle();
    memset(settings.marks, 0, sizeof settings.marks);
    settings.marks[1] = settings.marks[2] = OSNMA_FLEXIBLE;
    settings.marks[15] = settings.marks[16] = OSNMA_FLEXIBLE;
    settings.key_id = 0;
    want_fresh();
    ANSWERS(osnma_start(&core, &settings), OSNMA_DONE);
    memset(message, 0, sizeof message);
    memset(signature, 0, sizeof signature);
    message[0] = 0x82;
    memcpy(message + 1, annex_dsm + 1, 28);
    memcpy(signature, annex_dsm + 29, 64);
}

/* The root of the annex comes, waits, and is vouched for. */
static void put_annex_root_in_force(void)
{
    const uint32_t t = osnma_gst(947, 431760);
    struct osnma_message got;
    uint8_t dsm[9 * 13];
    start_for_annex();
    /* Under a key that is not held, with another MACLT, of one block too many. */
    memset(dsm, 0, sizeof dsm);
    memcpy(dsm, annex_dsm, sizeof annex_dsm);
    dsm[0] = 0x21;
    send_message(t - 90, 5, dsm, 8, OSNMA_KEY_NOT_HELD);
    dsm[0] = 0x20;
    dsm[3] = 12;
    send_message(t - 60, 5, dsm, 8, OSNMA_PARAMETERS_UNFIT);
    dsm[0] = 0x30;
    dsm[3] = 11;
    send_message(t - 30, 5, dsm, 9, OSNMA_BLOCK_UNFIT);
    send_message(t, 0, annex_dsm, 8, OSNMA_DONE);
    ANSWERS(osnma_read_message(&core, &got), OSNMA_DONE);
    CHECK(memcmp(got.message, message, sizeof message) == 0);
    CHECK(memcmp(got.signature, signature, sizeof signature) == 0);
    CHECK(got.key_id == 0 && got.key_type == 1);
    want_in_force();
    ANSWERS(osnma_verdict_on(&core, &got, 1), OSNMA_DONE);
}

/* What the annex's section leaves: tag0 agrees with E18's set, by 12 bits. */
static void want_annex_section(uint32_t t)
{
    static const uint8_t of[8][6] = {{9, 18, 18, 0, 1, 1}, {4, 18, 255, 4, 1, 2},
                                     {5, 18, 18, 11, 1, 3}, {4, 18, 0, 0, 1, 4},
                                     {4, 18, 0, 0, 2, 1},  {4, 18, 0, 0, 2, 2},
                                     {4, 18, 0, 0, 2, 3},  {4, 18, 0, 0, 2, 4}};
    static const uint8_t head[15] = {18, 18, 11, 1, 3, 0x3B, 0x36, 0x97, 0x9E, 2, 0, 0, 0, 0, 0};
    unsigned i;
    for (i = 0; i < 8; i++) {
        uint8_t *record = want_records + OSNMA_RECORD * i;
        memcpy(record, of[i], 6);
        record[6] = 0;
        record[7] = of[i][0] == 4 ? 0 : 0x50;
        memcpy(record + 8, head + 5, 4);
    }
    want.numbers[0] = 126;
    want.numbers[1] = 1;
    memcpy(want.heldkey, annex_section + 44, 16);
    memcpy(want.waiting, head, sizeof head);
    memcpy(want.waiting + sizeof head, annex_set, sizeof annex_set);
    memcpy(want.sets + OSNMA_SET * (OSNMA_SATELLITES + 17), annex_set, sizeof annex_set);
    want.arrivals[OSNMA_SATELLITES + 17] = t + 1;
    want.arrivals[2 * OSNMA_SATELLITES + 17] = 12;
}

/* What only tags do: so many bits agree on E18's set already, the latest of them at `time`. */
static void agree_before(unsigned bits, uint32_t time)
{
    memcpy(core.sets + OSNMA_SET * (OSNMA_SATELLITES + 17), annex_set, sizeof annex_set);
    core.arrivals[OSNMA_SATELLITES + 17] = time + 1;
    core.arrivals[2 * OSNMA_SATELLITES + 17] = bits;
    memcpy(want.sets, core.sets, sizeof want.sets);
    memcpy(want.arrivals, core.arrivals, sizeof want.arrivals);
}

/* The root in force, E18's words held, and its section to be sent. */
static void await_annex_section(void)
{
    unsigned i;
    put_annex_root_in_force();
    for (i = 0; i < 5; i++) {
        memcpy(word, annex_words[i], sizeof word);
        want_word(18, osnma_gst(947, 432000));
        ANSWERS(osnma_word(&core, 18, osnma_gst(947, 432000), word), OSNMA_DONE);
    }
    memcpy(section, annex_section, sizeof section);
}

static void test_section(void)
{
    const uint32_t t = osnma_gst(947, 432030);
    struct osnma_tag_record record;
    uint8_t set[OSNMA_SET];
    uint16_t iodnav;
    uint32_t time;
    await_annex_section();
    make_block(0xC2, 0, 0, annex_dsm);
    want_block(17, t);
    HALVES(17, t, OSNMA_DONE, OSNMA_NOT_IN_FORCE, 0); /* status 3 */
    make_block(0x82, 0, 0, annex_dsm);
    want.present[0] = 0;
    want_block(19, t);
    HALVES(19, t, OSNMA_DONE, OSNMA_KEY_UNFIT, 0); /* not E19's keys */
    want_block(18, t);
    want_annex_section(t);
    HALVES(18, t, OSNMA_DONE, OSNMA_DONE, 8);
    record = osnma_record(records, 0);
    CHECK(record.outcome == OSNMA_AGREES && record.sender == 18 && record.prn == 18);
    CHECK(record.adkd == 0 && record.block == 1 && record.position == 1);
    CHECK(record.iodnav == 0x50 && record.time == t);
    record = osnma_record(records, 2);
    CHECK(record.outcome == OSNMA_WAITS && record.adkd == 11 && record.iodnav == 0x50);
    record = osnma_record(records, 7);
    CHECK(record.outcome == OSNMA_NOT_ALLOWED && record.block == 2 && record.position == 4);
    CHECK(record.prn == 0 && record.iodnav == 0 && record.time == t);
    record = osnma_record(records, 269);
    CHECK(record.outcome == records[3228] && record.sender == records[3229]);
    record = osnma_record(records, 270);
    CHECK(record.outcome == 0 && record.sender == 0 && record.time == 0);
    ANSWERS(osnma_read_set(&core, 18, set, &iodnav, &time), OSNMA_NO_SET);
    /* A spare bit, then keys of a time that is too far. */
    make_block(0x82, 0, 0, annex_dsm);
    want_block(18, t + 30);
    HALVES(18, t + 30, OSNMA_DONE, OSNMA_KEY_UNFIT, 0);
    want.present[0] = 0;
    want_block(18, osnma_gst(949, 0));
    HALVES(18, osnma_gst(949, 0), OSNMA_DONE, OSNMA_TOO_FAR, 0);
}

/* Tag0's 12 bits are the last of OSNMA_AUTHENTIC_BITS: E18's set is authentic, at the time of its latest
 * tag, and its candidate gone. */
static void test_forty_bits(void)
{
    const uint32_t t = osnma_gst(947, 432030);
    uint8_t set[OSNMA_SET];
    uint16_t iodnav;
    uint32_t time, latest;
    unsigned i;
    for (i = 0; i < 2; i++) {
        latest = i == 0 ? t : t + 30;
        await_annex_section();
        agree_before(OSNMA_AUTHENTIC_BITS - 12u, i == 0 ? t - 30 : latest);
        make_block(0x82, 0, 0, annex_dsm);
        want_block(18, t);
        want_annex_section(t);
        want_records[0] = OSNMA_AUTHENTIC;
        want.arrivals[OSNMA_SATELLITES + 17] = want.arrivals[2 * OSNMA_SATELLITES + 17] = 0;
        memcpy(want.sets + OSNMA_SET * 17, annex_set, sizeof annex_set);
        want.arrivals[17] = latest + 1;
        HALVES(18, t, OSNMA_DONE, OSNMA_DONE, 8);
        ANSWERS(osnma_read_set(&core, 18, set, &iodnav, &time), OSNMA_DONE);
        CHECK(memcmp(set, annex_set, sizeof set) == 0 && iodnav == 0x50 && time == latest);
    }
    /* One bit less does not do. */
    await_annex_section();
    agree_before(OSNMA_AUTHENTIC_BITS - 13u, t - 30);
    make_block(0x82, 0, 0, annex_dsm);
    want_block(18, t);
    want_annex_section(t);
    want.arrivals[2 * OSNMA_SATELLITES + 17] = OSNMA_AUTHENTIC_BITS - 1u;
    HALVES(18, t, OSNMA_DONE, OSNMA_DONE, 8);
}

/* The field is lost: any bytes stand in its place. */
static void lose(unsigned field)
{
    marks = (uint16_t)(marks & ~OSNMA_RECEIVED(field));
    memset(fields + 5 * field, 0x5A, 5);
}

/* The record of a tag of the annex's section of which bits are missing. */
static void want_missing(unsigned i, unsigned prn, unsigned adkd)
{
    uint8_t *record = want_records + OSNMA_RECORD * i;
    record[0] = OSNMA_BITS_MISSING;
    record[2] = (uint8_t)prn;
    record[3] = (uint8_t)adkd;
    record[6] = record[7] = 0;
}

static void test_missing(void)
{
    const uint32_t t = osnma_gst(947, 432030);
    struct osnma_tag_record record;
    unsigned i, k;
    CHECK(OSNMA_RECEIVED(0) == 0x8000u && OSNMA_RECEIVED(14) == 2u);
    with_marks = 1;
    /* Nothing came, with and without the bit that is not read; then all but the first field. */
    await_annex_section();
    make_block(0x82, 0, 0, annex_dsm);
    for (i = 0; i < 3; i++) {
        marks = (uint16_t)(i < 2 ? i : OSNMA_ALL_RECEIVED & ~OSNMA_RECEIVED(0));
        want_noted(1 + i, t);
        HALVES(1 + i, t, OSNMA_FIELDS_MISSING, OSNMA_FIELDS_MISSING, 0);
        HALVES(1 + i, t, OSNMA_OUT_OF_ORDER, OSNMA_OUT_OF_ORDER, 0);
    }
    /* Each other field: the block is not held, and the section is looked at. */
    for (i = 1; i < 15; i++) {
        make_block(0xC2, 0, 0, annex_dsm);
        marks = OSNMA_ALL_RECEIVED;
        lose(i);
        want_noted(18 + i, t);
        HALVES(18 + i, t, OSNMA_FIELDS_MISSING, OSNMA_NOT_IN_FORCE, 0); /* status 3 */
    }
    /* Zeros in all fields that came. */
    memset(fields, 0, sizeof fields);
    marks = OSNMA_ALL_RECEIVED;
    lose(7);
    want_noted(4, t);
    HALVES(4, t, OSNMA_ALL_ZERO, OSNMA_ALL_ZERO, 0);

    /* The key of block 2 is bits 352 to 479 of the section: field 11 has some of them. */
    make_block(0x82, 0, 0, annex_dsm);
    marks = OSNMA_ALL_RECEIVED;
    lose(11);
    want_noted(18, t);
    want_annex_section(t);
    want.numbers[0] = 90;
    memcpy(want.heldkey, annex_section + 14, 16);
    for (i = 4; i < 8; i++)
        want_missing(i, 0, 0);
    HALVES(18, t, OSNMA_FIELDS_MISSING, OSNMA_DONE, 8);
    record = osnma_record(records, 7);
    CHECK(record.outcome == OSNMA_BITS_MISSING && record.block == 2 && record.position == 4);
    CHECK(record.sender == 18 && record.iodnav == 0 && record.time == t);

    /* Field 2 has bits 64 to 95: of the third tag and its MAC-Info, and of the fourth tag. The second
     * and third are flexible. Of the second PRN and ADKD came. */
    for (k = 0; k < 2; k++) {
        marks = OSNMA_ALL_RECEIVED;
        await_annex_section();
        make_block(0x82, 0, 0, annex_dsm);
        marks = (uint16_t)(OSNMA_ALL_RECEIVED | k);
        lose(2);
        want_noted(18, t);
        want_annex_section(t);
        want.numbers[1] = 0;
        memset(want.waiting, 0, OSNMA_WAITING_COUNT);
        want_missing(1, 255, 4);
        want_missing(2, 0, 0);
        want_missing(3, 0, 0);
        HALVES(18, t, OSNMA_FIELDS_MISSING, OSNMA_DONE, 8);
    }
    marks = OSNMA_ALL_RECEIVED;
    with_marks = 0;
}

/* DSM-PKR of types that no key has, of a wrong size, and with nodes that do not give the root. */
static void test_key_messages(void)
{
    const uint32_t t = osnma_gst(947, 431760);
    uint8_t dsm[16 * 13];
    unsigned i;
    start();
    for (i = 0; i < sizeof dsm; i++)
        dsm[i] = (uint8_t)(i * 5 + 1);
    dsm[0] = 0x70;
    dsm[129] = 0x54;
    send_message(t, 12, dsm, 13, OSNMA_BLOCK_UNFIT);
    dsm[129] = 0x34;
    send_message(t + 30, 13, dsm, 13, OSNMA_BLOCK_UNFIT);
    dsm[129] = 0x41;
    send_message(t + 60, 14, dsm, 13, OSNMA_BLOCK_UNFIT);
    dsm[129] = 0x14;
    send_message(t + 90, 15, dsm, 13, OSNMA_TREE_UNFIT);
    dsm[129] = 0x40;
    send_message(t + 120, 15, dsm, 13, OSNMA_TREE_UNFIT);
}

/* ---- four satellites */

static void check_four(uint32_t limit, int right, int line)
{
    int yes = osnma_four(&core, limit);
    calls++;
    checks++;
    if (yes != right) {
        fprintf(stderr, "calls.c:%d: four within %lu: %d, not %d\n", line, (unsigned long)limit, yes,
                right);
        exit(1);
    }
    check_regions(line);
}

/* The question with this limit is answered 1 or 0, and the core stays. */
#define FOUR(limit, yes) check_four(limit, yes, __LINE__)

/* What only tags do: the satellite has an authentic set whose tag came at `time`. */
static void mark(unsigned prn, uint32_t time)
{
    core.arrivals[prn - 1] = want.arrivals[prn - 1] = time + 1;
}

/* It has none. */
static void unmark(unsigned prn)
{
    core.arrivals[prn - 1] = want.arrivals[prn - 1] = 0;
}

/* What only sub-frames do: this is the last that was noted. */
static void note(uint32_t time)
{
    core.clocks[0] = want.clocks[0] = time + 1;
}

/* Zeros from a satellite: the time is noted. */
static void send_zeros(unsigned prn, uint32_t time)
{
    memset(fields, 0, sizeof fields);
    want_noted(prn, time);
    HALVES(prn, time, OSNMA_ALL_ZERO, OSNMA_ALL_ZERO, 0);
}

/* Any four of the 36, no other has a set: yes. Without one of the four: no. */
static void test_any_four(uint32_t time)
{
    unsigned a, b, c, d, prn;
    for (prn = 1; prn <= OSNMA_SATELLITES; prn++)
        unmark(prn);
    for (a = 1; a <= OSNMA_SATELLITES; a++) {
        mark(a, time);
        for (b = a + 1; b <= OSNMA_SATELLITES; b++) {
            mark(b, time);
            for (c = b + 1; c <= OSNMA_SATELLITES; c++) {
                mark(c, time);
                FOUR(0xFFFFFFFFu, 0);
                for (d = c + 1; d <= OSNMA_SATELLITES; d++) {
                    mark(d, time);
                    CHECK(osnma_four(&core, 0) == 1);
                    unmark(d);
                }
                unmark(c);
            }
            unmark(b);
        }
        unmark(a);
    }
}

static void test_four(void)
{
    const uint32_t t = osnma_gst(947, 432000);
    unsigned prn;
    start();
    FOUR(0, 0);
    FOUR(0xFFFFFFFFu, 0);
    /* Before the first sub-frame no set counts, and a word is none. */
    hold_sets();
    make_word(1, 0, 3);
    want_word(5, t);
    ANSWERS(osnma_word(&core, 5, t, word), OSNMA_DONE);
    FOUR(0xFFFFFFFFu, 0);
    /* Four sets, and candidates of every satellite: the fourth is the oldest. */
    for (prn = 1; prn <= OSNMA_SATELLITES; prn++)
        unmark(prn);
    mark(1, t - 30);
    mark(2, t - 300);
    mark(35, t);
    send_zeros(9, t);
    FOUR(0xFFFFFFFFu, 0);
    mark(36, t);
    FOUR(9, 0);
    FOUR(10, 1);
    FOUR(0xFFFFFFFFu, 1);
    /* Each sub-frame that is noted ages them, whoever sends it; one that is refused does not. */
    HALVES(9, t, OSNMA_OUT_OF_ORDER, OSNMA_OUT_OF_ORDER, 0);
    HALVES(8, t + 1, OSNMA_OUT_OF_RANGE, OSNMA_OUT_OF_RANGE, 0);
    FOUR(10, 1);
    send_zeros(9, t + 30);
    FOUR(10, 0);
    FOUR(11, 1);
    /* A stopped core answers too, and its clock stays. */
    core.config[62] = want.config[62] = 1;
    HALVES(7, t + 60, OSNMA_STOPPED, OSNMA_STOPPED, 0);
    FOUR(10, 0);
    FOUR(11, 1);
    /* Over the end of a week, to the last one; rounded down; a tag that is later than the clock. */
    mark(2, osnma_gst(947, 604500));
    note(osnma_gst(948, 0));
    mark(1, osnma_gst(948, 0));
    mark(35, osnma_gst(948, 0));
    mark(36, osnma_gst(948, 0));
    FOUR(9, 0);
    FOUR(10, 1);
    note(osnma_gst(948, 29));
    FOUR(9, 0);
    FOUR(10, 1);
    note(osnma_gst(948, 30));
    FOUR(10, 0);
    FOUR(11, 1);
    note(osnma_gst(4095, 604770));
    mark(2, 0);
    FOUR(4096u * 20160u - 2u, 0);
    FOUR(4096u * 20160u - 1u, 1);
    note(0);
    FOUR(0, 1);
    test_any_four(t);
    start();
    FOUR(0xFFFFFFFFu, 0);
}

/* ---- how far along each message is */

static struct osnma_dsm_progress want_progress[OSNMA_DSM_IDS];

static void check_progress(int line)
{
    struct osnma_dsm_progress got[OSNMA_DSM_IDS];
    unsigned id;
    memset(got, 0x5A, sizeof got);
    osnma_progress(&core, got);
    calls++;
    for (id = 0; id < OSNMA_DSM_IDS; id++) {
        checks++;
        if (got[id].held != want_progress[id].held || got[id].missing != want_progress[id].missing) {
            fprintf(stderr, "calls.c:%d: DSM %u: %u held and %u missing, not %u and %u\n", line, id,
                    got[id].held, got[id].missing, want_progress[id].held, want_progress[id].missing);
            exit(1);
        }
    }
    check_regions(line);
}

/* The question is answered `want_progress`, and the core stays. */
#define PROGRESS() check_progress(__LINE__)

/* The same, where this DSM ID has so many blocks held and missing. */
#define PROGRESS_OF(id, of_held, of_missing)                                                       \
    (want_progress[id].held = (uint8_t)(of_held), want_progress[id].missing = (uint8_t)(of_missing), \
     check_progress(__LINE__))

static void want_nothing_held(void)
{
    unsigned id;
    for (id = 0; id < OSNMA_DSM_IDS; id++) {
        want_progress[id].held = 0;
        want_progress[id].missing = OSNMA_UNKNOWN_TOTAL;
    }
}

/* By sub-frames: messages that are refused when they are complete, beside others, and one that is taken. */
static void test_gathering(void)
{
    const uint32_t t = osnma_gst(947, 431760);
    uint8_t dsm[16 * 13];
    unsigned i;
    for (i = 0; i < sizeof dsm; i++)
        dsm[i] = (uint8_t)(i * 5 + 1);
    fill(0xA5);
    start();
    want_nothing_held();
    PROGRESS();
    /* The neighbours of those below: one of 16 blocks, two of any number. */
    dsm[0] = 0xA0;
    send_block(20, t, 4, 0, dsm);
    PROGRESS_OF(4, 1, 15);
    send_block(21, t, 2, 15, dsm);
    PROGRESS_OF(2, 1, OSNMA_UNKNOWN_TOTAL);
    send_block(22, t, 14, 5, dsm);
    send_block(23, t, 14, 9, dsm);
    PROGRESS_OF(14, 2, OSNMA_UNKNOWN_TOTAL);
    /* Block 0 last, of eight: the total was never known. */
    for (i = 7; i > 0; i--) {
        send_block(i, t, 3, i, annex_dsm);
        PROGRESS_OF(3, 8 - i, OSNMA_UNKNOWN_TOTAL);
    }
    send_last(8, t, 3, 0, annex_dsm, OSNMA_KEY_NOT_HELD);
    PROGRESS_OF(3, 0, OSNMA_UNKNOWN_TOTAL);
    /* Block 0 last but one. */
    for (i = 1; i < 7; i++) {
        send_block(i, t + 30, 3, i, annex_dsm);
        PROGRESS_OF(3, i, OSNMA_UNKNOWN_TOTAL);
    }
    send_block(8, t + 30, 3, 0, annex_dsm);
    PROGRESS_OF(3, 7, 1);
    send_last(7, t + 30, 3, 7, annex_dsm, OSNMA_KEY_NOT_HELD);
    PROGRESS_OF(3, 0, OSNMA_UNKNOWN_TOTAL);
    /* Block 0 first, of thirteen; the fifth comes twice. */
    dsm[0] = 0x70;
    for (i = 0; i < 12; i++) {
        send_block(i + 1, t + 60, 15, i, dsm);
        PROGRESS_OF(15, i + 1, 12 - i);
        if (i == 4) {
            send_block(30, t + 60, 15, i, dsm);
            PROGRESS();
        }
    }
    send_last(13, t + 60, 15, 12, dsm, OSNMA_BLOCK_UNFIT);
    PROGRESS_OF(15, 0, OSNMA_UNKNOWN_TOTAL);
    /* What is refused is not held: a reserved NB, a block ID too high, a lost field. */
    dsm[0] = 0xB0;
    make_block(0x82, 14, 0, dsm);
    want_noted(1, t + 90);
    HALVES(1, t + 90, OSNMA_BLOCK_UNFIT, OSNMA_NOT_IN_FORCE, 0);
    PROGRESS();
    send_block(2, t + 90, 3, 0, annex_dsm);
    PROGRESS_OF(3, 1, 7);
    make_block(0x82, 3, 8, dsm);
    want_noted(3, t + 90);
    HALVES(3, t + 90, OSNMA_BLOCK_UNFIT, OSNMA_NOT_IN_FORCE, 0);
    PROGRESS();
    make_block(0x82, 3, 1, annex_dsm);
    with_marks = 1;
    lose(14);
    want_noted(4, t + 90);
    HALVES(4, t + 90, OSNMA_FIELDS_MISSING, OSNMA_NOT_IN_FORCE, 0);
    PROGRESS();
    with_marks = 0;
    marks = OSNMA_ALL_RECEIVED;
    /* Another header drops the blocks before it. */
    make_block(0x83, 14, 1, dsm);
    want.present[14] = 0;
    want_block(5, t + 90);
    HALVES(5, t + 90, OSNMA_DONE, OSNMA_NOT_IN_FORCE, 0);
    PROGRESS_OF(14, 1, OSNMA_UNKNOWN_TOTAL);
    /* An hour and a half minute after its only block DSM 2 counts, until its next block comes. */
    send_zeros(6, t + 3630);
    PROGRESS();
    want.present[2] = 0;
    send_block(7, t + 3630, 2, 14, dsm);
    PROGRESS();
    send_block(8, t + 3630, 2, 13, dsm);
    PROGRESS_OF(2, 2, OSNMA_UNKNOWN_TOTAL);
    /* A stopped core answers too. */
    core.config[62] = want.config[62] = 1;
    PROGRESS();
    start();
    want_nothing_held();
    PROGRESS();
    /* A message that then waits is taken out too. */
    start_for_annex();
    for (i = 0; i < 7; i++) {
        send_block(i + 1, t, 0, i, annex_dsm);
        PROGRESS_OF(0, i + 1, 7 - i);
    }
    send_last(8, t, 0, 7, annex_dsm, OSNMA_DONE);
    PROGRESS_OF(0, 0, OSNMA_UNKNOWN_TOTAL);
}

/* What only sub-frames do: these blocks of a DSM ID are held, and its block 0 has this NB. The first byte
 * of block 0 has other bits too. */
static void hold_blocks(unsigned id, unsigned present, unsigned nb)
{
    core.present[id] = want.present[id] = (uint16_t)present;
    core.blocks[208 * id] = want.blocks[208 * id] = (uint8_t)(nb << 4 | (id + nb + 9) % 16);
}

/* What that is answered. No start leads to a reserved NB in block 0, or to as many blocks as the total. */
static void want_of(unsigned id, unsigned present, unsigned nb)
{
    static const uint8_t totals[16] = {0, 7, 8, 9, 10, 11, 12, 13, 14, 15, 16, 0, 0, 0, 0, 0};
    unsigned held = 0, k;
    for (k = 0; k < 16; k++)
        held += present >> k & 1u;
    want_progress[id].held = (uint8_t)held;
    want_progress[id].missing = OSNMA_UNKNOWN_TOTAL;
    if ((present & 1u) != 0)
        want_progress[id].missing = (uint8_t)(totals[nb] > held ? totals[nb] - held : 0);
}

/* By states: one block of one DSM ID, and every marks with every NB. */
static void test_any_blocks(void)
{
    unsigned id, k, nb, other, high;
    start();
    for (k = 0; k < OSNMA_BLOCKS_COUNT; k++)
        core.blocks[k] = want.blocks[k] = (uint8_t)(k * 29 + k / 13);
    want_nothing_held();
    for (id = 0; id < OSNMA_DSM_IDS; id++) {
        for (k = 0; k < 16; k++)
            for (nb = 0; nb < 16; nb++) {
                /* The others, without a block, have other NB. */
                for (other = 0; other < OSNMA_DSM_IDS; other++)
                    hold_blocks(other, 0, nb + other + 1);
                hold_blocks(id, 1u << k, nb);
                want_of(id, 1u << k, nb);
                PROGRESS();
            }
        hold_blocks(id, 0, 0);
        PROGRESS_OF(id, 0, OSNMA_UNKNOWN_TOTAL);
    }
    /* DSM ID by DSM ID, other marks and another NB. */
    for (high = 0; high < 0x1000; high++)
        for (k = 0; k < 16; k++) {
            for (id = 0; id < OSNMA_DSM_IDS; id++) {
                hold_blocks(id, high << 4 | (id + k) % 16, (id + high) % 16);
                want_of(id, high << 4 | (id + k) % 16, (id + high) % 16);
            }
            PROGRESS();
        }
    /* Bytes of no start: 8 marks of 16, with block 0 and NB 10; all marks with a reserved NB. */
    fill(0xA5);
    for (id = 0; id < OSNMA_DSM_IDS; id++)
        want_progress[id].held = want_progress[id].missing = 8;
    PROGRESS();
    fill(0xFF);
    for (id = 0; id < OSNMA_DSM_IDS; id++) {
        want_progress[id].held = 16;
        want_progress[id].missing = 0;
    }
    PROGRESS();
    start();
    want_nothing_held();
    PROGRESS();
}

/* ---- counts that are wrong, by the calls over single regions */

enum { REGIONS = 16 };

/* The counts that are right, then those of the other byte strings of each call. */
static const size_t right_counts[REGIONS + 3] = {63, 73, 2880, 180,   3328, 16, 16, 16, 1088, 179,
                                                 45, 2,  32,   21504, 4968, 108, 0, 0,  0};

/* The regions that a call is lent, each as a bit. */
enum {
    ALL_REGIONS = 0xFFFF,
    WORD_REGIONS = 0x000F,    /* config, clocks, words, stamps */
    VERDICT_REGIONS = 0xBF01, /* config, pubkeys, offer, chain, numbers, heldkey, waiting, arrivals */
    SET_REGIONS = 0xC000,     /* sets, arrivals */
    FOUR_REGIONS = 0x8002,    /* clocks, arrivals */
    MESSAGE_REGIONS = 0x0300, /* pubkeys, offer */
    PROGRESS_REGIONS = 0x0050 /* blocks, present */
};

#define LENT(n)                                                                                    \
    core.config, n[0], core.clocks, n[1], core.words, n[2], core.stamps, n[3],                     \
    core.blocks, n[4], core.headers, n[5], core.present, n[6], core.since, n[7],                   \
    core.pubkeys, n[8], core.offer, n[9], core.chain, n[10], core.numbers, n[11],                  \
    core.heldkey, n[12], core.waiting, n[13], core.sets, n[14], core.arrivals, n[15]

static enum osnma_answer counted_start(const size_t *n)
{
    return (enum osnma_answer)osnma_regions_start(
        LENT(n), settings.ns, settings.key_id, settings.key_type, settings.maclt, settings.marks,
        n[16], settings.tree_root, n[17], settings.key, n[18]);
}

static enum osnma_answer counted_word(const size_t *n)
{
    return (enum osnma_answer)osnma_regions_word(
        core.config, n[0], core.clocks, n[1], core.words, n[2], core.stamps, n[3], 5,
        osnma_gst(947, 432000), word, n[16]);
}

static enum osnma_answer counted_subframe(const size_t *n)
{
    uint32_t of_hkroot = 77, of_mack = 77;
    uint32_t count = osnma_regions_subframe(LENT(n), records, n[17], 5, osnma_gst(947, 432000),
                                            OSNMA_ALL_RECEIVED, fields, n[16], &of_hkroot, &of_mack);
    CHECK(count == 0 && memcmp(records, want_records, sizeof records) == 0);
    CHECK(of_hkroot == OSNMA_DONE ? of_mack == OSNMA_NOT_IN_FORCE : of_mack == of_hkroot);
    return (enum osnma_answer)of_hkroot;
}

static enum osnma_answer counted_subframe_marked(const size_t *n)
{
    uint32_t of_hkroot = 77, of_mack = 77;
    uint32_t count = osnma_regions_subframe(LENT(n), records, n[17], 6, osnma_gst(947, 432000),
                                            OSNMA_RECEIVED(0), fields, n[16], &of_hkroot, &of_mack);
    CHECK(count == 0 && memcmp(records, want_records, sizeof records) == 0);
    CHECK(of_hkroot == OSNMA_FIELDS_MISSING ? of_mack == OSNMA_NOT_IN_FORCE : of_mack == of_hkroot);
    return (enum osnma_answer)of_hkroot;
}

static enum osnma_answer counted_verdict(const size_t *n)
{
    return (enum osnma_answer)osnma_regions_verdict(
        core.config, n[0], core.pubkeys, n[8], core.offer, n[9], core.chain, n[10], core.numbers, n[11],
        core.heldkey, n[12], core.waiting, n[13], core.arrivals, n[15], 0, 3, message, n[16], signature,
        n[17]);
}

static enum osnma_answer counted_read_set(const size_t *n)
{
    uint8_t set[OSNMA_SET];
    uint16_t iodnav = 7;
    uint32_t time = 7;
    enum osnma_answer answer;
    memset(set, 0x5A, sizeof set);
    answer = (enum osnma_answer)osnma_regions_read_set(core.sets, n[14], core.arrivals, n[15], 5, set,
                                                       n[16], &iodnav, &time);
    CHECK(iodnav == 0 && time == 0 && set[0] == 0x5A && memcmp(set, set + 1, sizeof set - 1) == 0);
    return answer;
}

/* Yes where the counts are right. */
static enum osnma_answer counted_four(const size_t *n)
{
    uint8_t yes = 0x5A;
    enum osnma_answer answer =
        (enum osnma_answer)osnma_regions_four(core.clocks, n[1], core.arrivals, n[15], 0xFFFFFFFFu, &yes);
    CHECK(yes == (answer == OSNMA_DONE ? 1 : 0));
    return answer;
}

static enum osnma_answer counted_read_message(const size_t *n)
{
    struct osnma_message got;
    enum osnma_answer answer;
    memset(&got, 0x5A, sizeof got);
    answer = (enum osnma_answer)osnma_regions_read_message(
        core.pubkeys, n[8], core.offer, n[9], got.message, n[16], got.signature, n[17], got.key, n[18],
        &got.key_id, &got.key_type);
    if (answer == OSNMA_WRONG_LENGTH)
        CHECK(got.key_id == 0 && got.key_type == 0 && got.message[0] == 0x5A &&
              got.key[66] == 0x5A);
    return answer;
}

/* What is lent has one element more than is right. */
static enum osnma_answer counted_progress(const size_t *n)
{
    static uint8_t blocks[OSNMA_BLOCKS_COUNT + 1], right_blocks[OSNMA_BLOCKS_COUNT + 1];
    static uint16_t present[OSNMA_PRESENT_COUNT + 1], right_present[OSNMA_PRESENT_COUNT + 1];
    uint8_t out[2 * OSNMA_DSM_IDS + 1], right[2 * OSNMA_DSM_IDS + 1];
    enum osnma_answer answer;
    unsigned i;
    memcpy(blocks, core.blocks, sizeof core.blocks);
    memcpy(present, core.present, sizeof core.present);
    memcpy(right_blocks, blocks, sizeof blocks);
    memcpy(right_present, present, sizeof present);
    memset(out, 0x5A, sizeof out);
    memset(right, 0x5A, sizeof right);
    answer = (enum osnma_answer)osnma_regions_progress(blocks, n[4], present, n[6], out, n[16]);
    if (answer == OSNMA_DONE)
        for (i = 0; i < 2 * OSNMA_DSM_IDS; i++)
            right[i] = i % 2 == 0 ? want_progress[i / 2].held : want_progress[i / 2].missing;
    CHECK(memcmp(out, right, sizeof out) == 0);
    CHECK(memcmp(blocks, right_blocks, sizeof blocks) == 0);
    CHECK(memcmp(present, right_present, sizeof present) == 0);
    return answer;
}

/* Each count that the call is lent is in turn 0, then one less than right; `others` are the counts of the
 * other byte strings. */
static void short_counts(enum osnma_answer (*call)(const size_t *), unsigned regions,
                         const size_t *others, unsigned count, enum osnma_answer answer)
{
    size_t n[REGIONS + 3];
    unsigned i, k;
    memcpy(n, right_counts, sizeof n);
    for (i = 0; i < count; i++)
        n[REGIONS + i] = others[i];
    for (i = 0; i < REGIONS + count; i++) {
        size_t right = n[i];
        if (i < REGIONS && (regions >> i & 1u) == 0)
            continue;
        for (k = 0; k < 2; k++) {
            n[i] = k == 0 ? 0 : right - 1;
            ANSWERS(call(n), OSNMA_WRONG_LENGTH);
        }
        n[i] = right;
    }
    /* Nothing else was wrong. */
    if (call == counted_word)
        want_word(5, osnma_gst(947, 432000));
    if (call == counted_subframe)
        want_block(5, osnma_gst(947, 432000));
    if (call == counted_subframe_marked)
        want_noted(6, osnma_gst(947, 432000));
    if (call == counted_verdict)
        want_no_offer();
    if (call == counted_start)
        want_fresh();
    ANSWERS(call(n), answer);
}

static void test_counts(void)
{
    static const size_t of_start[3] = {28, 32, 67}, of_word[1] = {16}, of_verdict[2] = {45, 132},
                        of_set[1] = {69}, of_subframe[2] = {75, 3240};
    static const size_t of_message[3] = {45, 132, 67}, of_progress[1] = {32};
    unsigned i;
    start();
    hold_sets();
    note(osnma_gst(947, 432000));
    short_counts(counted_four, FOUR_REGIONS, NULL, 0, OSNMA_DONE);
    start();
    for (i = 0; i < OSNMA_DSM_IDS; i++) {
        hold_blocks(i, 0x0123u + i, i);
        want_of(i, 0x0123u + i, i);
    }
    short_counts(counted_progress, PROGRESS_REGIONS, of_progress, 1, OSNMA_DONE);
    for (i = 0; i < 3; i++) {
        size_t n[REGIONS + 3];
        memcpy(n, right_counts, sizeof n);
        n[16] = of_progress[0];
        n[i == 0 ? 4 : i == 1 ? 6 : 16]++;
        ANSWERS(counted_progress(n), OSNMA_WRONG_LENGTH);
    }
    start();
    make_message(1, 0, 0, 947, 120);
    wait_for(3);
    make_word(1, 0, 8);
    short_counts(counted_read_set, SET_REGIONS, of_set, 1, OSNMA_NO_SET);
    short_counts(counted_read_message, MESSAGE_REGIONS, of_message, 3, OSNMA_DONE);
    short_counts(counted_word, WORD_REGIONS, of_word, 1, OSNMA_DONE);
    make_block(0x82, 7, 1, annex_dsm);
    short_counts(counted_subframe, ALL_REGIONS, of_subframe, 2, OSNMA_DONE);
    short_counts(counted_subframe_marked, ALL_REGIONS, of_subframe, 2, OSNMA_FIELDS_MISSING);
    short_counts(counted_verdict, VERDICT_REGIONS, of_verdict, 2, OSNMA_VERDICT_BAD);
    short_counts(counted_start, ALL_REGIONS, of_start, 3, OSNMA_DONE);
}

/* Where each region begins, for comparison with other bindings. */
static void print_layout(void)
{
#define PRINT(region)                                                                              \
    printf("%s %lu\n", #region, (unsigned long)offsetof(struct osnma_core, region))
    PRINT(config);
    PRINT(clocks);
    PRINT(words);
    PRINT(stamps);
    PRINT(blocks);
    PRINT(headers);
    PRINT(present);
    PRINT(since);
    PRINT(pubkeys);
    PRINT(offer);
    PRINT(chain);
    PRINT(numbers);
    PRINT(heldkey);
    PRINT(waiting);
    PRINT(sets);
    PRINT(arrivals);
#undef PRINT
}

/* With the word `layout`, only prints where the regions begin. */
int main(int argc, char **argv)
{
    if (argc == 2 && strcmp(argv[1], "layout") == 0) {
        print_layout();
        return 0;
    }
    CHECK(sizeof(struct osnma_core) == OSNMA_CORE_SIZE);
    CHECK(osnma_gst(947, 431970) == 0x3B369762u);
    CHECK(osnma_gst(4095, 604770) == 0xFFF93A62u);
    CHECK(osnma_gst(4096, 0) == OSNMA_NO_TIME && osnma_gst(0, 0x100000u) == OSNMA_NO_TIME);
    test_start();
    test_words();
    start();
    test_read_message();
    test_named_otherwise();
    test_verdicts();
    test_read_set();
    test_stopped();
    /* With all marks 1 the call with marks is the other one. */
    for (with_marks = 1; with_marks >= 0; with_marks--) {
        test_blocks();
        test_section();
        test_forty_bits();
        test_key_messages();
    }
    with_marks = 0;
    test_missing();
    test_four();
    test_gathering();
    test_any_blocks();
    test_counts();
    printf("%lu calls, %lu checks\n", calls, checks);
    return 0;
}
