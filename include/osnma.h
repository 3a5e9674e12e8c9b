/*
 * The authentication core of a Galileo OSNMA receiver, for C99 and C++.
 *
 * Specification: "Galileo Navigation Message Authentication Specification for Signal-In-Space Testing",
 * v1.1, not the later operational interface control document, whose messages differ.
 * Machine: libosnma.a is x86-64 ELF code. It needs memcpy and memset of a C library and nothing else.
 *
 * The caller owns all memory: one struct osnma_core, lent to each call for as long as the call runs.
 * No call allocates, keeps a pointer, has state of its own, waits, or reports in any way but by its
 * number and the memory that it is lent. Every call returns, whatever bytes and numbers it is given.
 *
 *     static struct osnma_core core;            needs no clearing: an accepted start writes every region
 *
 *     osnma_start(&core, &settings)             once, and again to begin anew
 *     osnma_subframe(&core, prn, time, ..)      the authentication fields of each sub-frame, 75 bytes
 *     osnma_subframe_marked(&core, ..)          the same where fields of it may be lost
 *     osnma_word(&core, prn, time, word)        each I/NAV word of 16 bytes
 *     osnma_read_message(&core, &message)       what waits for the signature chip, if something does
 *     osnma_verdict_on(&core, &message, good)   the chip's answer on it
 *     osnma_read_set(&core, prn, set, ..)       a satellite's authentic navigation data
 *     osnma_four(&core, limit)                  whether four have such data, not older than `limit`
 *     osnma_progress(&core, progress)           how far along each message is
 *
 * THE ORDER OF A HALF MINUTE: the fields of ALL satellites are lent before the words of ANY. A word
 * that is lent before a section of its own half minute takes its satellite's set out of use for that
 * section: the tags get outcome 3, every call answers 0, and nothing is authenticated. On the air words
 * come between the fields. osnma_collector.h takes pages as they come and lends them in this order.
 *
 * What the receiver must do itself, since no call can (docs/INTEGRATION.md says how and why):
 *   - Compare the signal's time with a clock of its own that the signal cannot set, and lend nothing
 *     where they differ by more than the time from a tag to its key. A key is public once it was sent:
 *     who replays the sky later can make any tag.
 *   - Lend only pages whose CRC is right, and mark the others as lost.
 *   - Guard against repeaters that delay the signal by less: tags say who made data, not when it came.
 *   - Use the bytes that osnma_read_set gives, not the words that were lent, and look at their age.
 *   - Watch by that clock how long ago a sub-frame was last noted (lent, and not refused with 1 to 4 in
 *     both halves). osnma_four counts ages in the signal's own time: where none is noted any more, a yes
 *     stays a yes.
 *
 * Duties of the caller, for every call:
 *   - No pointer is null. Each is aligned for its type and good for the whole of what it points to.
 *   - What a call writes overlaps nothing else that is lent to it; nothing that is lent beside a core
 *     lies inside the core.
 *   - One call at a time for one core. Reads of one core may run beside each other; two cores have
 *     nothing in common.
 *   - Only these calls write a core, and osnma_start is the first. On other contents a call still
 *     stays inside the memory that it is lent and returns, but its answer means nothing.
 *
 * How long a call takes: a sub-frame's section walks the key chain from its keys down to the held one, a
 * hash of one block for each slot between (docs/BENCHMARK.md counts such a step; by SHA3 it takes about
 * twice as long as by SHA-256): NS times NMACK slots, at most 108, for each half minute since the held key.
 * That is the last key that an accepted section brought, or the root if a verdict put one in force since;
 * it may lie days back. What else a call does does not grow with this gap.
 *   - A section walks at most 1,000,000 slots. A key that lies further is refused and not walked.
 *   - A section with a wrong key walks as far before it is refused with OSNMA_KEY_UNFIT, and the held
 *     key stays: each of 36 satellites may bring one in a half minute. Once a key of that half minute
 *     is accepted, its other sections walk a few hundred slots.
 *   - A receiver that must answer sooner limits this itself; no setting does. It reckons the slots
 *     before it lends. If they are too many for 36 sections, it lends one sub-frame a half minute, of
 *     another satellite each time, until a section is accepted. If they are too many for one, it starts
 *     anew: without a chain in force no section walks, and how far a root lies back is read before the
 *     verdict that puts it in force (week: message[4], low half, and message[5]; hour: message[6]).
 *
 * Byte strings have the high byte first, and bit 0 is the most significant. "Stays" means that every
 * byte is as before the call.
 */
#ifndef OSNMA_H
#define OSNMA_H

#include <stddef.h>
#include <stdint.h>

#ifdef __cplusplus
extern "C" {
#endif

/* ---- version and layout */

/** The version of this header and of the calls (CHANGELOG.md). */
#define OSNMA_VERSION "0.6.0"

/**
 * The number of the layout: it rises whenever a region of struct osnma_core, in size or in meaning, or
 * the parameters of an exported function change. The archive exports a function whose name ends in it,
 * and osnma_start calls that function, so that a header and an archive of different layouts do not link.
 * A new export alone does not raise it: a program that uses the new call does not link with an archive
 * that lacks it, and every other program goes on as before.
 */
#define OSNMA_LAYOUT 2
#define OSNMA_JOIN_EXPANDED(a, b) a##b
#define OSNMA_JOIN(a, b) OSNMA_JOIN_EXPANDED(a, b)
#define OSNMA_LAYOUT_EXPORT OSNMA_JOIN(osnma_layout_, OSNMA_LAYOUT)

/** Returns OSNMA_LAYOUT. */
uint32_t OSNMA_LAYOUT_EXPORT(void);

/* ---- lengths, in bytes where nothing else is said */

#define OSNMA_FIELDS 75u     /**< the authentication fields of a sub-frame: 15 of five bytes */
#define OSNMA_RECORDS 3240u  /**< the area for tag records: of 256 tags that waited, and of 14 others */
#define OSNMA_RECORD 12u     /**< a tag record */
#define OSNMA_WORD 16u       /**< an I/NAV word */
#define OSNMA_SET 69u        /**< a navigation set: 549 bits of words 1 to 5, then three zero bits */
#define OSNMA_MESSAGE 45u    /**< a signed message, zeros after a short one */
#define OSNMA_SIGNATURE 132u /**< a signature, zeros after a short one */
#define OSNMA_KEY 67u        /**< a public key, zeros after a short one */
#define OSNMA_TREE_ROOT 32u  /**< the root of the tree of public keys */
#define OSNMA_MARKS 28u      /**< 14 marks for second 0 of the minute, then 14 for second 30 */
#define OSNMA_SATELLITES 36u /**< PRN 1 to 36 */
#define OSNMA_DSM_IDS 16u    /**< DSM ID 0 to 11 of a DSM-KROOT, 12 to 15 of a DSM-PKR */

/** The tag bits that must agree on a set before it is authentic. */
#define OSNMA_AUTHENTIC_BITS 40u

/** In the place of a number of missing blocks: block 0 is not held, and so the total is unknown. */
#define OSNMA_UNKNOWN_TOTAL 255u

/** The mark of a flexible field. The others are 0 to 15, the ADKD of a fixed one. */
#define OSNMA_FLEXIBLE 255u

/**
 * Which of the fifteen fields of a sub-frame were received: sixteen bits, 1 for received, the first
 * field's in the top bit. The lowest bit is not read. Fields are counted from 0 to 14.
 */
#define OSNMA_ALL_RECEIVED 0xFFFEu
#define OSNMA_RECEIVED(field) (0x8000u >> (field))

/* Elements of the regions of a core, in their order. */
#define OSNMA_CONFIG_COUNT 63u
#define OSNMA_CLOCKS_COUNT 73u
#define OSNMA_WORDS_COUNT 2880u
#define OSNMA_STAMPS_COUNT 180u
#define OSNMA_BLOCKS_COUNT 3328u
#define OSNMA_HEADERS_COUNT 16u
#define OSNMA_PRESENT_COUNT 16u
#define OSNMA_SINCE_COUNT 16u
#define OSNMA_PUBKEYS_COUNT 1088u
#define OSNMA_OFFER_COUNT 179u
#define OSNMA_CHAIN_COUNT 45u
#define OSNMA_NUMBERS_COUNT 2u
#define OSNMA_HELDKEY_COUNT 32u
#define OSNMA_WAITING_COUNT 21504u
#define OSNMA_SETS_COUNT 4968u
#define OSNMA_ARRIVALS_COUNT 108u

/** The size of a core where uint64_t is aligned to 8 bytes; never more. */
#define OSNMA_CORE_SIZE 35664u

/* ---- what calls answer */

/**
 * The numbers of document 01's table, and 17 of document 02. All but 0 are refusals. What a number
 * leaves behind is said at each call.
 */
enum osnma_answer {
    /** Nothing below applies. */
    OSNMA_DONE = 0,
    /** A lent length is wrong. The calls over a struct osnma_core lend right ones. */
    OSNMA_WRONG_LENGTH = 1,
    /** PRN, time, NS, key ID, key type, mark or verdict out of range; word 4 SVID not the PRN. */
    OSNMA_OUT_OF_RANGE = 2,
    /** A word earlier than that PRN's last; a sub-frame earlier than the last, or not later for its PRN. */
    OSNMA_OUT_OF_ORDER = 3,
    /** An emergency message stopped the core. Only a new start ends this. */
    OSNMA_STOPPED = 4,
    /** Sub-frame: all fields that were received are zero bytes. */
    OSNMA_ALL_ZERO = 5,
    /** Sub-frame: NB reserved, block ID too high, size or emergency ID wrong, DSM-PKR type above 4. */
    OSNMA_BLOCK_UNFIT = 6,
    /** Sub-frame: a DSM-KROOT under a public key that is not held. */
    OSNMA_KEY_NOT_HELD = 7,
    /** Sub-frame: a DSM-KROOT with parameters that are not taken. The hash of the chain may be SHA-256 or
       SHA3-256 with every key size, or SHA3-224 with keys of up to 224 bits; the MAC function HMAC-SHA-256
       with every key size, or CMAC-AES with keys of 128, 192 or 256 bits. */
    OSNMA_PARAMETERS_UNFIT = 8,
    /** Verdict: a root that is not newer. Sub-frame: a public key with an ID not above all held. */
    OSNMA_NOT_NEWER = 9,
    /** Sub-frame: a DSM-PKR whose nodes do not give the tree's root. */
    OSNMA_TREE_UNFIT = 10,
    /** Verdict or section: its status or CID does not go with the chain in force. */
    OSNMA_NOT_IN_FORCE = 11,
    /** Section: a TESLA key fails, or a spare bit is 1. */
    OSNMA_KEY_UNFIT = 12,
    /** Section: a key more than 1,000,000 slots past the one held. */
    OSNMA_TOO_FAR = 13,
    /** Nothing waits, or another key ID or other bytes. */
    OSNMA_NOT_WAITING = 14,
    /** The verdict is bad. */
    OSNMA_VERDICT_BAD = 15,
    /** No authentic set for this PRN since the start. */
    OSNMA_NO_SET = 16,
    /** Sub-frame: fields are missing: any for the HKROOT half, the first for the MACK half. */
    OSNMA_FIELDS_MISSING = 17
};

/**
 * What became of a tag: document 01's outcomes, and 8 and 9 of document 02.
 *
 * A tag that matches its satellite's set agrees with it. Tag bits that agree on the same 549 bits of a
 * satellite are summed, and at OSNMA_AUTHENTIC_BITS the set is authentic. Until then it is the
 * satellite's candidate, of which each satellite has one beside its authentic set. No read gives a
 * candidate, and its data is not to be used.
 *   - A tag that agrees with the bits of the authentic set is OSNMA_AUTHENTIC, and the candidate stays.
 *   - One on the candidate's bits adds its own to their total.
 *   - One on bits of neither makes them the candidate, with its own bits as the total, unless the
 *     candidate's latest tag came later: it is then OSNMA_AGREES and counts nowhere.
 *   - At OSNMA_AUTHENTIC_BITS the candidate becomes the authentic set, with its latest tag as the
 *     set's; where the old set's tag came later than that one, the old set stays. Either way the
 *     satellite has no candidate then.
 * A verdict that changes the chain or drops it clears all candidates, and an accepted start does.
 */
enum osnma_outcome {
    /** It agrees with its satellite's set, on which OSNMA_AUTHENTIC_BITS or more agree. The set is now
        authentic unless a later tag's set is held. */
    OSNMA_AUTHENTIC = 1,
    /** It does not match. */
    OSNMA_WRONG = 2,
    /** Its satellite has no usable set: not all five words came, or not of one IODnav, or one of them is of
        this half minute and was lent before these fields. */
    OSNMA_NO_USABLE_SET = 3,
    /** An ADKD other than 0, 11 and 12, or not the fixed one of its field, or a PRN not 1 to 36. */
    OSNMA_NOT_ALLOWED = 4,
    /** It waits for its key, with a copy of its set. */
    OSNMA_WAITS = 5,
    /** Its field is flexible and MACSEQ fails. */
    OSNMA_SEQUENCE_UNFIT = 6,
    /** It would wait, but all 256 places are taken. */
    OSNMA_NO_PLACE = 7,
    /** Bits of it, of its block's key, of its MAC-Info or of what MACSEQ is made of are missing. */
    OSNMA_BITS_MISSING = 8,
    /** It agrees with its satellite's set, which is not authentic: fewer than OSNMA_AUTHENTIC_BITS are
        summed on it. */
    OSNMA_AGREES = 9
};

/** A few words for a number, for logs. Never null. */
static inline const char *osnma_answer_text(uint32_t answer)
{
    static const char *const text[] = {
        "done",
        "a lent length is wrong",
        "an argument is out of its range",
        "earlier than what came before",
        "stopped by an emergency message",
        "nothing but zero bytes",
        "a block or message of a size or type that cannot be",
        "the public key is not held",
        "chain parameters that are not taken",
        "not newer than what is held",
        "the tree's root is not met",
        "does not go with the chain in force",
        "a TESLA key or a spare bit is wrong",
        "a key too far past the one held",
        "this does not wait for a verdict",
        "the verdict is bad",
        "no authentic set",
        "fields are missing"};
    return answer < sizeof text / sizeof text[0] ? text[answer] : "a number that is not listed";
}

/** A few words for an outcome. Never null. */
static inline const char *osnma_outcome_text(uint32_t outcome)
{
    static const char *const text[] = {
        "authentic",
        "wrong",
        "no usable set",
        "not allowed",
        "waits for its key",
        "MACSEQ fails",
        "no place to wait",
        "bits are missing",
        "agrees, too few bits so far"};
    return outcome >= 1 && outcome <= sizeof text / sizeof text[0] ? text[outcome - 1]
                                                                   : "a number that is not listed";
}

/* ---- times */

/** What osnma_gst gives for a week or second that GST_SF cannot hold. Every call refuses it with 2. */
#define OSNMA_NO_TIME 0xFFFFFFFFu

/**
 * GST_SF as one number: week (12 bits) and second of week (20 bits). Sub-frames start at multiples of
 * 30 up to 604770; other seconds that fit are packed as they are, and the calls refuse them with 2.
 * Weeks do not roll over.
 */
static inline uint32_t osnma_gst(uint32_t week, uint32_t second)
{
    return week <= 4095u && second <= 0xFFFFFu ? week << 20 | second : OSNMA_NO_TIME;
}

/** The week of a GST_SF: its first 12 bits. */
static inline uint32_t osnma_week(uint32_t time)
{
    return time >> 20;
}

/** The second of week of a GST_SF: its other 20 bits. */
static inline uint32_t osnma_second(uint32_t time)
{
    return time & 0xFFFFFu;
}

/* ---- the core */

/**
 * All memory of a core: osnma_start writes it and the other calls take it up. It can be copied as a
 * whole, kept, and taken up again by a library of the same layout on the same machine. A "stamp" is a
 * GST_SF plus 1, or 0 for never.
 */
struct osnma_core {
    /** NS, MACLT, 14 + 14 marks, tree root, and 1 where the core is stopped. */
    uint8_t config[OSNMA_CONFIG_COUNT];
    /** Stamps of the last sub-frame, of the last sub-frame of each PRN, of the last word of each PRN. */
    uint32_t clocks[OSNMA_CLOCKS_COUNT];
    /** By PRN: words 1 to 5. */
    uint8_t words[OSNMA_WORDS_COUNT];
    /** By PRN: the stamp of the sub-frame that each word came in. */
    uint32_t stamps[OSNMA_STAMPS_COUNT];
    /** By DSM ID: 16 blocks of 13 bytes. */
    uint8_t blocks[OSNMA_BLOCKS_COUNT];
    /** By DSM ID: the NMA header that its blocks came with. */
    uint8_t headers[OSNMA_HEADERS_COUNT];
    /** By DSM ID: the blocks present, block 0 in the lowest bit. */
    uint16_t present[OSNMA_PRESENT_COUNT];
    /** By DSM ID: GST_SF of the block that came first; no stamp. */
    uint32_t since[OSNMA_SINCE_COUNT];
    /** By key ID: the type plus 1 (0 where none is held), and the public key in 67 bytes. */
    uint8_t pubkeys[OSNMA_PUBKEYS_COUNT];
    /** 1 where a message waits, its key ID, message and signature. */
    uint8_t offer[OSNMA_OFFER_COUNT];
    /** 1 in force, 2 dropped, 0 where there was none; then the contents put in force last. */
    uint8_t chain[OSNMA_CHAIN_COUNT];
    /** The held TESLA key's slot, and the count of waiting tags. */
    uint64_t numbers[OSNMA_NUMBERS_COUNT];
    /** The held TESLA key, zeros after a short one. */
    uint8_t heldkey[OSNMA_HELDKEY_COUNT];
    /** 256 places for waiting tags, 84 bytes each, in order of arrival. */
    uint8_t waiting[OSNMA_WAITING_COUNT];
    /** By PRN: the authentic set. Then by PRN: the candidate (enum osnma_outcome says what that is). */
    uint8_t sets[OSNMA_SETS_COUNT];
    /** By PRN: the stamp of the sub-frame that brought that set's tag. Then by PRN: that of the candidate's
        latest tag, 0 where there is no candidate. Then by PRN: the tag bits that agree on it. */
    uint32_t arrivals[OSNMA_ARRIVALS_COUNT];
};

/** Does not compile where a core is larger than its stated size, or has fewer bytes than its regions. */
typedef char osnma_core_has_its_size
    [sizeof(struct osnma_core) <= OSNMA_CORE_SIZE && sizeof(struct osnma_core) >= 35659u ? 1 : -1];

/**
 * Whether an emergency message stopped the core. It then answers OSNMA_STOPPED to all but a new start
 * and the reads, osnma_four and osnma_progress among them, and what these give is no longer to be used.
 */
static inline int osnma_is_stopped(const struct osnma_core *core)
{
    return core->config[OSNMA_CONFIG_COUNT - 1u] != 0;
}

/** Whether a chain is in force. Without one, sections are answered OSNMA_NOT_IN_FORCE. */
static inline int osnma_chain_in_force(const struct osnma_core *core)
{
    return core->chain[0] == 1;
}

/** What a start is given. */
struct osnma_settings {
    uint8_t ns;                         /**< satellites with keys of their own in a block: 1 to 36 */
    uint8_t key_id;                     /**< ID of the public key: 0 to 15 */
    uint8_t key_type;                   /**< its type: 0 to 3, for 29, 33, 49 or 67 bytes */
    uint8_t maclt;                      /**< the one MACLT number that is taken; any byte */
    uint8_t marks[OSNMA_MARKS];         /**< 0 to 15 or OSNMA_FLEXIBLE; the first of each 14 is 0 */
    uint8_t tree_root[OSNMA_TREE_ROOT]; /**< the installed root of the tree of public keys */
    uint8_t key[OSNMA_KEY];             /**< the public key; what follows a short one is not read */
};

/** What a sub-frame answers: a number for each half, and how many tag records were written. */
struct osnma_halves {
    enum osnma_answer hkroot; /**< its block, and the message that the block completes */
    enum osnma_answer mack;   /**< the section's keys and tags */
    uint32_t records;         /**< at most 270 */
};

/** A tag that was judged: one that had waited, or one of the section itself. */
struct osnma_tag_record {
    enum osnma_outcome outcome;
    uint8_t sender;   /**< PRN of the satellite that sent it */
    uint8_t prn;      /**< PRN that it authenticates, as the tag names it; 0 where a bit is missing */
    uint8_t adkd;     /**< its ADKD; 0 where a bit is missing */
    uint8_t block;    /**< block of the section that it came in, from 1 */
    uint8_t position; /**< position in the block, from 1 */
    uint16_t iodnav;  /**< IODnav of its set; 0 for outcomes 3, 4, 6 and 8 */
    uint32_t time;    /**< GST_SF of its arrival */
};

/**
 * A message that waits for a verdict of the signature chip. Short parts are followed by zeros, which are
 * not signed: a chip is handed osnma_message_length bytes of the message, osnma_signature_length of the
 * signature (r and s, of equal lengths) and osnma_key_length of the key (a compressed point). Key types
 * 0 to 3 are P-224 with SHA-224, P-256 with SHA-256, P-384 with SHA-384 and P-521 with SHA-512, whatever
 * the hash of the chain is.
 */
struct osnma_message {
    uint8_t message[OSNMA_MESSAGE];     /**< what is signed: NMA header, then CIDKR through KROOT */
    uint8_t signature[OSNMA_SIGNATURE]; /**< of 56, 64, 96 or 132 bytes by the key's type */
    uint8_t key[OSNMA_KEY];             /**< the public key to verify it under */
    uint8_t key_id;                     /**< its ID, 0 to 15 */
    uint8_t key_type;                   /**< its type, 0 to 3 */
};

/** How far along the message of a DSM ID is. */
struct osnma_dsm_progress {
    uint8_t held;    /**< its blocks that are held: at most 15, since a complete message is taken out */
    uint8_t missing; /**< 1 to 15, or OSNMA_UNKNOWN_TOTAL without block 0, which names the total */
};

/**
 * How many bytes of a message are signed: the NMA header and 12 bytes from CIDKR through alpha, then the
 * root key by KS. 0 for a KS that there is not; a message that waits has none such.
 */
static inline uint32_t osnma_message_length(const uint8_t message[OSNMA_MESSAGE])
{
    static const uint8_t root_key[] = {12, 13, 14, 15, 16, 20, 24, 28, 32};
    const uint32_t ks = message[2] >> 4;
    return ks < sizeof root_key ? 13u + root_key[ks] : 0u;
}

/** The length of a signature by its key's type; 0 for a type that there is not. */
static inline uint32_t osnma_signature_length(uint8_t key_type)
{
    static const uint8_t length[] = {56, 64, 96, 132};
    return key_type < sizeof length ? length[key_type] : 0u;
}

/** The length of a public key by its type; 0 for a type that there is not. */
static inline uint32_t osnma_key_length(uint8_t key_type)
{
    static const uint8_t length[] = {29, 33, 49, 67};
    return key_type < sizeof length ? length[key_type] : 0u;
}

/* ---- the calls */

/**
 * Begins a new list with what it is given and nothing from before: no word, block, message, chain,
 * tag, set, candidate or time.
 *
 * Lent: the core, of any contents; the settings, which are read.
 *
 * OSNMA_DONE          Every region of the core is written. The public key is held, nothing else is, and
 *                     the core is not stopped.
 * OSNMA_OUT_OF_RANGE  The core stays. NS, key ID, key type or a mark is out of range, or the first
 *                     mark of a list is not 0.
 * OSNMA_WRONG_LENGTH  The core stays. The archive has this layout's name and not its number.
 */
static inline enum osnma_answer osnma_start(struct osnma_core *core,
                                            const struct osnma_settings *settings);

/**
 * The authentication fields of a satellite's sub-frame at `time` (GST_SF). Those of all satellites of a
 * half minute are lent before the words of any (osnma_word says why). The first byte of each five
 * is the HKROOT half: its block is gathered, and the message that it completes is judged. The others
 * are the MACK half: the section's keys are proved, the tags that waited for them and the section's own
 * are judged, in this order, and each leaves a record.
 *
 * Lent: the core; the 75 bytes of the fields, which are read; the area for records, of which as many
 * are written as the answer says and the rest stays. osnma_record reads one of them.
 *
 * Both halves answer, and no record is written:
 * OSNMA_OUT_OF_RANGE  The core stays. PRN not 1 to 36, or `time` not the start of a sub-frame.
 * OSNMA_STOPPED       The core stays.
 * OSNMA_OUT_OF_ORDER  The core stays. Earlier than the last sub-frame, or not later than this PRN's.
 * OSNMA_ALL_ZERO      The time is noted: of the last sub-frame, and of this PRN's last.
 *
 * Else the time is noted, and the HKROOT half answers:
 * OSNMA_DONE          The block is held with those of its DSM ID; those that do not go with it are
 *                     dropped before. A complete message is taken out: a DSM-KROOT waits for a verdict
 *                     in place of what waited, a DSM-PKR adds its public key or, as an emergency
 *                     message, stops the core.
 * OSNMA_BLOCK_UNFIT   The block is dropped: NB reserved, or its ID too high. Or the complete message
 *                     is: of a wrong size, an emergency message with another ID than 0, a DSM-PKR of
 *                     type above 4.
 * OSNMA_KEY_NOT_HELD  A complete DSM-KROOT is dropped. What waits goes on waiting.
 * OSNMA_PARAMETERS_UNFIT  The same.
 * OSNMA_TREE_UNFIT    A complete DSM-PKR is dropped: its nodes do not give the tree's root.
 * OSNMA_NOT_NEWER     The same: its ID is not above all held, and it is not a key that is held.
 * A DSM-KROOT is judged for KEY_NOT_HELD, PARAMETERS_UNFIT, BLOCK_UNFIT, a DSM-PKR for BLOCK_UNFIT,
 * TREE_UNFIT, NOT_NEWER.
 *
 * Then the MACK half answers:
 * OSNMA_DONE          The highest proved key is held. Due tags have left their places, tags with a
 *                     delay have taken places, and the sets that tags agree with are held, as
 *                     authentic sets or as candidates.
 * OSNMA_STOPPED       This sub-frame brought an emergency message. Its section is not looked at.
 * OSNMA_NOT_IN_FORCE  No chain in force, status 0 or 3, another CID, or before the chain's sub-frame 0.
 * OSNMA_TOO_FAR       A key lies more than 1,000,000 slots past the one held.
 * OSNMA_KEY_UNFIT     A key is not of the chain, or a spare bit is 1.
 * The last two go block by block, and the first block that fails refuses the whole section. A half that
 * is refused leaves public keys, chain, held key, waiting tags, authentic sets and candidates as they
 * are.
 */
static inline struct osnma_halves osnma_subframe(struct osnma_core *core, uint8_t prn, uint32_t time,
                                                 const uint8_t fields[OSNMA_FIELDS],
                                                 uint8_t records[OSNMA_RECORDS]);

/**
 * The same for a sub-frame of which some of the fifteen fields may not have been received: `marks` says
 * which were. With OSNMA_ALL_RECEIVED it is osnma_subframe in all.
 *
 * Lent: as osnma_subframe. What the bytes of a field hold that was not received changes nothing.
 *
 * A tag that cannot be judged for want of a bit leaves a record with OSNMA_BITS_MISSING: every tag of a
 * block whose key is missing; a tag that is missing itself, or, of a fixed field of the section but the
 * first, its MAC-Info; every flexible one where MACSEQ or the MAC-Info of a flexible field is missing.
 * A missing key is not looked at, and neither is a missing spare bit.
 *
 * It answers as osnma_subframe, but for:
 * OSNMA_ALL_ZERO        All fields that were received, if any, are zero. The time is noted.
 * OSNMA_FIELDS_MISSING  After it, with the time noted. The HKROOT half, before its other answers: a
 *                       field was not received; blocks and messages stay. The MACK half, before its
 *                       others: the first field was not.
 */
static inline struct osnma_halves osnma_subframe_marked(struct osnma_core *core, uint8_t prn,
                                                        uint32_t time, uint16_t marks,
                                                        const uint8_t fields[OSNMA_FIELDS],
                                                        uint8_t records[OSNMA_RECORDS]);

/**
 * Record `i` of those that osnma_subframe wrote, from 0. An `i` that the area has no room for gives
 * zeros, which are no outcome.
 */
static inline struct osnma_tag_record osnma_record(const uint8_t records[OSNMA_RECORDS], uint32_t i);

/**
 * An I/NAV word of a satellite, in the sub-frame at `time` (GST_SF). The fields of ALL satellites of a
 * half minute are lent before the words of ANY: a section is judged by words of earlier half minutes, so
 * a satellite of which a word of this half minute was lent has no usable set (outcome 3) for the
 * sections of it that come after, whoever sends them.
 *
 * Lent: the core; the 16 bytes of the word, which are read. Its type is bits 0 to 5.
 *
 * OSNMA_DONE          Types 1 to 5: the word replaces the satellite's word of its type, and the time
 *                     is noted for the word and for the satellite. Other types: the core stays.
 * OSNMA_OUT_OF_RANGE  The core stays. PRN not 1 to 36, `time` not the start of a sub-frame, or a word
 *                     4 whose SVID is not the PRN.
 * OSNMA_STOPPED       The core stays.
 * OSNMA_OUT_OF_ORDER  The core stays. Earlier than this satellite's last word of types 1 to 5.
 *
 * The checks go in this order.
 */
static inline enum osnma_answer osnma_word(struct osnma_core *core, uint8_t prn, uint32_t time,
                                           const uint8_t word[OSNMA_WORD]);

/**
 * The signature chip's verdict on the message that waits: 1 good, 0 bad. All that it names must be
 * what waits, the zeros after short parts too; what osnma_read_message gave is handed back as it is.
 *
 * Lent: the core; the 45 bytes of the message and the 132 of the signature, which are read.
 *
 * OSNMA_DONE          The wait ends. Status 3 in the message's header drops the chain in force, the
 *                     waiting tags and the candidates. Status 1 or 2 drops public keys of lower ID than
 *                     `key_id`; contents that are in force already change nothing more, others are put
 *                     in force: the held key begins again at their root, candidates stay only if the
 *                     chain is the same (CID, parameters, alpha), and waiting tags only if it is and
 *                     their key's sub-frame is not before the root's. Authentic sets stay.
 * OSNMA_OUT_OF_RANGE  The core stays. `good` above 1 or `key_id` above 15.
 * OSNMA_STOPPED       The core stays.
 * OSNMA_NOT_WAITING   The core stays. Nothing waits, or another key ID, message or signature.
 * OSNMA_VERDICT_BAD   The wait ends, nothing else changes.
 * OSNMA_NOT_IN_FORCE  The wait ends, nothing else changes. Status 0; status 3 with no chain in force or
 *                     another CID; status 1 or 2 with CIDKR other than CID.
 * OSNMA_NOT_NEWER     The wait ends, nothing else changes. A root earlier than the last put in force, or
 *                     of the same hour with other contents, or not later where that one was dropped.
 *
 * The checks go in this order.
 */
static inline enum osnma_answer osnma_verdict(struct osnma_core *core, uint8_t good, uint8_t key_id,
                                              const uint8_t message[OSNMA_MESSAGE],
                                              const uint8_t signature[OSNMA_SIGNATURE]);

/** The verdict on a message as osnma_read_message gave it: 1 good, 0 bad. Answers as osnma_verdict. */
static inline enum osnma_answer osnma_verdict_on(struct osnma_core *core,
                                                 const struct osnma_message *message, uint8_t good)
{
    return osnma_verdict(core, good, message->key_id, message->message, message->signature);
}

/**
 * A satellite's authentic set, its IODnav, and the GST_SF at which the latest of the tags came that agree
 * with it. A candidate is not given. A stopped core answers too.
 *
 * Lent: the core, which is read; the 69 bytes of the set, its IODnav and its time, which are written.
 *
 * OSNMA_DONE          All three are written.
 * OSNMA_OUT_OF_RANGE  The 69 bytes stay, IODnav and time are 0. PRN not 1 to 36.
 * OSNMA_NO_SET        The 69 bytes stay, IODnav and time are 0.
 */
static inline enum osnma_answer osnma_read_set(const struct osnma_core *core, uint8_t prn,
                                               uint8_t set[OSNMA_SET], uint16_t *iodnav,
                                               uint32_t *time);

/**
 * Whether at least four satellites have an authentic set that is not too old: 1 for yes, 0 for no. It
 * changes nothing, and every `limit` has an answer.
 *
 * Lent: the core, which is read.
 *
 * A satellite counts where it has an authentic set whose age is at most `limit` sub-frames of 30 seconds;
 * an age equal to `limit` counts. The age is the time from the set's tag, as osnma_read_set gives it, to
 * the last sub-frame that was noted, whichever satellite sent it; over the end of a week too. A tag that
 * came later than that, which no start leads to, has age 0.
 *   - A sub-frame is noted unless it is refused in both halves with OSNMA_WRONG_LENGTH,
 *     OSNMA_OUT_OF_RANGE, OSNMA_OUT_OF_ORDER or OSNMA_STOPPED: one is noted that is answered
 *     OSNMA_ALL_ZERO, OSNMA_FIELDS_MISSING or OSNMA_NOT_IN_FORCE, or whose section is refused, and so is
 *     the one that stops the core. A word is not.
 *   - Candidates never count.
 *   - Before the first sub-frame is noted the answer is no, and so it is after an accepted start.
 *   - A stopped core answers too, and its answer is no longer to be used: ask osnma_is_stopped first.
 *
 * Ask once a half minute, when the fields of ALL its satellites are lent: the first of them moves the
 * clock on, the tags of the others come after it.
 *
 * NO TIME PASSES BUT BY SUB-FRAMES THAT ARE NOTED. Under a roof, with the antenna's cable off or the
 * receiver hung up, no sub-frame comes; where an old buffer is lent again, each is refused with
 * OSNMA_OUT_OF_ORDER. The ages then stay as they are, and a yes stays a yes for hours. Who opens a valve by
 * this answer also watches a clock that the signal cannot set: he asks with the limit less the half minutes
 * since a sub-frame was last noted (lent, and not refused with 1 to 4 in both halves), and takes the answer
 * as no where those are more than the limit.
 */
static inline int osnma_four(const struct osnma_core *core, uint32_t limit);

/**
 * The message that waits for a verdict, with the public key to verify it under. It goes on waiting. A
 * stopped core answers too.
 *
 * Lent: the core, which is read; the message, which is written.
 *
 * OSNMA_DONE          All of it is written.
 * OSNMA_NOT_WAITING   Its byte strings stay, key ID and key type are 0.
 */
static inline enum osnma_answer osnma_read_message(const struct osnma_core *core,
                                                   struct osnma_message *message);

/**
 * How far along each message is: element i of `progress` has the number of blocks held of DSM ID i and,
 * once block 0 is held, the number still missing. It changes nothing, and every core has an answer. A
 * stopped core answers too.
 *
 * Lent: the core, which is read; the sixteen elements, all of which are written.
 *
 * DSM IDs 0 to 11 are those of DSM-KROOTs, 12 to 15 those of DSM-PKRs. What counts is what the core holds
 * at this moment:
 *   - A total is 7 to 16 blocks, and block 0 alone names it. Without block 0 `missing` is
 *     OSNMA_UNKNOWN_TOTAL, also where no block is held.
 *   - A complete message is taken out, whatever the sub-frame that completed it is then answered: its
 *     DSM ID has no block and an unknown total again. So at least one is missing where the total is known.
 *   - Blocks over 3,600 seconds old count until the next one of their DSM ID is held, which drops them.
 *   - A block that is refused with OSNMA_BLOCK_UNFIT or OSNMA_FIELDS_MISSING is not held.
 *   - After an accepted start no block is held.
 */
static inline void osnma_progress(const struct osnma_core *core,
                                  struct osnma_dsm_progress progress[OSNMA_DSM_IDS]);

/* ---- the same calls over single regions */

/**
 * What the library exports, and what the calls above use. Nobody else needs them but a caller who keeps
 * the regions apart, as bindings for other languages do. A call is lent the regions that it reads or
 * writes, in the order of struct osnma_core, each a pointer and a count of elements; those that are not
 * const are written, and the other regions have no part in the call. Each returns its answer, but for a
 * sub-frame, which returns the count of records and writes the numbers of both halves. osnma_regions_four
 * answers OSNMA_DONE and writes what osnma_four gives to `yes`; osnma_regions_progress answers OSNMA_DONE
 * and writes sixteen pairs, held and missing, to the 32 bytes of `out`. Where a count is wrong the answer
 * is OSNMA_WRONG_LENGTH, in both halves, and all that is lent stays, but for IODnav and time, key ID and
 * key type, or `yes`, of a read, which are 0. The duties are those above: each pointer is aligned for its
 * type and good for its count, and what is not const overlaps nothing else that is lent.
 */
uint32_t osnma_regions_start(
    uint8_t *config, size_t config_count,
    uint32_t *clocks, size_t clocks_count,
    uint8_t *words, size_t words_count,
    uint32_t *stamps, size_t stamps_count,
    uint8_t *blocks, size_t blocks_count,
    uint8_t *headers, size_t headers_count,
    uint16_t *present, size_t present_count,
    uint32_t *since, size_t since_count,
    uint8_t *pubkeys, size_t pubkeys_count,
    uint8_t *offer, size_t offer_count,
    uint8_t *chain, size_t chain_count,
    uint64_t *numbers, size_t numbers_count,
    uint8_t *heldkey, size_t heldkey_count,
    uint8_t *waiting, size_t waiting_count,
    uint8_t *sets, size_t sets_count,
    uint32_t *arrivals, size_t arrivals_count,
    uint8_t ns, uint8_t id, uint8_t kind, uint8_t maclt,
    const uint8_t *marks, size_t marks_count,
    const uint8_t *root, size_t root_count,
    const uint8_t *pubkey, size_t pubkey_count);

uint32_t osnma_regions_word(
    const uint8_t *config, size_t config_count,
    uint32_t *clocks, size_t clocks_count,
    uint8_t *words, size_t words_count,
    uint32_t *stamps, size_t stamps_count,
    uint8_t prn, uint32_t time,
    const uint8_t *bytes, size_t bytes_count);

uint32_t osnma_regions_subframe(
    uint8_t *config, size_t config_count,
    uint32_t *clocks, size_t clocks_count,
    const uint8_t *words, size_t words_count,
    const uint32_t *stamps, size_t stamps_count,
    uint8_t *blocks, size_t blocks_count,
    uint8_t *headers, size_t headers_count,
    uint16_t *present, size_t present_count,
    uint32_t *since, size_t since_count,
    uint8_t *pubkeys, size_t pubkeys_count,
    uint8_t *offer, size_t offer_count,
    const uint8_t *chain, size_t chain_count,
    uint64_t *numbers, size_t numbers_count,
    uint8_t *heldkey, size_t heldkey_count,
    uint8_t *waiting, size_t waiting_count,
    uint8_t *sets, size_t sets_count,
    uint32_t *arrivals, size_t arrivals_count,
    uint8_t *area, size_t area_count,
    uint8_t prn, uint32_t time, uint16_t marks,
    const uint8_t *bytes, size_t bytes_count,
    uint32_t *hkroot, uint32_t *mack);

uint32_t osnma_regions_verdict(
    const uint8_t *config, size_t config_count,
    uint8_t *pubkeys, size_t pubkeys_count,
    uint8_t *offer, size_t offer_count,
    uint8_t *chain, size_t chain_count,
    uint64_t *numbers, size_t numbers_count,
    uint8_t *heldkey, size_t heldkey_count,
    uint8_t *waiting, size_t waiting_count,
    uint32_t *arrivals, size_t arrivals_count,
    uint8_t good, uint8_t id,
    const uint8_t *message, size_t message_count,
    const uint8_t *signature, size_t signature_count);

uint32_t osnma_regions_read_set(
    const uint8_t *sets, size_t sets_count,
    const uint32_t *arrivals, size_t arrivals_count,
    uint8_t prn,
    uint8_t *out, size_t out_count,
    uint16_t *issue, uint32_t *time);

uint32_t osnma_regions_four(
    const uint32_t *clocks, size_t clocks_count,
    const uint32_t *arrivals, size_t arrivals_count,
    uint32_t limit,
    uint8_t *yes);

uint32_t osnma_regions_read_message(
    const uint8_t *pubkeys, size_t pubkeys_count,
    const uint8_t *offer, size_t offer_count,
    uint8_t *message, size_t message_count,
    uint8_t *signature, size_t signature_count,
    uint8_t *pubkey, size_t pubkey_count,
    uint8_t *id, uint8_t *kind);

uint32_t osnma_regions_progress(
    const uint8_t *blocks, size_t blocks_count,
    const uint16_t *present, size_t present_count,
    uint8_t *out, size_t out_count);

/* ---- the calls over a core, by those over its regions */

#define OSNMA_REGIONS_OF(core)                                                                     \
    (core)->config, OSNMA_CONFIG_COUNT, (core)->clocks, OSNMA_CLOCKS_COUNT,                        \
    (core)->words, OSNMA_WORDS_COUNT, (core)->stamps, OSNMA_STAMPS_COUNT,                          \
    (core)->blocks, OSNMA_BLOCKS_COUNT, (core)->headers, OSNMA_HEADERS_COUNT,                      \
    (core)->present, OSNMA_PRESENT_COUNT, (core)->since, OSNMA_SINCE_COUNT,                        \
    (core)->pubkeys, OSNMA_PUBKEYS_COUNT, (core)->offer, OSNMA_OFFER_COUNT,                        \
    (core)->chain, OSNMA_CHAIN_COUNT, (core)->numbers, OSNMA_NUMBERS_COUNT,                        \
    (core)->heldkey, OSNMA_HELDKEY_COUNT, (core)->waiting, OSNMA_WAITING_COUNT,                    \
    (core)->sets, OSNMA_SETS_COUNT, (core)->arrivals, OSNMA_ARRIVALS_COUNT

static inline enum osnma_answer osnma_start(struct osnma_core *core,
                                            const struct osnma_settings *settings)
{
    if (OSNMA_LAYOUT_EXPORT() != OSNMA_LAYOUT)
        return OSNMA_WRONG_LENGTH;
    return (enum osnma_answer)osnma_regions_start(
        OSNMA_REGIONS_OF(core), settings->ns, settings->key_id, settings->key_type, settings->maclt,
        settings->marks, OSNMA_MARKS, settings->tree_root, OSNMA_TREE_ROOT, settings->key, OSNMA_KEY);
}

static inline struct osnma_halves osnma_subframe_marked(struct osnma_core *core, uint8_t prn,
                                                        uint32_t time, uint16_t marks,
                                                        const uint8_t fields[OSNMA_FIELDS],
                                                        uint8_t records[OSNMA_RECORDS])
{
    struct osnma_halves answer;
    uint32_t hkroot, mack;
    answer.records = osnma_regions_subframe(OSNMA_REGIONS_OF(core), records, OSNMA_RECORDS, prn, time,
                                            marks, fields, OSNMA_FIELDS, &hkroot, &mack);
    answer.hkroot = (enum osnma_answer)hkroot;
    answer.mack = (enum osnma_answer)mack;
    return answer;
}

static inline struct osnma_halves osnma_subframe(struct osnma_core *core, uint8_t prn, uint32_t time,
                                                 const uint8_t fields[OSNMA_FIELDS],
                                                 uint8_t records[OSNMA_RECORDS])
{
    return osnma_subframe_marked(core, prn, time, OSNMA_ALL_RECEIVED, fields, records);
}

static inline struct osnma_tag_record osnma_record(const uint8_t records[OSNMA_RECORDS], uint32_t i)
{
    static const uint8_t none[OSNMA_RECORD] = {0};
    const uint8_t *at = i < OSNMA_RECORDS / OSNMA_RECORD ? records + OSNMA_RECORD * i : none;
    struct osnma_tag_record record;
    record.outcome = (enum osnma_outcome)at[0];
    record.sender = at[1];
    record.prn = at[2];
    record.adkd = at[3];
    record.block = at[4];
    record.position = at[5];
    record.iodnav = (uint16_t)(at[6] << 8 | at[7]);
    record.time = (uint32_t)at[8] << 24 | (uint32_t)at[9] << 16 | (uint32_t)at[10] << 8 | at[11];
    return record;
}

static inline enum osnma_answer osnma_word(struct osnma_core *core, uint8_t prn, uint32_t time,
                                           const uint8_t word[OSNMA_WORD])
{
    return (enum osnma_answer)osnma_regions_word(
        core->config, OSNMA_CONFIG_COUNT, core->clocks, OSNMA_CLOCKS_COUNT, core->words,
        OSNMA_WORDS_COUNT, core->stamps, OSNMA_STAMPS_COUNT, prn, time, word, OSNMA_WORD);
}

static inline enum osnma_answer osnma_verdict(struct osnma_core *core, uint8_t good, uint8_t key_id,
                                              const uint8_t message[OSNMA_MESSAGE],
                                              const uint8_t signature[OSNMA_SIGNATURE])
{
    return (enum osnma_answer)osnma_regions_verdict(
        core->config, OSNMA_CONFIG_COUNT, core->pubkeys, OSNMA_PUBKEYS_COUNT, core->offer,
        OSNMA_OFFER_COUNT, core->chain, OSNMA_CHAIN_COUNT, core->numbers, OSNMA_NUMBERS_COUNT,
        core->heldkey, OSNMA_HELDKEY_COUNT, core->waiting, OSNMA_WAITING_COUNT, core->arrivals,
        OSNMA_ARRIVALS_COUNT, good, key_id, message, OSNMA_MESSAGE, signature, OSNMA_SIGNATURE);
}

static inline enum osnma_answer osnma_read_set(const struct osnma_core *core, uint8_t prn,
                                               uint8_t set[OSNMA_SET], uint16_t *iodnav,
                                               uint32_t *time)
{
    return (enum osnma_answer)osnma_regions_read_set(core->sets, OSNMA_SETS_COUNT, core->arrivals,
                                                     OSNMA_ARRIVALS_COUNT, prn, set, OSNMA_SET,
                                                     iodnav, time);
}

static inline int osnma_four(const struct osnma_core *core, uint32_t limit)
{
    uint8_t yes;
    osnma_regions_four(core->clocks, OSNMA_CLOCKS_COUNT, core->arrivals, OSNMA_ARRIVALS_COUNT, limit,
                       &yes);
    return yes;
}

static inline enum osnma_answer osnma_read_message(const struct osnma_core *core,
                                                   struct osnma_message *message)
{
    return (enum osnma_answer)osnma_regions_read_message(
        core->pubkeys, OSNMA_PUBKEYS_COUNT, core->offer, OSNMA_OFFER_COUNT, message->message,
        OSNMA_MESSAGE, message->signature, OSNMA_SIGNATURE, message->key, OSNMA_KEY, &message->key_id,
        &message->key_type);
}

static inline void osnma_progress(const struct osnma_core *core,
                                  struct osnma_dsm_progress progress[OSNMA_DSM_IDS])
{
    uint8_t pairs[2u * OSNMA_DSM_IDS];
    uint32_t id;
    osnma_regions_progress(core->blocks, OSNMA_BLOCKS_COUNT, core->present, OSNMA_PRESENT_COUNT, pairs,
                           sizeof pairs);
    for (id = 0; id < OSNMA_DSM_IDS; id++) {
        progress[id].held = pairs[2u * id];
        progress[id].missing = pairs[2u * id + 1u];
    }
}

#undef OSNMA_REGIONS_OF

#ifdef __cplusplus
}
#endif

#endif
