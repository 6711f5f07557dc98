/*
 * summerbugle.h: the link engine of the bolt-tension hubs, for C and C++ hosts.
 *
 * The host lends every table; the engine keeps nothing between calls and allocates nothing. A table is a pointer and a count of
 * ELEMENTS: bytes of the links, the numbers and an image, 16-bit entries of the order, the answer and the table of links, nodes of
 * the node list.
 *
 *   links    64 bytes a radio: radio b is a neighbour of a when bit b % 8 of byte b / 8 of row a is set
 *   numbers  1 byte a radio: its core number
 *   order    n entries: a k-order of the radios
 *   answer   at least n entries: a list of radios is ascending and fills the first entries; later entries keep their content
 *   table    at least 2 * n entries: a list of links, two entries each, fills the first ones; later entries keep their content
 *   list     a list of links that a batch reads, two entries each
 *   heard    64 bytes a radio, in the shape of the links: bit b of row a is set when a hears b
 *   one_sided  64 bytes a radio, in the shape of the links: bit b of row a is set when a hears b and b does not hear a
 *
 * Every call checks its tables itself. A refused call answers the number of the first question that got "no" (sb_refusal),
 * zeros beside it, and changes no byte of any table; one refusal alone stands beside a change and a count, that of a link in a batch
 * (sb_link_batch). A call with number 0 was carried out.
 *
 * What C cannot check, and the proofs assume: a pointer is not NULL, is aligned, and is good for its count of elements; a table
 * that a call writes overlaps no other table of the call; calls on the same tables do not run at the same time.
 *
 * A table of length 0 is never read or written, so its pointer may be NULL (tested, not proved): an empty list of sb_link_batch,
 * sb_commit_up and sb_commit_down is taken, and every other table of length 0 is refused.
 *
 * "At worst" is the most instructions that a call is known to take, at 512 radios: counted on x86-64, in the archive as its compiler makes
 * it (clang 22.1 at -O3). The inputs were looked for and are not proved to be the worst, so a watchdog needs room beside them.
 * docs/BENCHMARKS.md has them, and how each call grows.
 *
 * summerbugle_site.h has the same calls with fewer arguments.
 */
#ifndef SUMMERBUGLE_H
#define SUMMERBUGLE_H

#include <stddef.h>
#include <stdint.h>

#ifdef __cplusplus
extern "C" {
#endif

/* The version of the calls and of what they are lent: it goes up where a host that was written for the one before would notice. */
#define SB_VERSION 1u

/* The limits of a site. */
#define SB_RADIOS 512u
#define SB_NEIGHBOURS 40u
#define SB_ROW_BYTES 64u
/* The name and the parent of the shell tree's root. */
#define SB_ROOT 65535u
/* In place of a radio: no later neighbour. */
#define SB_NOBODY 65535u
/* The bytes of a block of an image, of its payload, and of the longest image, which has 86 blocks. */
#define SB_BLOCK_BYTES 512u
#define SB_PAYLOAD_BYTES 504u
#define SB_IMAGE_BYTES 44032u
/* The bytes of a line of the site sheet, which has 8 radios and a line feed. The longest sheet has 64 lines. */
#define SB_PAGE_LINE 65u
/* The bytes of the longest script: line 1 and 10,240 links. */
#define SB_SCRIPT_BYTES 112651u
/* A store of named marks: 8 places, each a name, an image of at most 86 blocks and zeros to its end. */
#define SB_MARKS 8u
#define SB_NAME_BYTES 8u
#define SB_PLACE_BYTES 44040u
#define SB_STORE_BYTES 352320u

/*
 * What to lend for n radios, 1 to 512, in elements; each is a constant where n is. Links, numbers and order have exactly that length, and so
 * have a heard table and a one-sided one, which are as long as the links; the others may be longer.
 */
#define SB_LINKS_FOR(n) (SB_ROW_BYTES * (n))
#define SB_NUMBERS_FOR(n) (n)
#define SB_ORDER_FOR(n) (n)
#define SB_ANSWER_FOR(n) (n)
#define SB_NODES_FOR(n) ((n) + 1u)
#define SB_STAIRCASE_FOR(n) (2u * (n))
#define SB_PAGE_FOR(n) (((n) + 7u) / 8u * SB_PAGE_LINE)
/* The most links that n radios can have, and room for every image and every script of n radios. */
#define SB_MOST_LINKS(n) ((n) <= SB_NEIGHBOURS ? (n) * ((n) - 1u) / 2u : (n) * SB_NEIGHBOURS / 2u)
#define SB_IMAGE_FOR(n) ((1u + ((n) + 251u) / 252u + (SB_MOST_LINKS(n) + 125u) / 126u) * SB_BLOCK_BYTES)
#define SB_SCRIPT_FOR(n) (8u + SB_DIGITS(n) + SB_MOST_LINKS(n) * (5u + 2u * SB_DIGITS((n) - 1u)))
#define SB_DIGITS(x) ((x) < 10u ? 1u : (x) < 100u ? 2u : 3u)

/* The refusal numbers: the first question that got "no". */
enum sb_refusal {
    SB_OK = 0,          /* accepted */
    SB_SIZE = 1,        /* n is not from 1 to 512 */
    SB_LENGTH = 2,      /* a table has another length */
    SB_UNSOUND = 3,     /* the tables are not sound */
    SB_RADIO = 4,       /* a radio named is not below n */
    SB_SAME_ENDS = 5,   /* the ends of the link are the same radio */
    SB_LINK_STATE = 6,  /* going up: the link is up already; going down: it is down */
    SB_NO_ROOM = 7,     /* going up: an end has 40 neighbours; of a heard table: a radio has more than 40 agreed links */
    SB_LEVEL = 8,       /* the level is above the radio's number */
    SB_IMAGE_SIZE = 9,  /* the buffer does not hold the image; or the length is 0 or no multiple of 512 */
    SB_IMAGE_CHECK = 10, /* a block does not pass its check */
    SB_IMAGE = 11,      /* the bytes are the image of no sound tables */
    SB_PAGE = 12,       /* the page is shorter than 65 bytes a line */
    SB_TEXT = 13,       /* the text buffer is shorter than the script */
    SB_HEARD = 14,      /* a heard row marks its own radio or one at n or above */
    SB_OTHER_SIZE = 15, /* the bytes are the image of sound tables with another n */
    SB_PROPOSAL = 16,   /* the list or the step is not exactly what asking would give now */
    SB_MARK = 17,       /* a place of the store, or the name, breaks the rules */
    SB_NO_MARK = 18,    /* there is no mark of this name */
    SB_MARKS_FULL = 19, /* a new name finds 8 marks */
    SB_NO_LIFT = 20     /* no link would raise the radio's number */
};

/* A refusal number in words, those of the list above. Where it is not called it takes no room. */
static inline const char *sb_words(uint32_t number) {
    static const char *const words[] = {
        "accepted",
        "n is not from 1 to 512",
        "a table has another length",
        "the tables are not sound",
        "a radio named is not below n",
        "the ends of the link are the same radio",
        "going up: the link is up already; going down: it is down",
        "going up: an end has 40 neighbours; of a heard table: a radio has more than 40 agreed links",
        "the level is above the radio's number",
        "the buffer does not hold the image; or the length is 0 or no multiple of 512",
        "a block does not pass its check",
        "the bytes are the image of no sound tables",
        "the page is shorter than 65 bytes a line",
        "the text buffer is shorter than the script",
        "a heard row marks its own radio or one at n or above",
        "the bytes are the image of sound tables with another n",
        "the list or the step is not exactly what asking would give now",
        "a place of the store, or the name, breaks the rules",
        "there is no mark of this name",
        "a new name finds 8 marks",
        "no link would raise the radio's number",
    };
    return number < sizeof words / sizeof words[0] ? words[number] : "no refusal number";
}

/* The answer of a question: refusal number, and the value asked for (0 when refused). */
typedef struct {
    uint32_t number;
    uint32_t value;
} sb_value;

/* The answer of a link call: refusal number, step (+1, -1, or 0 when nothing changed), count of changed radios. */
typedef struct {
    uint32_t number;
    int8_t step;
    uint32_t count;
} sb_reply;

/* The later neighbours of a radio: refusal number, their count, and the first of them (zeros when refused). */
typedef struct {
    uint32_t number;
    uint32_t count;
    uint32_t first;
} sb_later;

/* A pair of radios, the lower one first (zeros when refused). */
typedef struct {
    uint32_t number;
    uint32_t low;
    uint32_t high;
} sb_pair;

/* A node of the shell tree: its name, its level and its parent's name. The root is SB_ROOT, 0, SB_ROOT. */
typedef struct {
    uint16_t name;
    uint16_t level;
    uint16_t parent;
} sb_node;

/*
 * A step of the block reader: refusal number; end, 1 after the last block; where the block's payload lies in the image, and its
 * length (both 0 at the end and on a refusal); and the number of the next block (kept at the end and on a refusal).
 */
typedef struct {
    uint32_t number;
    uint32_t end;
    size_t offset;
    size_t length;
    size_t next;
} sb_block;

/* The version of the archive: SB_VERSION of the header that was made with it. At worst 7 instructions. */
uint32_t sb_version(void);

/**
 * Clear a site: zero links, zero numbers, the order 0 to n - 1.
 *
 * At worst 2,210 instructions.
 *
 * \return 0; or SB_SIZE, SB_LENGTH, and then every table keeps its content.
 */
uint32_t sb_clear(uint32_t n, uint8_t *links, size_t links_len,
                  uint8_t *numbers, size_t numbers_len, uint16_t *order, size_t order_len);

/**
 * Check whether the tables are sound. They are only read.
 *
 * At worst 367,000 instructions.
 *
 * \return number 0 and value 1 (sound) or 0 (not sound); or number SB_SIZE, SB_LENGTH and value 0.
 */
sb_value sb_check(uint32_t n, const uint8_t *links, size_t links_len,
                  const uint8_t *numbers, size_t numbers_len, const uint16_t *order, size_t order_len);

/**
 * Take the link between a and b up.
 *
 * Changed radios are the ones whose core number rises, each by one. In the order only the stretch of the lower end's level
 * is laid out anew.
 *
 * At worst 637,000 instructions.
 *
 * \return number 0, step +1 (or 0 when no number changed) and count: answer[0] to answer[count - 1] are the changed radios,
 *         ascending; later entries keep theirs. Or a number from SB_SIZE to SB_NO_ROOM, step and count 0, and then every table
 *         keeps its content.
 */
sb_reply sb_link_up(uint32_t n, uint32_t a, uint32_t b, uint8_t *links, size_t links_len,
                    uint8_t *numbers, size_t numbers_len, uint16_t *order, size_t order_len,
                    uint16_t *answer, size_t answer_len);

/**
 * Take the link between a and b down: as sb_link_up, with numbers that fall by one.
 *
 * At worst 581,000 instructions.
 *
 * \return number 0, step -1 (or 0 when no number changed) and count, with the changed radios in the answer table. Or a number from
 *         SB_SIZE to SB_LINK_STATE, step and count 0, and then every table keeps its content.
 */
sb_reply sb_link_down(uint32_t n, uint32_t a, uint32_t b, uint8_t *links, size_t links_len,
                      uint8_t *numbers, size_t numbers_len, uint16_t *order, size_t order_len,
                      uint16_t *answer, size_t answer_len);

/**
 * Take up the links of a list, two entries each, one by one, and stop at the first that is refused. The links before it remain, and are
 * counted beside its number: the only refusal of this interface beside which a change and a count stand. The tables are checked once, so a
 * batch is quicker than its links one by one.
 *
 * At worst 145,000,000 instructions; a link of a batch 382,000 instructions.
 *
 * \return number 0 and value list_len / 2, the count of links done; or a number from SB_RADIO to SB_NO_ROOM, that of the link list[2 *
 *         value], list[2 * value + 1], and value the count of links before it, which are up; or SB_SIZE, SB_LENGTH (list_len may not be
 *         odd), SB_UNSOUND, before any link, value 0, and then every table keeps its content.
 */
sb_value sb_link_batch(uint32_t n, uint8_t *links, size_t links_len,
                       uint8_t *numbers, size_t numbers_len, uint16_t *order, size_t order_len,
                       const uint16_t *list, size_t list_len);

/**
 * Bring the site to the links that both ends hear, and mark the pairs of which one end alone hears the other.
 *
 * A link is agreed when each end hears the other. Links that are not agreed go down, by lower radio and then higher; then agreed links that
 * are down come up, likewise: links, numbers and order are what single calls in this turn leave. The tables are checked once. Every byte
 * of one_sided is written. A heard row may mark more than 40 radios; only agreed links are bounded. The heard table is only read.
 *
 * Where all links of a full site of 512 radios go down and as many others come up the call makes 20,480 links' work, which may take up to a
 * second; a call that changes no link takes about as long as sb_check.
 *
 * At worst 226,000,000 instructions.
 *
 * \return number 0 and value the count of one-sided pairs, which is that of bits set in one_sided; or SB_SIZE, SB_LENGTH (heard_len and
 *         one_sided_len are 64 * n, not more), SB_UNSOUND, SB_HEARD, SB_NO_ROOM, value 0, and then every table keeps its content.
 */
sb_value sb_hear(uint32_t n, uint8_t *links, size_t links_len,
                 uint8_t *numbers, size_t numbers_len, uint16_t *order, size_t order_len,
                 const uint8_t *heard, size_t heard_len, uint8_t *one_sided, size_t one_sided_len);

/**
 * Ask what sb_link_up would change now. Links, numbers and order are only read.
 *
 * The step and the first count entries of the answer table are a proposal for sb_commit_up. Nothing is kept between the two calls.
 *
 * At worst 637,000 instructions.
 *
 * \return what sb_link_up would: number 0, step +1 (or 0 when no number would change) and count: answer[0] to answer[count - 1] are
 *         the radios that would change, ascending; later entries keep theirs. Or a number from SB_SIZE to SB_NO_ROOM, step and count 0,
 *         and then the answer table keeps its content.
 */
sb_reply sb_ask_up(uint32_t n, uint32_t a, uint32_t b, const uint8_t *links, size_t links_len,
                   const uint8_t *numbers, size_t numbers_len, const uint16_t *order, size_t order_len,
                   uint16_t *answer, size_t answer_len);

/**
 * Ask what sb_link_down would change now: as sb_ask_up, with step -1, or 0 when no number would change. Refused by SB_SIZE to
 * SB_LINK_STATE.
 *
 * At worst 572,000 instructions.
 */
sb_reply sb_ask_down(uint32_t n, uint32_t a, uint32_t b, const uint8_t *links, size_t links_len,
                     const uint8_t *numbers, size_t numbers_len, const uint16_t *order, size_t order_len,
                     uint16_t *answer, size_t answer_len);

/**
 * Take the link between radios a and b up where step and list are exactly what sb_ask_up would give now, whoever made them and when.
 *
 * The list is lent at its own length, changed_len entries, and only read; it may be empty, and then changed is not read. No answer
 * table is lent.
 *
 * At worst 637,000 instructions.
 *
 * \return number 0, step and count as sb_link_up. Or a number from SB_SIZE to SB_NO_ROOM, then SB_PROPOSAL when the step or the list,
 *         its length or any entry, is another, also one at n or above; step and count are 0, and every table keeps its content.
 */
sb_reply sb_commit_up(uint32_t n, uint32_t a, uint32_t b, int8_t step, uint8_t *links, size_t links_len,
                      uint8_t *numbers, size_t numbers_len, uint16_t *order, size_t order_len,
                      const uint16_t *changed, size_t changed_len);

/**
 * Take the link between radios a and b down: as sb_commit_up, with what sb_ask_down would give now. Refused by SB_SIZE to SB_LINK_STATE
 * and SB_PROPOSAL.
 *
 * At worst 585,000 instructions.
 */
sb_reply sb_commit_down(uint32_t n, uint32_t a, uint32_t b, int8_t step, uint8_t *links, size_t links_len,
                        uint8_t *numbers, size_t numbers_len, uint16_t *order, size_t order_len,
                        const uint16_t *changed, size_t changed_len);

/**
 * The number of radio v. The tables are only read, here and in the next four calls.
 *
 * At worst 367,000 instructions.
 *
 * \return number 0 and the radio's number; or a number from SB_SIZE to SB_RADIO and value 0.
 */
sb_value sb_number(uint32_t n, uint32_t v, const uint8_t *links, size_t links_len,
                   const uint8_t *numbers, size_t numbers_len, const uint16_t *order, size_t order_len);

/**
 * How many neighbours radio v has.
 *
 * At worst 367,000 instructions.
 *
 * \return number 0 and the count, 0 to 40; or a number from SB_SIZE to SB_RADIO and value 0.
 */
sb_value sb_neighbours(uint32_t n, uint32_t v, const uint8_t *links, size_t links_len,
                       const uint8_t *numbers, size_t numbers_len, const uint16_t *order, size_t order_len);

/**
 * Whether the radios a and b are linked.
 *
 * At worst 367,000 instructions.
 *
 * \return number 0 and 1 (linked) or 0 (not; a radio with itself); or a number from SB_SIZE to SB_RADIO and value 0.
 */
sb_value sb_linked(uint32_t n, uint32_t a, uint32_t b, const uint8_t *links, size_t links_len,
                   const uint8_t *numbers, size_t numbers_len, const uint16_t *order, size_t order_len);

/**
 * Which of the radios a and b stands first in the order.
 *
 * At worst 369,000 instructions.
 *
 * \return number 0 and that radio (the same radio twice: it); or a number from SB_SIZE to SB_RADIO and value 0.
 */
sb_value sb_first(uint32_t n, uint32_t a, uint32_t b, const uint8_t *links, size_t links_len,
                  const uint8_t *numbers, size_t numbers_len, const uint16_t *order, size_t order_len);

/**
 * The neighbours of radio v that stand after it in the order: how many, and the first of them, through which v is woken.
 *
 * At worst 373,000 instructions.
 *
 * \return number 0, the count, at most the radio's number, and the first, SB_NOBODY when the count is 0; or a number from SB_SIZE to
 *         SB_RADIO, and zeros.
 */
sb_later sb_later_of(uint32_t n, uint32_t v, const uint8_t *links, size_t links_len,
                     const uint8_t *numbers, size_t numbers_len, const uint16_t *order, size_t order_len);

/**
 * One link that lifts radio v: the first pair, by lower radio and then higher, whose link is down, which sb_link_up would take up now, and
 * with which the number of v would be greater. It is advice: nothing is kept and nothing changes. A pair that raises other radios alone
 * does not count. The tables are only read. One call looks at up to n * (n - 1) / 2 pairs: at 512 radios it takes a fraction of a second
 * where nearly every pair must be looked at, and far less where one of the first does.
 *
 * At worst 213,000,000 instructions.
 *
 * \return number 0 and the pair, low below high; or a number from SB_SIZE to SB_RADIO, or SB_NO_LIFT exactly if there is no such pair,
 *         and zeros.
 */
sb_pair sb_lift(uint32_t n, uint32_t v, const uint8_t *links, size_t links_len,
                const uint8_t *numbers, size_t numbers_len, const uint16_t *order, size_t order_len);

/**
 * The connected core of radio v at level k: all radios reachable from v over radios with number k or more. At level 0 it is v's
 * connected part. Links, numbers and order are only read.
 *
 * At worst 391,000 instructions.
 *
 * \return number 0 and the count: answer[0] to answer[value - 1] are the radios, ascending; later entries keep theirs. Or a
 *         number (SB_SIZE to SB_RADIO, SB_LEVEL) and value 0, and then the answer table keeps its content.
 */
sb_value sb_core(uint32_t n, uint32_t v, uint32_t k, const uint8_t *links, size_t links_len,
                 const uint8_t *numbers, size_t numbers_len, const uint16_t *order, size_t order_len,
                 uint16_t *answer, size_t answer_len);

/**
 * The backbone: the radios whose number is the greatest in their own connected part and is not 0. Each part has its own; a radio
 * without links is in none. Links, numbers and order are only read.
 *
 * At worst 410,000 instructions.
 *
 * \return number 0 and the count: answer[0] to answer[value - 1] are the radios, ascending; later entries keep theirs. Or number
 *         SB_SIZE, SB_LENGTH, SB_UNSOUND and value 0, and then the answer table keeps its content.
 */
sb_value sb_backbone(uint32_t n, const uint8_t *links, size_t links_len,
                     const uint8_t *numbers, size_t numbers_len, const uint16_t *order, size_t order_len,
                     uint16_t *answer, size_t answer_len);

/**
 * The shell tree: one node for each different connected core from level 1 up, at the largest level where it occurs, and the root,
 * SB_ROOT at level 0. A node's name is its lowest radio of that number. The list must have n + 1 places. Links, numbers and order
 * are only read.
 *
 * At worst 1,110,000 instructions.
 *
 * \return number 0 and the count of nodes, root included: nodes[0] to nodes[value - 1] are the nodes, by level, then name; answer[v]
 *         is the name of radio v's node; later places and entries keep theirs. Or number SB_SIZE, SB_LENGTH, SB_UNSOUND and value
 *         0, and then node list and answer table keep their content.
 */
sb_value sb_tree(uint32_t n, const uint8_t *links, size_t links_len,
                 const uint8_t *numbers, size_t numbers_len, const uint16_t *order, size_t order_len,
                 sb_node *nodes, size_t nodes_len, uint16_t *answer, size_t answer_len);

/**
 * Print the site sheet in front of the page: all radios ascending along the lines, 8 to a line. A radio takes 8 columns: its number
 * in 3 columns right-aligned, a colon, its core number in 2 columns right-aligned, two spaces. The last line is filled with spaces,
 * and each line ends in a line feed: (n + 7) / 8 lines of SB_PAGE_LINE bytes. No zero byte is put after them. The tables are only read.
 *
 * At worst 403,000 instructions.
 *
 * \return number 0 and the sheet's length in bytes; bytes past it keep their content. Or a number (SB_SIZE, SB_LENGTH, SB_UNSOUND,
 *         SB_PAGE) and value 0, and then the page keeps its content.
 */
sb_value sb_sheet(uint32_t n, const uint8_t *links, size_t links_len,
                  const uint8_t *numbers, size_t numbers_len, const uint16_t *order, size_t order_len,
                  uint8_t *page, size_t page_len);

/**
 * The length in bytes of the script that rebuilds the site, without writing it. The tables are only read.
 *
 * At worst 611,000 instructions.
 *
 * \return number 0 and the length, at most SB_SCRIPT_BYTES; or a number (SB_SIZE, SB_LENGTH, SB_UNSOUND) and value 0.
 */
sb_value sb_script_length(uint32_t n, const uint8_t *links, size_t links_len,
                          const uint8_t *numbers, size_t numbers_len, const uint16_t *order, size_t order_len);

/**
 * Write the script that rebuilds the site in front of the text buffer: an event text of the replay program, the line `radios N` and then
 * one line `up A B` for each link, lower radio first, ascending by lower and then higher radio. Played back, no line is refused, and links
 * and numbers are those of the tables; the order may differ, since the script is another history. No zero byte is put after the text.
 * The tables are only read.
 *
 * At worst 1,210,000 instructions.
 *
 * \return number 0 and the script's length in bytes, which sb_script_length tells beforehand; bytes past it keep their content. Or a
 *         number (SB_SIZE, SB_LENGTH, SB_UNSOUND, SB_TEXT) and value 0, and then the text buffer keeps its content.
 */
sb_value sb_script_write(uint32_t n, const uint8_t *links, size_t links_len,
                         const uint8_t *numbers, size_t numbers_len, const uint16_t *order, size_t order_len,
                         uint8_t *text, size_t text_len);

/**
 * The staircase tree: the fewest links that still show how strongly any two radios hang together. A link's weight is the smaller of
 * its ends' numbers. Links are taken by weight falling, then lower radio, then higher radio rising, and one is kept when the kept ones
 * do not yet join its ends. There are fewer than n; no spanning forest weighs more, and between two radios the least weight along
 * the kept links is the greatest that any way has. The table must have 2 * n entries. Links, numbers and order are only read.
 *
 * At worst 713,000 instructions.
 *
 * \return number 0 and the count of kept links, in the order in which they are taken: link i is table[2 * i], the lower radio, and
 *         table[2 * i + 1]; later entries keep theirs. Or number SB_SIZE, SB_LENGTH, SB_UNSOUND and value 0, and then the table keeps
 *         its content.
 */
sb_value sb_staircase(uint32_t n, const uint8_t *links, size_t links_len,
                      const uint8_t *numbers, size_t numbers_len, const uint16_t *order, size_t order_len,
                      uint16_t *table, size_t table_len);

/**
 * Write the site's image in front of the buffer. The tables are only read.
 *
 * At worst 797,000 instructions.
 *
 * \return number 0 and the image's length in bytes, a multiple of SB_BLOCK_BYTES; bytes past it keep their content. Or a number
 *         (SB_SIZE, SB_LENGTH, SB_UNSOUND, SB_IMAGE_SIZE) and value 0, and then the buffer keeps its content.
 */
sb_value sb_image_write(uint32_t n, const uint8_t *links, size_t links_len,
                        const uint8_t *numbers, size_t numbers_len, const uint16_t *order, size_t order_len,
                        uint8_t *buffer, size_t buffer_len);

/**
 * Read an image of a site of n radios into the tables; the numbers are worked out. What the tables held does not matter.
 *
 * At worst 849,000 instructions.
 *
 * \return 0; or SB_SIZE, SB_LENGTH, SB_IMAGE_SIZE, SB_IMAGE_CHECK, then SB_OTHER_SIZE for the image of a site of another size,
 *         SB_IMAGE for the image of none, and then every table keeps its content.
 */
uint32_t sb_image_read(uint32_t n, uint8_t *links, size_t links_len,
                       uint8_t *numbers, size_t numbers_len, uint16_t *order, size_t order_len,
                       const uint8_t *image, size_t image_len);

/**
 * Set a mark: name the state of the tables so as to come back to it. A mark of that name is replaced. Links, numbers and order are only
 * read.
 *
 * The store is lent at SB_STORE_BYTES; one of zeros has no marks. It keeps the marks in rising order of name by bytes, no name twice,
 * used places first, and every call on marks checks each place. A name is SB_NAME_BYTES of A to Z and 0 to 9, at least one, then spaces;
 * it may not lie in the store.
 *
 * At worst 5,590,000 instructions.
 *
 * \return 0; every other mark is as it was, byte for byte. Or SB_SIZE, SB_LENGTH (the store's length too), SB_UNSOUND, SB_MARK (the
 *         name's length too), SB_MARKS_FULL, and then the store keeps its content.
 */
uint32_t sb_mark_set(uint32_t n, const uint8_t *links, size_t links_len,
                     const uint8_t *numbers, size_t numbers_len, const uint16_t *order, size_t order_len,
                     const uint8_t *name, size_t name_len, uint8_t *store, size_t store_len);

/**
 * Remove a mark: its place serves another. Links, numbers and order are only read.
 *
 * At worst 5,400,000 instructions.
 *
 * \return 0; every other mark is as it was, byte for byte. Or SB_SIZE, SB_LENGTH, SB_UNSOUND, SB_MARK, SB_NO_MARK, and then the store
 *         keeps its content.
 */
uint32_t sb_mark_remove(uint32_t n, const uint8_t *links, size_t links_len,
                        const uint8_t *numbers, size_t numbers_len, const uint16_t *order, size_t order_len,
                        const uint8_t *name, size_t name_len, uint8_t *store, size_t store_len);

/**
 * Come back to a mark: links, numbers and order are as they were when it was set. The store is only read. The tables must be sound; to
 * come back from tables that are not, read the image that stands SB_NAME_BYTES after the beginning of the mark's place.
 *
 * At worst 6,180,000 instructions.
 *
 * \return 0; or SB_SIZE, SB_LENGTH, SB_UNSOUND, SB_MARK, SB_NO_MARK, and then every table keeps its content.
 */
uint32_t sb_mark_return(uint32_t n, uint8_t *links, size_t links_len,
                        uint8_t *numbers, size_t numbers_len, uint16_t *order, size_t order_len,
                        const uint8_t *name, size_t name_len, const uint8_t *store, size_t store_len);

/**
 * A step of the block reader: start with next = 0, and go on with the next of the step before. Any value of next is safe.
 *
 * The length and the check of every block are tested at each step; whether the image is a site's is not.
 *
 * At worst 263,000 instructions.
 *
 * \return number 0 and a block, or end 1 after the last; or number SB_IMAGE_SIZE, SB_IMAGE_CHECK.
 */
sb_block sb_image_block(const uint8_t *image, size_t image_len, size_t next);

#ifdef __cplusplus
}
#endif
#endif
