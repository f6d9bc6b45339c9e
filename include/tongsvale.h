/* Tongsvale 0.2.0: Chinese sentences into words. The calls of libtongsvale.a (tools/build tongsvale), for C11 and C++ on
 * x86-64.
 *
 * In short
 *
 *     TONGSVALE_STATIC_BOOK(book, 1, TONGSVALE_SLOTS(8), 3);    // room for 3 words of 8 characters together
 *     TONGSVALE_STATIC_WORK(work, 100, TONGSVALE_EDGES(100, 3), TONGSVALE_CUT_PLACES(100));    // sentences of 100 characters
 *     tongsvale_book_prepare(&book);
 *     tongsvale_book_load(&book, text, text_length);            // lines of a word and its frequency
 *     struct tongsvale_cut_result cut = tongsvale_book_cut(&book, sentence, sentence_length, &work);
 *     for (size_t i = 0; i < cut.count; i++) .. tongsvale_token_at(&work, i) ..
 *
 * Each call returns a number, which is to be tested: 0 is done. All text is UTF-8, and its lengths are in bytes.
 * examples/cut.c is a whole program; examples/bridge.c compares the words with what a guest may switch.
 *
 * What the caller lends
 *
 * The caller owns all memory. The library allocates nothing, keeps no pointer after it returns, has no state of its own, and
 * calls nothing but the C library's memset. It cannot test the following, and its proofs take it from the caller:
 *   - a pointer is not null and is aligned for its type, also where its length is 0 (only a text of length 0 may be at any
 *     pointer, null too, in the wrappers below);
 *   - it is valid for its length: every element may be read, and has been given some value;
 *   - an area that is written overlaps no other of the same call, and nothing else reads or writes it until the call returns;
 *     what is only read may overlap;
 *   - the processor's floating-point mode is that of a new program: round to nearest, no flush to zero.
 * Nothing else is asked. Lengths and contents of every kind, damaged books with them, are answered by a number.
 *
 * Threads: lookups and cuts only read the book, so several threads may cut with one book at once, each with a work area of
 * its own, while none prepares, loads or adds.
 *
 * Stack: a load took 4,952 bytes below the caller's frame, its arguments with them; 4,096 of these hold the table of
 * logarithms. Any other call took at most 760 (add 760, the cuts 712, lookup 392, cut_all 328, prepare 104). Keep 8,192 free
 * for a load and 2,048 for the other calls. This was measured on one build of the kit before today's, with a caller compiled
 * by gcc -O2 (by -O0 it was 5,048 and 968), and is not proved. Nothing in the library calls itself, so it does not grow with the input.
 *
 * Time: at each character of a sentence a cut follows the longest beginning of a stored word that stands there, with a probe
 * for each character of it: a few slots as a rule, all of them at worst. So it takes up to the sentence's characters times
 * that length in probes. Short words keep it linear; a book with very long words makes long sentences slow.
 *
 * Words
 *
 *   - A word that a cut finds has only Han characters, ASCII letters and digits, and + # & . _ % - in it; one that cut_all
 *     finds has only Han. Han is U+4E00..9FFF, 3400..4DBF, F900..FAFF, 20000..2A6DF, 2A700..2EE5F, 2F800..2FA1F and
 *     30000..323AF. A word with any other character, as a space, a full-width letter, a middle dot or the zero U+3007, is
 *     loaded and looked up like others, but a cut never finds it: the sentence is parted there first.
 *   - A cut also answers what is no word of the book: a character at which no word begins stands alone, and ASCII letters and
 *     digits that stand alone join with those beside them. So a word of one letter or digit may come joined, as 5 in 55.
 *   - Nothing is folded: upper and lower case, full width and compatibility forms are different characters.
 *   - A byte-order mark (U+FEFF) is no white space. It becomes part of the first word, which no cut then finds: strip it.
 *   - A line without a frequency gives its word the frequency 1. A list of bare words will do: all then count alike, and the
 *     fewest steps win, a step being a word or a character alone. Words with frequencies above 1 are likelier than bare ones.
 *   - Write 0 for a word that is to lose to every other. Where all frequencies are 0 the shortest word wins at each place.
 *   - Of several best ways through a block the one taken has the longer step at the first place where it parts from any other
 *     of them. Where every way takes a word of frequency 0, which makes them all alike, this need not be so.
 *   - Frequency 0 does not remove a word: it is held, and a cut answers it where no better way leads past it. No call removes
 *     a word; prepare the book again and load the others.
 *
 * A book
 *
 *   head           4 numbers: records used, slots used, next node, total of the frequencies
 *   roots          the root table: 1 to 65,536 entries, a link each
 *   slots          a power of two from 16 to 4,194,304, each two numbers: a key, and behind it a link
 *   records        1 to 1,048,576: a word's frequency in the lower 32 bits
 *   logarithms     as many as there are records
 * A link has a child in its lower 32 bits, and in the upper 32 the number of a word's record plus one; 0 there is no word. The
 * upper 32 bits of a record are kept for later: a new word has 0 there, a new frequency leaves them as they are, and nothing
 * else minds them. tongsvale_prepare makes a book empty; whoever changes its areas by hand afterwards may damage it.
 *
 * What a vocabulary needs: each word takes one record. Each character of a word takes a slot, unless another word that is held
 * begins with the same characters up to it; and a first character below the root table's length takes none. Slots are filled
 * to six eighths (TONGSVALE_SLOTS). The head says how many records and slots were used.
 *
 * The root table serves first characters by their code point, without a probe. One entry is enough, and takes least memory. Up
 * to 19,968 entries serve no character of the main Han block (U+4E00..9FFF), 40,960 serve all of it, and 65,536 the whole
 * Basic Multilingual Plane.
 *
 * A book holds no pointers. Its areas may be kept as bytes and lent again, with the same lengths, on the same kind of machine,
 * to a library of the same TONGSVALE_ABI. A book that was kept with another number, or before there was one, cannot be lent
 * again, since its bytes mean something else: load its vocabulary anew. Bytes of another number, or that changed meanwhile, do
 * no harm to memory, but they are met as 8 or taken for other words, so keep the number and a checksum beside them. A book in
 * read-only memory can be looked up and cut with: cast its const away.
 */
#ifndef TONGSVALE_H
#define TONGSVALE_H

#if !defined(__x86_64__) || defined(__ILP32__) || defined(_WIN32)
#error "libtongsvale.a is for x86-64 with 64-bit pointers and the System V calling convention"
#endif

#include <stddef.h>
#include <stdint.h>

#ifdef __cplusplus
extern "C" {
#endif

/* The version of this header; the archive has none, but the interface's number below. */
#define TONGSVALE_VERSION_MAJOR 0
#define TONGSVALE_VERSION_MINOR 2
#define TONGSVALE_VERSION_PATCH 0
#define TONGSVALE_VERSION "0.2.0"

/* ---- the interface's number
 *
 * It goes up with every change of an area, a token or a call. The archive defines a function that has the number in its name
 * and returns it, and all that includes this header refers to that function. So what was compiled with a header of another
 * number, and may lend areas that are too short, does not link: it has an undefined reference to tongsvale_abi_ with its own
 * number. What was compiled before 0.2.0 refers to no number and still links: compile it anew. */
#define TONGSVALE_ABI 2

#define TONGSVALE_ABI_PASTED(number) tongsvale_abi_##number
#define TONGSVALE_ABI_NAMED(number) TONGSVALE_ABI_PASTED(number)
#define TONGSVALE_ABI_FUNCTION TONGSVALE_ABI_NAMED(TONGSVALE_ABI)
uint32_t TONGSVALE_ABI_FUNCTION(void);

/* The reference. `used` keeps a compiler from dropping it, and `retain`, which gcc has from 11 on and clang from 13, a linker
 * with --gc-sections; with an older compiler and that option it is lost. Where the assembler does not know `retain` there would
 * be a warning. */
#if defined(__has_attribute)
#if __has_attribute(retain)
#define TONGSVALE_KEPT __attribute__((used, retain))
#endif
#endif
#ifndef TONGSVALE_KEPT
#define TONGSVALE_KEPT __attribute__((used))
#endif
#pragma GCC diagnostic push
#pragma GCC diagnostic ignored "-Wattributes"
static TONGSVALE_KEPT uint32_t (*const tongsvale_abi)(void) = TONGSVALE_ABI_FUNCTION;
#pragma GCC diagnostic pop

/* ---- limits */

#define TONGSVALE_MOST_ROOTS 65536
#define TONGSVALE_FEWEST_SLOTS 16
#define TONGSVALE_MOST_SLOTS 4194304
#define TONGSVALE_MOST_RECORDS 1048576
/* In bytes, of a dictionary, a word or a sentence. */
#define TONGSVALE_LONGEST_TEXT 16777215
/* Of one frequency, and of the total of all. */
#define TONGSVALE_GREATEST_TOTAL UINT32_C(4294967295)

#define TONGSVALE_HEAD_LENGTH 4
/* The numbers of a slot: a key and a link. */
#define TONGSVALE_SLOT_WIDTH 2
/* The numbers of a token: start and end in characters, then in bytes, then in UTF-16 code units. */
#define TONGSVALE_TOKEN_WIDTH 6

/* ---- sizes: constant where their arguments are; an argument may be evaluated more than once */

/* The slots of a book in which so many are to be taken, at most 3,145,728; 0, which no call accepts, where they are more. */
#define TONGSVALE_SLOTS(taken) \
    ((size_t)((taken) <= 12 ? 16 : (taken) <= 24 ? 32 : (taken) <= 48 ? 64 : (taken) <= 96 ? 128 : \
    (taken) <= 192 ? 256 : (taken) <= 384 ? 512 : (taken) <= 768 ? 1024 : (taken) <= 1536 ? 2048 : \
    (taken) <= 3072 ? 4096 : (taken) <= 6144 ? 8192 : (taken) <= 12288 ? 16384 : (taken) <= 24576 ? 32768 : \
    (taken) <= 49152 ? 65536 : (taken) <= 98304 ? 131072 : (taken) <= 196608 ? 262144 : (taken) <= 393216 ? 524288 : \
    (taken) <= 786432 ? 1048576 : (taken) <= 1572864 ? 2097152 : (taken) <= 3145728 ? 4194304 : 0))

/* Edge places that always suffice, where at most `nested` held words start at one place: 客, 客厅 and 客厅灯 are 3. The
 * characters of the longest word will always do for it. Needed is a place for each held word at each place where it starts in a
 * block, for the block that has the most; a block is a stretch of characters that words can have. */
#define TONGSVALE_EDGES(characters, nested) ((size_t)(characters) * (size_t)(nested))

/* Token places that always suffice: for cut, for search (7 thirds, rounded down), and for cut_all, which needs one for each
 * held word at each place where it starts and one for each token outside Han (`nested` as above, and at least 1). */
#define TONGSVALE_CUT_PLACES(characters) ((size_t)(characters))
#define TONGSVALE_SEARCH_PLACES(characters) ((size_t)(characters) * 7 / 3)
#define TONGSVALE_CUT_ALL_PLACES(characters, nested) ((size_t)(characters) * (size_t)(nested))

/* Bytes of a book: the head, 8 an entry of the root table, 16 a slot, 16 a record with its logarithm. */
#define TONGSVALE_BOOK_BYTES(roots, slots, records) \
    (32 + (size_t)(roots) * 8 + (size_t)(slots) * 16 + (size_t)(records) * 16)
/* Bytes of the work area of so many characters, of so many edge places, and of so many token places. cut_all needs only 12 of
 * each 36 bytes of the first, and no edge area. */
#define TONGSVALE_WORK_BYTES(characters) (((size_t)(characters) + 1) * 36)
#define TONGSVALE_EDGE_BYTES(edges) ((size_t)(edges) * 8)
#define TONGSVALE_TOKEN_BYTES(places) ((size_t)(places) * 24)

/* ---- what is returned */

enum tongsvale_outcome {
    TONGSVALE_DONE = 0,
    /* A part of the book outside its sizes, slots of an odd length, records and logarithms of unlike length, a token area that
     * is not a whole number of tokens, or no such mode; nothing is changed. */
    TONGSVALE_BAD_AREAS = 1,
    /* A text over 16,777,215 bytes; nothing is changed. */
    TONGSVALE_TOO_LONG = 2,
    /* Malformed UTF-8 (RFC 3629); nothing is changed, but a load keeps its earlier lines. */
    TONGSVALE_MALFORMED = 3,
    /* A frequency malformed or over 4,294,967,295; as 3. */
    TONGSVALE_BAD_FREQUENCY = 4,
    /* The total would pass 4,294,967,295, by a word without a frequency too, which adds 1; as 3. */
    TONGSVALE_TOTAL_TOO_LARGE = 5,
    /* A new word, and every record is taken; as 3. */
    TONGSVALE_RECORDS_FULL = 6,
    /* A new word, and the slots do not suffice; as 3. */
    TONGSVALE_SLOTS_FULL = 7,
    /* A damaged book met; as 3, and a cut keeps its earlier tokens. */
    TONGSVALE_DAMAGED = 8,
    /* A work area shorter than the sentence's characters + 1; nothing is changed. */
    TONGSVALE_WORK_TOO_SHORT = 9,
    /* A block of the sentence has more edges than the edge area; the tokens of earlier blocks stay. */
    TONGSVALE_EDGES_FULL = 10,
    /* More tokens than places; the first tokens are there, and all places are full. */
    TONGSVALE_TOKENS_FULL = 11
};

/* A returned number in words, for a log. */
static inline const char *tongsvale_outcome_text(uint32_t number) {
    switch (number) {
    case TONGSVALE_DONE: return "done";
    case TONGSVALE_BAD_AREAS: return "an area or a mode that is not allowed";
    case TONGSVALE_TOO_LONG: return "a text over 16,777,215 bytes";
    case TONGSVALE_MALFORMED: return "malformed UTF-8";
    case TONGSVALE_BAD_FREQUENCY: return "a frequency malformed or too large";
    case TONGSVALE_TOTAL_TOO_LARGE: return "the total of the frequencies too large";
    case TONGSVALE_RECORDS_FULL: return "every record taken";
    case TONGSVALE_SLOTS_FULL: return "too few slots left";
    case TONGSVALE_DAMAGED: return "a damaged book";
    case TONGSVALE_WORK_TOO_SHORT: return "a work area too short for the sentence";
    case TONGSVALE_EDGES_FULL: return "an edge area too short for the sentence";
    case TONGSVALE_TOKENS_FULL: return "more tokens than places";
    default: return "no number of this library";
    }
}

struct tongsvale_load_result {
    uint32_t number;
    size_t line; /* the refused line, from 1; 0 with 1 or 2; with 0 the lines read, blank ones counted */
};

struct tongsvale_add_result {
    uint32_t number;
    uint64_t frequency; /* the frequency given; 0 where the word is refused or empty */
};

struct tongsvale_lookup_result {
    uint32_t number;
    uint32_t held; /* 1: the word is held; 0: it is absent, or the lookup was refused */
    uint32_t frequency; /* 0 where held is 0 */
};

struct tongsvale_cut_result {
    uint32_t number;
    size_t count; /* the tokens written */
};

/* A token: its start and its end (the place after it) in the sentence, counted in characters, in bytes, and in UTF-16 code
 * units. A character from U+10000 on is two units, any other is one: so a browser counts, whose strings are UTF-16. */
struct tongsvale_token {
    uint32_t char_start, char_end;
    uint32_t byte_start, byte_end;
    uint32_t utf16_start, utf16_end;
};

/* ---- what is lent */

/* A book. Fill it with areas of your own, or declare it by TONGSVALE_STATIC_BOOK. */
struct tongsvale_book {
    uint64_t *head; /* TONGSVALE_HEAD_LENGTH */
    size_t root_count;
    uint64_t *roots;
    size_t slot_count;
    uint64_t *slots; /* TONGSVALE_SLOT_WIDTH for each slot */
    size_t record_count;
    uint64_t *records;
    double *logarithms; /* one for each record */
};

/* What a cut works in and writes its tokens to; lengths are in elements. What it holds at first plays no part; afterwards the
 * tokens alone have a meaning. cut_all takes chars, offsets and tokens, and asks nothing of the others. */
struct tongsvale_work {
    size_t work_length; /* at least the sentence's characters + 1 */
    uint32_t *chars;
    uint64_t *offsets; /* in bytes the lower 32 bits, in UTF-16 code units the upper */
    size_t *starts; /* places in the edge area */
    double *scores;
    uint32_t *ends;
    uint32_t *route_records;
    size_t edge_length; /* TONGSVALE_EDGES */
    uint32_t *edge_ends;
    uint32_t *edge_records;
    size_t token_length; /* TONGSVALE_TOKEN_WIDTH for each place */
    uint32_t *tokens;
};

/* Declares a book of this name with static areas, which are called name_head, name_roots and so on. */
#define TONGSVALE_STATIC_BOOK(name, roots, slots, records) \
    static uint64_t name##_head[TONGSVALE_HEAD_LENGTH]; \
    static uint64_t name##_roots[roots]; \
    static uint64_t name##_slots[(slots) * TONGSVALE_SLOT_WIDTH]; \
    static uint64_t name##_records[records]; \
    static double name##_logarithms[records]; \
    static struct tongsvale_book name = { \
        name##_head, (roots), name##_roots, (slots), name##_slots, (records), name##_records, name##_logarithms }

/* The same for the work area of sentences of up to so many characters, with so many edges and token places. */
#define TONGSVALE_STATIC_WORK(name, characters, edges, places) \
    static uint32_t name##_chars[(characters) + 1]; \
    static uint64_t name##_offsets[(characters) + 1]; \
    static size_t name##_starts[(characters) + 1]; \
    static double name##_scores[(characters) + 1]; \
    static uint32_t name##_ends[(characters) + 1]; \
    static uint32_t name##_route_records[(characters) + 1]; \
    static uint32_t name##_edge_ends[edges]; \
    static uint32_t name##_edge_records[edges]; \
    static uint32_t name##_tokens[(places) * TONGSVALE_TOKEN_WIDTH]; \
    static struct tongsvale_work name = { \
        (characters) + 1, name##_chars, name##_offsets, name##_starts, name##_scores, name##_ends, \
        name##_route_records, (edges), name##_edge_ends, name##_edge_records, (places) * TONGSVALE_TOKEN_WIDTH, name##_tokens }

/* The token i of the work area, which is below the count that the cut returned. */
static inline struct tongsvale_token tongsvale_token_at(const struct tongsvale_work *work, size_t i) {
    const uint32_t *numbers = work->tokens + i * TONGSVALE_TOKEN_WIDTH;
    struct tongsvale_token token = { numbers[0], numbers[1], numbers[2], numbers[3], numbers[4], numbers[5] };
    return token;
}

/* ---- the exported calls
 *
 * An area, here a slice, is two parameters, a pointer and a number of elements (not bytes). The wrappers at the end make these
 * calls with a struct tongsvale_book and a struct tongsvale_work; what is said here holds for them. */

/* Makes an empty book, whatever the areas held: all zeros, but for the next node, which is 1. Returns 0, or 1 with everything
 * unchanged. */
uint32_t tongsvale_prepare(
    uint64_t *head, size_t head_length,
    uint64_t *roots, size_t roots_length,
    uint64_t *slots, size_t slots_length,
    uint64_t *records, size_t records_length,
    double *logarithms, size_t logarithms_length);

/* Loads a dictionary text into the book. A line ends at LF or at the text's end, its fields are split at Unicode White_Space:
 * the word, its frequency (an optional + and digits; none means 1), and more that is ignored. A held word gets the new
 * frequency. Blank lines are passed over. The first refused line ends the load: it leaves no trace, and the lines before it
 * stay. Afterwards the areas hold the words that entered, and the head counts the records, slots and nodes that they took and
 * the new total. Numbers 0 to 8; 1 and 2 are tested first, then for each line 3, 4, 8, 5, 6, 7, and last the 8 of a book that
 * has fewer empty slots or nodes than it should. */
struct tongsvale_load_result tongsvale_load(
    uint64_t *head, size_t head_length,
    uint64_t *roots, size_t roots_length,
    uint64_t *slots, size_t slots_length,
    uint64_t *records, size_t records_length,
    double *logarithms, size_t logarithms_length,
    const uint8_t *text, size_t text_length);

/* Adds a word with its frequency, or gives a held word the new one; areas and head are as after a load. The word is all bytes
 * given, white space with them. An empty word returns 0 and frequency 0. An empty or a refused word changes nothing. Numbers 0
 * to 8, tested in the order 1, 2, 3, empty word, 4, 8, 5, 6, 7, and last 8 as in a load. */
struct tongsvale_add_result tongsvale_add(
    uint64_t *head, size_t head_length,
    uint64_t *roots, size_t roots_length,
    uint64_t *slots, size_t slots_length,
    uint64_t *records, size_t records_length,
    double *logarithms, size_t logarithms_length,
    const uint8_t *word, size_t word_length,
    uint64_t frequency);

/* The frequency of a word. Nothing is written. Numbers 0, 1, 2, 3 and 8, tested in the order 1, 2, 3, empty word (absent), 8. */
struct tongsvale_lookup_result tongsvale_lookup(
    const uint64_t *head, size_t head_length,
    const uint64_t *roots, size_t roots_length,
    const uint64_t *slots, size_t slots_length,
    const uint64_t *records, size_t records_length,
    const double *logarithms, size_t logarithms_length,
    const uint8_t *word, size_t word_length);

/* Cuts a sentence into words: the best route through each block.
 *
 *   work area      chars, offsets, starts, scores, ends, route_records: each at least the sentence's characters + 1; it
 *                  counts as its shortest slice
 *   edge area      edge_ends, edge_records: a place for each held word that starts anywhere in a block, for the block that
 *                  has the most (TONGSVALE_EDGES); it counts as its shortest slice
 *   token area     tokens: TONGSVALE_TOKEN_WIDTH numbers a token; as many tokens as the sentence has characters always suffice
 *
 * The book is only read. Afterwards the first count tokens of the token area are written, later places hold what they held.
 * What the work and edge areas hold at first plays no part, and they are left with no meaning; on 1, 2, 3, 9 and where the
 * head is damaged they are unchanged, and count is 0.
 * Numbers 0, 1, 2, 3, 8, 9, 10, 11: first 1, 2, 3, 9 and a damaged head's 8; then block by block 8 or 10, then 11. */
struct tongsvale_cut_result tongsvale_cut(
    const uint64_t *head, size_t head_length,
    const uint64_t *roots, size_t roots_length,
    const uint64_t *slots, size_t slots_length,
    const uint64_t *records, size_t records_length,
    const double *logarithms, size_t logarithms_length,
    const uint8_t *sentence, size_t sentence_length,
    uint32_t *chars, size_t chars_length,
    uint64_t *offsets, size_t offsets_length,
    size_t *starts, size_t starts_length,
    double *scores, size_t scores_length,
    uint32_t *ends, size_t ends_length,
    uint32_t *route_records, size_t route_records_length,
    uint32_t *edge_ends, size_t edge_ends_length,
    uint32_t *edge_records, size_t edge_records_length,
    uint32_t *tokens, size_t tokens_length);

/* Cuts a sentence into words as tongsvale_cut, and writes before each word what search finds in it: if it has . _ or -, its
 * parts between them of at least 2 bytes with an ASCII letter; if it is over 2 characters, the held words of 2 characters in
 * it; if over 3, those of 3. Areas and numbers are those of tongsvale_cut, but for the token area: 7 thirds of the sentence's
 * characters, rounded down, always suffice. 11 may come in the middle of a word's parts and words. */
struct tongsvale_cut_result tongsvale_cut_for_search(
    const uint64_t *head, size_t head_length,
    const uint64_t *roots, size_t roots_length,
    const uint64_t *slots, size_t slots_length,
    const uint64_t *records, size_t records_length,
    const double *logarithms, size_t logarithms_length,
    const uint8_t *sentence, size_t sentence_length,
    uint32_t *chars, size_t chars_length,
    uint64_t *offsets, size_t offsets_length,
    size_t *starts, size_t starts_length,
    double *scores, size_t scores_length,
    uint32_t *ends, size_t ends_length,
    uint32_t *route_records, size_t route_records_length,
    uint32_t *edge_ends, size_t edge_ends_length,
    uint32_t *edge_records, size_t edge_records_length,
    uint32_t *tokens, size_t tokens_length);

/* The modes of tongsvale_tokenize. */
#define TONGSVALE_DEFAULT 0
#define TONGSVALE_SEARCH 1

/* Cuts a sentence into words by a mode: TONGSVALE_DEFAULT is tongsvale_cut, TONGSVALE_SEARCH is tongsvale_cut_for_search, and
 * any other number is answered with 1, count 0 and nothing changed. */
struct tongsvale_cut_result tongsvale_tokenize(
    const uint64_t *head, size_t head_length,
    const uint64_t *roots, size_t roots_length,
    const uint64_t *slots, size_t slots_length,
    const uint64_t *records, size_t records_length,
    const double *logarithms, size_t logarithms_length,
    const uint8_t *sentence, size_t sentence_length,
    uint32_t mode,
    uint32_t *chars, size_t chars_length,
    uint64_t *offsets, size_t offsets_length,
    size_t *starts, size_t starts_length,
    double *scores, size_t scores_length,
    uint32_t *ends, size_t ends_length,
    uint32_t *route_records, size_t route_records_length,
    uint32_t *edge_ends, size_t edge_ends_length,
    uint32_t *edge_records, size_t edge_records_length,
    uint32_t *tokens, size_t tokens_length);

/* Cuts a sentence into all the words that it holds, in the order of their starts and then of their ends. As tongsvale_cut,
 * with a work area of two slices and no edge area, so without 10; tokens are written as they are met.
 *
 * The token area needs a place for each held word at each place of the sentence's Han blocks where it starts, and for each
 * token between these blocks, which are at most as many as the characters there. Held words overlap, so this may be more than
 * the sentence's characters: with 打, 打开, 开, 客厅, 客厅灯, 厅灯 and 灯 held, the 5 characters of 打开客厅灯 need 7 places. */
struct tongsvale_cut_result tongsvale_cut_all(
    const uint64_t *head, size_t head_length,
    const uint64_t *roots, size_t roots_length,
    const uint64_t *slots, size_t slots_length,
    const uint64_t *records, size_t records_length,
    const double *logarithms, size_t logarithms_length,
    const uint8_t *sentence, size_t sentence_length,
    uint32_t *chars, size_t chars_length,
    uint64_t *offsets, size_t offsets_length,
    uint32_t *tokens, size_t tokens_length);

/* ---- the wrappers */

/* The length of so many slots; 1, which no call accepts, where they are too many. */
static inline size_t tongsvale_slots_length(size_t slots) {
    return slots <= TONGSVALE_MOST_SLOTS ? slots * TONGSVALE_SLOT_WIDTH : 1;
}

/* The areas of a book, and of the work on a sentence, as an export takes them. */
#define TONGSVALE_BOOK_AREAS(book) \
    (book)->head, TONGSVALE_HEAD_LENGTH, (book)->roots, (book)->root_count, \
    (book)->slots, tongsvale_slots_length((book)->slot_count), \
    (book)->records, (book)->record_count, (book)->logarithms, (book)->record_count
#define TONGSVALE_WORK_AREAS(work) \
    (work)->chars, (work)->work_length, (work)->offsets, (work)->work_length, (work)->starts, (work)->work_length, \
    (work)->scores, (work)->work_length, (work)->ends, (work)->work_length, (work)->route_records, (work)->work_length, \
    (work)->edge_ends, (work)->edge_length, (work)->edge_records, (work)->edge_length, (work)->tokens, (work)->token_length

/* A text as bytes; an empty one may be at any pointer, null too. */
static inline const uint8_t *tongsvale_bytes(const char *text, size_t length) {
    return (const uint8_t *)(length == 0 ? "" : text);
}

static inline uint32_t tongsvale_book_prepare(struct tongsvale_book *book) {
    return tongsvale_prepare(TONGSVALE_BOOK_AREAS(book));
}

static inline struct tongsvale_load_result tongsvale_book_load(struct tongsvale_book *book, const char *text, size_t length) {
    return tongsvale_load(TONGSVALE_BOOK_AREAS(book), tongsvale_bytes(text, length), length);
}

static inline struct tongsvale_add_result tongsvale_book_add(
    struct tongsvale_book *book, const char *word, size_t length, uint64_t frequency) {
    return tongsvale_add(TONGSVALE_BOOK_AREAS(book), tongsvale_bytes(word, length), length, frequency);
}

static inline struct tongsvale_lookup_result tongsvale_book_lookup(
    const struct tongsvale_book *book, const char *word, size_t length) {
    return tongsvale_lookup(TONGSVALE_BOOK_AREAS(book), tongsvale_bytes(word, length), length);
}

static inline struct tongsvale_cut_result tongsvale_book_cut(
    const struct tongsvale_book *book, const char *sentence, size_t length, struct tongsvale_work *work) {
    return tongsvale_cut(TONGSVALE_BOOK_AREAS(book), tongsvale_bytes(sentence, length), length, TONGSVALE_WORK_AREAS(work));
}

static inline struct tongsvale_cut_result tongsvale_book_cut_for_search(
    const struct tongsvale_book *book, const char *sentence, size_t length, struct tongsvale_work *work) {
    return tongsvale_cut_for_search(
        TONGSVALE_BOOK_AREAS(book), tongsvale_bytes(sentence, length), length, TONGSVALE_WORK_AREAS(work));
}

static inline struct tongsvale_cut_result tongsvale_book_tokenize(
    const struct tongsvale_book *book, const char *sentence, size_t length, uint32_t mode, struct tongsvale_work *work) {
    return tongsvale_tokenize(
        TONGSVALE_BOOK_AREAS(book), tongsvale_bytes(sentence, length), length, mode, TONGSVALE_WORK_AREAS(work));
}

static inline struct tongsvale_cut_result tongsvale_book_cut_all(
    const struct tongsvale_book *book, const char *sentence, size_t length, struct tongsvale_work *work) {
    return tongsvale_cut_all(
        TONGSVALE_BOOK_AREAS(book), tongsvale_bytes(sentence, length), length, work->chars, work->work_length,
        work->offsets, work->work_length, work->tokens, work->token_length);
}

#ifdef __cplusplus
}
#endif

#endif
