/* A bridge: a guest types a sentence, it is cut into words, and each word that names a device is compared with what the guest
 * may switch. tools/library compiles and runs it. */
#include <stdio.h>
#include <string.h>
#include "tongsvale.h"

/* What the owner has typed in. All devices stand in one vocabulary, also those that no guest may switch: a name that is not
 * there would fall apart into shorter words, and one of these might be a name that a guest may use. Equal frequencies will do;
 * then the fewest words win. */
static const char vocabulary[] =
    "请 1\n打开 1\n关闭 1\n和 1\n"
    "客厅灯 1\n客厅灯带 1\n空调 1\n卧室电视 1\n";

static const struct device {
    const char *name;
    int for_guests;
} devices[] = {
    { "客厅灯", 1 }, { "客厅灯带", 0 }, { "空调", 1 }, { "卧室电视", 0 },
};
#define DEVICES (sizeof(devices) / sizeof(devices[0]))

/* Room for 200 words of 800 characters together, and for sentences of 100 characters with up to 4 words from one place on. */
TONGSVALE_STATIC_BOOK(book, 1, TONGSVALE_SLOTS(800), 200);
TONGSVALE_STATIC_WORK(work, 100, TONGSVALE_EDGES(100, 4), TONGSVALE_CUT_PLACES(100));

/* The device of this name, or none. The whole word is compared, never a part of it. */
static const struct device *find_device(const char *word, size_t length) {
    for (size_t i = 0; i < DEVICES; i++)
        if (strlen(devices[i].name) == length && memcmp(devices[i].name, word, length) == 0)
            return &devices[i];
    return NULL;
}

/* Prepares and loads the book. Only a name that is one word for the cut can be found, and so be refused. It is not one where its
 * line was forgotten, or where it has a character at which sentences are parted; so each name is cut before a guest comes. */
static int start(void) {
    if (tongsvale_book_prepare(&book) != TONGSVALE_DONE)
        return 1;
    struct tongsvale_load_result loaded = tongsvale_book_load(&book, vocabulary, strlen(vocabulary));
    if (loaded.number != TONGSVALE_DONE) {
        fprintf(stderr, "line %zu: %s\n", loaded.line, tongsvale_outcome_text(loaded.number));
        return 1;
    }
    for (size_t i = 0; i < DEVICES; i++) {
        const char *name = devices[i].name;
        struct tongsvale_cut_result cut = tongsvale_book_cut(&book, name, strlen(name), &work);
        if (cut.number != TONGSVALE_DONE || cut.count != 1) {
            fprintf(stderr, "%s is not one word\n", name);
            return 1;
        }
    }
    return 0;
}

/* Prints a guest's sentence in words, and of each device in it whether the guest may switch it. */
static void answer(const char *sentence, size_t length) {
    struct tongsvale_cut_result cut = tongsvale_book_cut(&book, sentence, length, &work);
    /* Any number but 0 refuses the sentence: it is malformed or too long, and the tokens there are not all. */
    if (cut.number != TONGSVALE_DONE) {
        printf("refused: %s\n", tongsvale_outcome_text(cut.number));
        return;
    }
    for (size_t i = 0; i < cut.count; i++) {
        struct tongsvale_token token = tongsvale_token_at(&work, i);
        printf("%s%.*s", i == 0 ? "" : " ", (int)(token.byte_end - token.byte_start), sentence + token.byte_start);
    }
    printf("\n");
    for (size_t i = 0; i < cut.count; i++) {
        struct tongsvale_token token = tongsvale_token_at(&work, i);
        const struct device *device = find_device(sentence + token.byte_start, token.byte_end - token.byte_start);
        if (device != NULL)
            printf("  %s: %s\n", device->name, device->for_guests ? "allowed" : "refused");
    }
}

int main(void) {
    static const char *const sentences[] = {
        "请打开客厅灯",
        "打开卧室电视",
        "关闭空调和卧室电视!",
        /* The characters of 客厅灯, which a guest may switch, stand in it; the word is another, and it is the owner's. */
        "打开客厅灯带",
        /* Not UTF-8. */
        "打开\xff",
    };
    if (start() != 0)
        return 1;
    for (size_t i = 0; i < sizeof(sentences) / sizeof(sentences[0]); i++)
        answer(sentences[i], strlen(sentences[i]));
    return 0;
}
