/*
 * The functions of hverolda.h, each of which hands its arguments to Node, where hverolda.wasm answers by its loader (by_node.mjs).
 * Linked in the place of libhverolda.a, it lets every program that is linked with the library, the differential run above all, ask the
 * browser's build. HVEROLDA_NODE and HVEROLDA_SCRIPT name Node and the script. For one thread.
 */
#define _POSIX_C_SOURCE 200809L
#define HVEROLDA_CALLER 2
#include "hverolda.h"

#include <stdio.h>
#include <stdlib.h>
#include <string.h>
#include <unistd.h>

/* An argument: a number where `bytes` is null, or else a slice of `number` elements of `size` bytes each. */
typedef struct argument {
    size_t number;
    void *bytes;
    size_t size;
    int written;
} argument;

static int to_node = -1, from_node = -1;

static void fail(const char *what)
{
    perror(what);
    exit(3);
}

static void start(void)
{
    int there[2], back[2];
    const char *node = getenv("HVEROLDA_NODE"), *script = getenv("HVEROLDA_SCRIPT");
    if (node == NULL || script == NULL || pipe(there) != 0 || pipe(back) != 0)
        fail("by_node: HVEROLDA_NODE, HVEROLDA_SCRIPT or a pipe");
    pid_t child = fork();
    if (child < 0)
        fail("by_node: fork");
    if (child == 0) {
        dup2(there[0], 0);
        dup2(back[1], 1);
        close(there[1]);
        close(back[0]);
        execlp(node, node, script, (char *)NULL);
        _exit(127);
    }
    close(there[0]);
    close(back[1]);
    to_node = there[1];
    from_node = back[0];
}

static void send_all(const void *bytes, size_t length)
{
    while (length > 0) {
        ssize_t sent = write(to_node, bytes, length);
        if (sent <= 0)
            fail("by_node: Node takes no more");
        bytes = (const char *)bytes + sent;
        length -= (size_t)sent;
    }
}

static void take_all(void *bytes, size_t length)
{
    while (length > 0) {
        ssize_t taken = read(from_node, bytes, length);
        if (taken <= 0)
            fail("by_node: Node has ended");
        bytes = (char *)bytes + taken;
        length -= (size_t)taken;
    }
}

/* The function's name, its arguments one after another; back come the struct's bytes and each slice that is written to. */
static void ask(const char *name, argument *arguments, size_t count, void *answer, size_t answer_size)
{
    if (to_node < 0)
        start();
    char padded[32] = { 0 };
    strncpy(padded, name, sizeof padded - 1);
    send_all(padded, sizeof padded);
    for (size_t at = 0; at < count; at++) {
        uint64_t number = arguments[at].number;
        send_all(&number, sizeof number);
        if (arguments[at].size > 0)
            send_all(arguments[at].bytes, arguments[at].number * arguments[at].size);
    }
    take_all(answer, answer_size);
    for (size_t at = 0; at < count; at++)
        if (arguments[at].written)
            take_all(arguments[at].bytes, arguments[at].number * arguments[at].size);
}

#define READ(slice) { slice##_length, (void *)(slice), sizeof *(slice), 0 }
#define WRITTEN(slice) { slice##_length, (slice), sizeof *(slice), 1 }
#define NUMBER(number) { (number), NULL, 0, 0 }
#define ASK(answer, name, ...)                                                                  \
    argument arguments[] = { __VA_ARGS__ };                                                     \
    answer told;                                                                                \
    memset(&told, 0, sizeof told);                                                              \
    ask(name, arguments, sizeof arguments / sizeof *arguments, &told, sizeof told);             \
    return told

uint32_t hverolda_rules(void)
{
    uint32_t told = 0;
    ask("rules", NULL, 0, &told, sizeof told);
    return told;
}

const char *hverolda_version(void)
{
    static char told[256];
    ask("version", NULL, 0, told, sizeof told - 1);
    return told;
}

const char *hverolda_refusal_text(uint32_t number)
{
    static char told[256];
    argument arguments[] = { NUMBER(number) };
    ask("refusalText", arguments, 1, told, sizeof told - 1);
    return told;
}

hverolda_verdict hverolda_judge(const uint8_t *input, size_t input_length)
{
    ASK(hverolda_verdict, "judge", READ(input));
}

hverolda_verdict hverolda_judge_by_table(const uint8_t *table, size_t table_length,
                                         const uint8_t *input, size_t input_length)
{
    ASK(hverolda_verdict, "judgeByTable", READ(table), READ(input));
}

hverolda_written hverolda_normalise(uint8_t *buffer, size_t buffer_length,
                                    const uint8_t *input, size_t input_length)
{
    ASK(hverolda_written, "normalise", WRITTEN(buffer), READ(input));
}

hverolda_comparison hverolda_compare(const uint8_t *first, size_t first_length,
                                     const uint8_t *second, size_t second_length)
{
    ASK(hverolda_comparison, "compare", READ(first), READ(second));
}

hverolda_kept hverolda_keep(const uint8_t *first, size_t first_length,
                            const uint8_t *second, size_t second_length)
{
    ASK(hverolda_kept, "keep", READ(first), READ(second));
}

hverolda_location hverolda_locate_value(const uint8_t *input, size_t input_length, size_t segment,
                                        size_t element, size_t repeat, size_t component)
{
    ASK(hverolda_location, "locateValue", READ(input), NUMBER(segment), NUMBER(element),
        NUMBER(repeat), NUMBER(component));
}

hverolda_part_found hverolda_value_part(const uint8_t *input, size_t input_length, size_t segment,
                                        size_t element, size_t repeat, size_t component)
{
    ASK(hverolda_part_found, "valuePart", READ(input), NUMBER(segment), NUMBER(element),
        NUMBER(repeat), NUMBER(component));
}

hverolda_parties_found hverolda_parties(const uint8_t *input, size_t input_length)
{
    ASK(hverolda_parties_found, "parties", READ(input));
}

hverolda_listing hverolda_read(uint8_t *bytes, size_t bytes_length,
                               uint32_t *table, size_t table_length,
                               const uint8_t *input, size_t input_length)
{
    ASK(hverolda_listing, "read", WRITTEN(bytes), WRITTEN(table), READ(input));
}

hverolda_written hverolda_write(const uint8_t *service, size_t service_length,
                                const uint8_t *bytes, size_t bytes_length,
                                const uint32_t *table, size_t table_length,
                                uint8_t *output, size_t output_length)
{
    ASK(hverolda_written, "write", READ(service), READ(bytes), READ(table), WRITTEN(output));
}

hverolda_written hverolda_acknowledge(const uint8_t *received, size_t received_length,
                                      const uint8_t *date, size_t date_length,
                                      const uint32_t *date_table, size_t date_table_length,
                                      const uint8_t *reference, size_t reference_length,
                                      const uint32_t *reference_table, size_t reference_table_length,
                                      const uint8_t *message, size_t message_length,
                                      const uint32_t *message_table, size_t message_table_length,
                                      uint8_t *output, size_t output_length)
{
    ASK(hverolda_written, "acknowledge", READ(received), READ(date), READ(date_table), READ(reference),
        READ(reference_table), READ(message), READ(message_table), WRITTEN(output));
}

hverolda_written hverolda_export(uint8_t *buffer, size_t buffer_length,
                                 const uint8_t *input, size_t input_length)
{
    ASK(hverolda_written, "export", WRITTEN(buffer), READ(input));
}

hverolda_written hverolda_import(const uint8_t *service, size_t service_length,
                                 const uint8_t *columns, size_t columns_length,
                                 uint8_t *output, size_t output_length)
{
    ASK(hverolda_written, "import", READ(service), READ(columns), WRITTEN(output));
}

hverolda_started hverolda_shelf_start(uint8_t *shelf, size_t shelf_length)
{
    ASK(hverolda_started, "shelfStart", WRITTEN(shelf));
}

hverolda_shelving hverolda_shelf_put(uint8_t *shelf, size_t shelf_length,
                                     const uint8_t *input, size_t input_length)
{
    ASK(hverolda_shelving, "shelfPut", WRITTEN(shelf), READ(input));
}

hverolda_got hverolda_shelf_get(const uint8_t *shelf, size_t shelf_length, size_t slot)
{
    ASK(hverolda_got, "shelfGet", READ(shelf), NUMBER(slot));
}

hverolda_written hverolda_shelf_remove(uint8_t *shelf, size_t shelf_length, size_t slot)
{
    ASK(hverolda_written, "shelfRemove", WRITTEN(shelf), NUMBER(slot));
}

hverolda_slot_numbers hverolda_shelf_slots(const uint8_t *shelf, size_t shelf_length)
{
    ASK(hverolda_slot_numbers, "shelfSlots", READ(shelf));
}

hverolda_sum_numbers hverolda_shelf_sums(const uint8_t *shelf, size_t shelf_length)
{
    ASK(hverolda_sum_numbers, "shelfSums", READ(shelf));
}

hverolda_started hverolda_shelf_carry(uint8_t *shelf, size_t shelf_length)
{
    ASK(hverolda_started, "shelfCarry", WRITTEN(shelf));
}

hverolda_started hverolda_shelf_carry_back(uint8_t *shelf, size_t shelf_length)
{
    ASK(hverolda_started, "shelfCarryBack", WRITTEN(shelf));
}

hverolda_morning hverolda_report(const uint8_t *file, size_t file_length)
{
    ASK(hverolda_morning, "report", READ(file));
}

hverolda_piece_end hverolda_piece(const uint8_t *file, size_t file_length)
{
    ASK(hverolda_piece_end, "piece", READ(file));
}
