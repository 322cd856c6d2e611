#include "cases.h"

FILE *cases;

/* V, or V*N for N times V. */
static void write_times(int64_t number, size_t times) {
    if (times > 1)
        fprintf(cases, " %" PRId64 "*%zu", number, times);
    else if (times == 1)
        fprintf(cases, " %" PRId64, number);
}

static void write_cells(const char *word, const int64_t *cells, size_t count) {
    size_t first = 0;
    fputs(word, cases);
    for (size_t i = 1; i <= count; i++)
        if (i == count || cells[i] != cells[first]) {
            write_times(cells[first], i - first);
            first = i;
        }
    fputc('\n', cases);
}

static void write_places(const char *word, const int32_t *places, size_t count) {
    size_t first = 0;
    fputs(word, cases);
    for (size_t i = 1; i <= count; i++)
        if (i == count || places[i] != places[first]) {
            write_times(places[first], i - first);
            first = i;
        }
    fputc('\n', cases);
}

static void write_result(const char *word, struct door_result r) {
    fprintf(cases,
            "%s %" PRIu32 " %" PRIu32 " %" PRIu32 " %" PRIu32 " %" PRId32 " %" PRIu32 " %" PRIu32 " %" PRIu64
            " %" PRIu64 " %" PRIu32 " %" PRIu32 " %" PRIu32 "\n",
            word, r.refusal, r.fault, r.outcome, r.trap, r.halt, r.row, r.steps, r.read, r.written, r.base, r.top,
            r.mark);
}

void write_case(const struct continued *call) {
    static unsigned long number;
    if (!cases)
        return;
    fputs("image ", cases);
    for (size_t i = 0; i < call->length; i++)
        fprintf(cases, "%02x", call->image[i]);
    fprintf(cases, "\ncase file %lu\n", number++);
    write_cells("store", call->store, call->cells);
    write_places("input", call->input, call->inputs);
    write_places("output", call->output, call->places);
    fprintf(cases, "steps %" PRIu32 "\n", call->steps);
    write_result("from", call->from);
    fputs("call continue\n", cases);
}

void write_answer(struct door_result result, const int64_t *store, size_t cells, const int32_t *output, size_t places) {
    if (!cases)
        return;
    write_result("= result", result);
    if (result.refusal != 0)
        return;
    write_cells("= store", store, cells);
    write_places("= output", output, places);
}
